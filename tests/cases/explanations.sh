# The explanations of malformed lines.

# Whether each malformed script is explained so, at the line that the program and tests/malformed-line name.
explains_lines() {
  local script line text reason status
  while IFS='|' read -r script line text reason; do
    printf '%b' "$script" >"$work/malformed"
    status=0
    ./explain "$work/malformed" >"$work/printed" || status=$?
    [ "$status" -eq 2 ] && diff <(printf 'script line %s\n  %s\n%s\n' "$line" "$text" "$reason") "$work/printed" || return 1
    ./charmlet run "$work/malformed" >/dev/null 2>"$work/said" && return 1
    diff "$work/printed" "$work/said" && [ "$(tests/malformed-line "$work/malformed")" = "script line $line" ] || return 1
  done <<'LINES'
array 0 1\nsuply 1 1\n|2|suply 1 1|'suply' is no word that a line begins with; did you mean 'supply'?
array 0 1\nfluhs\n|2|fluhs|'fluhs' is no word that a line begins with; did you mean 'flush'?
array 0 1\nChecpiont\n|2|Checpiont|'Checpiont' is no word that a line begins with; did you mean 'checkpoint'?
array 0 1\nchcpiont\n|2|chcpiont|'chcpiont' is no word that a line begins with
array 0 1\nstat 0 0\n|2|stat 0 0|'stat' is no word that a line begins with; did you mean 'state'?
array 0 1\nstatu 7 1\n|2|statu 7 1|'statu' is no word that a line begins with; did you mean 'status'?
array 0 1\nCENSUS\n|2|CENSUS|'CENSUS' is no word that a line begins with; did you mean 'census'?
array 0 1\nrqe 7 1 0 0 0\n|2|rqe 7 1 0 0 0|'rqe' is no word that a line begins with; did you mean 'req'?
array 0 1\nreg 7 1 0 0 0\n|2|reg 7 1 0 0 0|'reg' is no word that a line begins with; did you mean 'req'?
array 0 1\nmosve 0 0 0\n|2|mosve 0 0 0|'mosve' is no word that a line begins with; did you mean 'move'?
array 0 1\nrod 7 1 0 0 0\n|2|rod 7 1 0 0 0|'rod' is no word that a line begins with
array 0 1\nflus\0007\n|2|flus\x07|'flus\x07' is no word that a line begins with
aray 0 1\nflush\n|1|aray 0 1|'aray' is no word that a line begins with; did you mean 'array'?
array 0 1\n\nsupply\n|3|supply|it has too few words: the line is 'supply K N'
array 0 1\nflush now\n|2|flush now|'now' is a word too many: the line is 'flush'
array 0 1\nstatus 7 -1|2|status 7 -1|'-1' is no number: it has other bytes than digits
array 0 1\nmove 0 1 065536\n|2|move 0 1 065536|'065536' is past its limit, 65535
array 0 1\nreq 7 18446744073709551616 0 0 0\n|2|req 7 18446744073709551616 0 0 0|'18446744073709551616' is past its limit, 18446744073709551615
array 0 1\nsupply 1 10001\n|2|supply 1 10001|'10001' is past its limit, 10000
array 0 1\nsupply 7 1\n|2|supply 7 1|'7' is no kind: those are 1 to 6
array 0 1\nhandler m1 0 0\n|2|handler m1 0 0|'m1' is no name: those have 1 to 32 letters, and nothing else
array 0 1\nhandler abcdefghijklmnopqrstuvwxyzABCDEFG 0 0\n|2|handler abcdefghijklmnopqrstuvwxyzABCDEFG 0 0|'abcdefghijklmnopqrstuvwxyzABCDEFG' is no name: those have 1 to 32 letters, and nothing else
array 0 1\ndeliver 0 c7\n|2|deliver 0 c7|'c7' is no message: it is cC.N or eA.I.N
array 0 1\ndeliver 0 e65536.1.1\n|2|deliver 0 e65536.1.1|'e65536.1.1' is no message: '65536' in it is past its limit, 65535
array 0 1\n# caf\0303\0251\n|2|# caf\xc3\xa9|the byte \xc3 at column 6 is not ASCII
array 0 1\n\0000\0001flush\0377|2|\x00\x01flush\xff|the byte \xff at column 8 is not ASCII
array 0 1\ndeliver 0 c.1|2|deliver 0 c.1|'c.1' is no message: '' in it is no number: it has no digits
array 0 1\nflush\r\n|2|flush\x0d|'flush\x0d' is no word of a line: a carriage return, \x0d, is no space and ends no line
array 0 1\nstate\t0 0\n|2|state\x090 0|'state\x090' is no word of a line: a tab, \x09, is no space
array 0 1\ndrain 1\t\n|2|drain 1\x09|'1\x09' is no number: it has other bytes than digits, for a tab, \x09, is no space
array 0 1\nstate 0\t0\n|2|state 0\x090|'0\x090' is one word: a tab, \x09, is no space
array 0 1\n\0000\0001\00010\n|2|\x00\x01\x010|'\x00\x01\x010' is no word that a line begins with
array 0 1\n  \n|2|  |it has spaces alone, and no word
array 0 1\n # a\n|2| # a|'#' is no word of a line: a comment has # as its first byte
array 0 1\nflush\npes 2\n|3|pes 2|'pes' is out of its place: it stands before all lines but 'array', 'pes' and 'handler'
array 0 1\npes 2\npes 2\n|3|pes 2|'pes' stands twice
array 0 1\narray 00 2\n|2|array 00 2|'array' stands twice for this array
flush\nsuply\n|1|flush|no line of the script is an 'array' line, 'array A K'
|1||no line of the script is an 'array' line, 'array A K'
array 0 7\nflush\n|1|array 0 7|'7' is no kind: those are 1 to 6
array 0 1 2|1|array 0 1 2|'2' is a word too many: the line is 'array A K'
\0357\0273\0277array 0 1\n|1|\xef\xbb\xbfarray 0 1|it begins with a byte order mark, \xef\xbb\xbf; save the script without one
array 0 1\r\nflush\r\n|1|array 0 1\x0d|line 1 ends with a carriage return; save the script with Unix line ends
# a\r\narray 0 1\r\nflush|1|# a\x0d|line 1 ends with a carriage return; save the script with Unix line ends
flush\r\n|1|flush\x0d|line 1 ends with a carriage return; save the script with Unix line ends
LINES
}

# Whether this is said of the script on standard input with these words before it: of a file, and of a pipe, whose first byte
# isn't lost; and no more than the line with --line, and by tests/malformed-line.
is_explained() {
  local wanted=2 line=${1%%$'\n'*} status=0
  [ "$line" != 'every line is well formed' ] || wanted=0 line=
  cat >"$work/explained"
  ./explain "${@:2}" "$work/explained" >"$work/printed" || status=$?
  [ "$status" -eq "$wanted" ] && diff <(echo "$1") "$work/printed" && [ "$(./explain --line "${@:2}" "$work/explained")" = "$line" ] && [ "$(tests/malformed-line "${@:2}" "$work/explained")" = "$line" ] &&
    diff "$work/printed" <(cat "$work/explained" | ./explain "${@:2}" -) &&
    diff "$work/printed" <(cat "$work/explained" | ./explain "${@:2}" /dev/stdin) &&
    diff "$work/printed" <(./explain "${@:2}" <(cat "$work/explained"))
}

# Whether a reason is found for each script of the tables of malformed ones.
finds_each_reason() {
  local purpose line script words
  while IFS='|' read -r purpose line script; do
    [ "$line" -gt 0 ] || continue
    words=()
    [[ $purpose != restart* ]] || words+=(--restart)
    [[ $purpose != *' by workers' ]] || words+=(--workers)
    printf '%b' "$script" >"$work/malformed"
    ./explain ${words[@]+"${words[@]}"} "$work/malformed" >"$work/printed"
    [ "$(head -n 1 "$work/printed")" = "script line $line" ] && [ "$(wc -l <"$work/printed")" -ge 3 ] &&
      ! grep -qx 'the line spells nothing' "$work/printed" || return 1
  done < <(sed '1,/^$/d' tests/malformed/scripts.txt
    sed '1,/^$/d; s/.*/run|2|array 0 1\\n&\\n/' tests/malformed/lines.txt
    sed '1,/^$/d; s/.* | //; s/.*/restart|1|&\\n/' tests/malformed/limits.txt | grep -v '|array \||pes ')
}

# Whether a script without a malformed line is said to have none, and one of a restart is taken for one.
explains_whole_scripts() {
  local script
  for script in examples/*.charmlet examples/*/*.charmlet; do
    [ "$(./explain "$script")" = 'every line is well formed' ] && [ -z "$(tests/malformed-line "$script")" ] || return 1
  done
  is_explained 'every line is well formed' <examples/first-run.charmlet &&
    is_explained 'every line is well formed' --restart <examples/repeating-clients.restart &&
    is_explained 'every line is well formed' --restart < <(printf '# a\r\n') &&
    is_explained "script line 2
  array 0 1
'array' does not stand in the script of a restart, which has the arrays of its store" --restart <examples/first-run.charmlet &&
    is_explained "script line 1
  pes 2
'pes' does not stand in the script of a restart, whose processors are given by --pes" --restart < <(printf 'pes 2\n') &&
    is_explained "script line 65
  array 64 1
'array' is one too many: there are at most 64" < <(printf 'array %d 1\n' {0..64}) &&
    is_explained 'every line is well formed' --workers < <(printf 'array 0 1\ndrain 1\n') &&
    is_explained "script line 1
  deliver 0 c7.1
'deliver' does not stand in a script that is run with --workers" --restart --workers < <(printf 'deliver 0 c7.1\n') &&
    is_explained "script line 2
  flush\\x0d
line 1 ends with a carriage return; save the script with Unix line ends" --restart < <(printf '# a\r\nflush\r\n') &&
    is_explained "script line 1
  # a
no line of the script is an 'array' line, 'array A K'; line 3 begins like one:
  array 0 7
'7' is no kind: those are 1 to 6" < <(printf '# a\nsuply\narray 0 7\narray 1 8\n') &&
    is_explained "script line 1
  # a
no line of the script is an 'array' line, 'array A K'; line 3 begins like one:
  arary 0 1
'arary' is no word that a line begins with; did you mean 'array'?" < <(printf '# a\nsuply\narary 0 1\narray 1 8\n') &&
    is_explained "script line 2
  # \\xc3\\x0d
the byte \\xc3 at column 3 is not ASCII" --restart < <(printf '# a\r\n# \303\r\n') &&
    is_explained "script line 1
  aray 0 1
'aray' is no word that a line begins with" --restart < <(printf 'aray 0 1\n') &&
    is_explained "script line 1
  delver 0 c7.1
'delver' is no word that a line begins with; did you mean 'deliver'?" --restart < <(printf 'delver 0 c7.1\n') &&
    is_explained "script line 1
  delver 0 c7.1
'delver' is no word that a line begins with" --restart --workers < <(printf 'delver 0 c7.1\n')
}

# Whether the calls of a well formed script are named whose handler isn't there, and no others.
explains_calls() {
  is_explained "every line is well formed
lines 5 and 7 call 'greet', and no handler line has that name; did you mean 'great'?
line 8 calls 'Add', and no handler line has that name; did you mean 'add'?
lines 9, 10 and 11 call 'ad', and no handler line has that name; did you mean 'add'?
line 12 calls 'pay', and no handler line has that name" \
    < <(printf 'handler great 0 1\nhandler add 9 9\nhandler great 0 2\narray 0 1\n'
      printf 'call 7 1 %s 0\n' greet great greet Add ad ad ad pay add) &&
    is_explained "every line is well formed
line 3 calls 'add', and no handler line has that name
a store keeps no handlers: the script of a restart has its own" --restart < <(printf 'handler pay 0 0\ncall 7 1 pay 0\ncall 7 1 add 0\n') &&
    is_explained 'every line is well formed' --restart < <(printf 'handler pay 0 0\ncall 7 1 pay 0\n') &&
    is_explained "script line 3
  flsh
'flsh' is no word that a line begins with; did you mean 'flush'?" < <(printf 'array 0 1\ncall 7 1 pay 0\nflsh\n') &&
    is_explained "every line is well formed
lines $(seq -s ', ' 2 20), 21 and 5 more call 'pay', and no handler line has that name
$(for letter in {b..t}; do echo "line $((25 + $(printf %d "'$letter") - 96)) calls '$letter', and no handler line has that name"; done)
in all 24 names are called that no handler line has" \
    < <(echo 'array 0 1' && printf 'call 7 1 pay %d\n' {1..25} && printf 'call 7 1 %s 0\n' {b..x})
}

# Whether this is said of a long script in a file, at the line that the program names, and this of the same one from a pipe.
# The program doesn't read what is past the greatest length, and so its reason may differ there.
is_long() {
  local line=${1%%$'\n'*}
  ./charmlet run "$work/long" 2>"$work/said" && return 1
  diff <(echo "$1") <(./explain "$work/long") && diff <(echo "$2") <(cat "$work/long" | ./explain -) &&
    [ "$(head -n 1 "$work/said")" = "$line" ] && [ "$(wc -l <"$work/said")" -eq 3 ] &&
    [ "$(./explain --line "$work/long")" = "$line" ] &&
    [ "$(tests/malformed-line "$work/long")" = "$line" ]
}

# Whether long lines are cut, and a script of the greatest length is explained, and one that is longer, as the program has it.
explains_long_scripts() {
  local signs zeros nothing=''
  signs=$(printf '#%.0s' {1..60})
  zeros=$(printf %0100d 0)
  is_explained "script line 2
  $zeros
'$zeros' is no word that a line begins with" < <(printf 'array 0 1\n%s\n' "$zeros") &&
    is_explained "script line 2
  ${zeros:40} ..
'${zeros:40} ..' is no word that a line begins with" < <(printf 'array 0 1\n0%s\n' "$zeros") || return 1
  { echo 'array 0 1' && head -c 1048566 /dev/zero | tr '\0' '#'; } >"$work/long"
  [ "$(./explain "$work/long")" = 'every line is well formed' ] && ./charmlet run "$work/long" || return 1
  echo >>"$work/long"
  is_long "script line 2
  $signs ..
the script has 1048577 bytes, and may have 1048576: the first one past them ends line 2" "script line 2
  $signs ..
the script has more than 1048576 bytes: the first one past them ends line 2" || return 1
  # The sixth byte of its third line is past them.
  { echo 'array 0 1' && head -c 1048560 /dev/zero | tr '\0' '#' && printf '\nst\0te\303\0 7\n' && printf 'flush%d\n' {1..99}; } >"$work/long"
  is_long "script line 3
  st\\x00te\\xc3\\x00 7
the script has $(wc -c <"$work/long") bytes, and may have 1048576: the first one past them stands in line 3, at column 6" "script line 3
  st\\x00te\\xc3
the script has more than 1048576 bytes: the first one past them stands in line 3, at column 6" || return 1
  { echo 'array 0 1' && head -c 1048560 /dev/zero | tr '\0' '#' && printf '\303######'; } >"$work/long"
  is_long "script line 2
  $signs ..
the byte \\xc3 at column 1048561 is not ASCII"{,} || return 1
  { echo 'array 0 1' && head -c 1048567 /dev/zero | tr '\0' '\n'; } >"$work/long"
  is_long "script line 1048568
  $nothing
the script has 1048577 bytes, and may have 1048576: the first one past them ends line 1048568" "script line 1048568
  $nothing
the script has more than 1048576 bytes: the first one past them ends line 1048568" || return 1
  { head -c 1048576 /dev/zero | tr '\0' '#' && printf '\narray 0 1\n'; } >"$work/long"
  is_long "script line 1
  $signs ..
no line of the first 1048576 bytes is an 'array' line, 'array A K'"{,}
}

# Whether a script that can't be read is answered so, with the cause.
explains_no_file() {
  local name cause status
  while IFS='|' read -r name cause; do
    status=0
    ./explain "$name" <&- >"$work/printed" 2>"$work/said" || status=$?
    [ "$status" -eq 2 ] && [ ! -s "$work/printed" ] &&
      diff <(printf '%s\n' 'cannot read script' "$name: $cause") "$work/said" || return 1
  done <<LINES
$work/no-folder|No such file or directory (os error 2)
$work|Is a directory (os error 21)
|No such file or directory (os error 2)
-|No such file or directory (os error 2)
LINES
}

group='explanations'
count "the explanations of malformed lines" explains_lines
count "the reasons of malformed scripts" finds_each_reason
count "the explanations of whole scripts" explains_whole_scripts
count "the explanations of calls without a handler" explains_calls
count "the explanations of long scripts" explains_long_scripts
count "the explanations of scripts that can't be read" explains_no_file
count "the malformed lines of mutated scripts" sums_well 'mutated scripts' stress/mutated-scripts
count "the malformed scripts" sums_well 'malformed scripts' stress/malformed-scripts
