# The laboratory, which tries the crashes of a script.

# Whether the laboratory finds this of a script.
lab_finds() {
  ./charmlet lab "$1" >"$work/printed" 2>"$work/said" && [ "$(cat "$work/printed")" = "$2" ] && [ ! -s "$work/said" ]
}

# Whether it finds two images after a flush, of which each makes six calls of the disk.
lab_finds_checkpoints() {
  printf 'array 0 1\nsupply 1 1\nreq 7 1 0 0 65535 5\ndeliver 0 c7.1\nflush\ncheckpoint\ncheckpoint\n' >"$work/images" &&
    lab_finds "$work/images" 'lab stops 22 outcomes 132 bad 0'
}

# Whether it says on a terminal how far it is, where that takes more than a second, and takes it away before it says what it
# found; and says nothing of that where standard error is a file.
lab_tells_how_far() {
  local number
  {
    printf 'array 0 1\nsupply 1 1\nreq 7 1 0 0 65535 5\ndrain 1\n'
    for number in {2..400}; do
      printf 'req 7 %d 0 0 0 1\ndrain 1\nflush\n' "$number"
    done
  } >"$work/many-flushes"
  script -qec "./charmlet lab $work/many-flushes" /dev/null </dev/null | tr -d '\r' >"$work/printed" || return 1
  grep -qx $'\(lab stops [0-9]* outcomes [0-9]* bad 0 so far\)\{1,\}\033\[Klab stops 1602 outcomes 9612 bad 0' "$work/printed" &&
    lab_finds "$work/many-flushes" 'lab stops 1602 outcomes 9612 bad 0'
}

# Whether a script of no processors has no crashes to try.
lab_finds_none() {
  local status=0
  printf 'array 0 1\npes 0\n' >"$work/none"
  ./charmlet lab "$work/none" >"$work/printed" 2>"$work/said" || status=$?
  [ "$status" -eq 1 ] && [ "$(cat "$work/printed")" = 'refused 17 BadPes' ] &&
    is_said "cannot create store" 'refused 17 BadPes'
}

# Whether a malformed script has none either, and is named.
lab_reads_first() {
  local status=0
  printf 'array 0 1\nflush now\n' >"$work/malformed"
  ./charmlet lab "$work/malformed" >"$work/printed" 2>"$work/said" || status=$?
  [ "$status" -eq 2 ] && [ ! -s "$work/printed" ] && diff - "$work/said" <<'LINES'
script line 2
  flush now
'now' is a word too many: the line is 'flush'
LINES
}

group='the laboratory'
count "the crashes of the first run" lab_finds examples/first-run.charmlet 'lab stops 14 outcomes 84 bad 0'
count "the crashes of a script with images" lab_finds_checkpoints
count "the crashes of the ticket office" lab_finds examples/ticket-office.charmlet 'lab stops 18 outcomes 108 bad 0'
if command -v script >/dev/null 2>&1; then
  count "the laboratory's words on a terminal" lab_tells_how_far
else
  skip "$group" 1 "there is no command 'script', which makes a terminal"
fi
count "the laboratory's refusal of a script" lab_finds_none
count "the laboratory's malformed script" lab_reads_first
