# What several of tests/cases compare with the program. It is sourced by ./test.

# Whether the program does what a transcript says. Its lines after '> ' are a script, and a line after '$ charmlet' has
# the words of a command line, with which another command begins; without one the script is run. After '! ' stands what
# is said on standard error, after '= ' the exit status, if it isn't 0, and after '# ' what the transcript shows; all
# other lines are printed. Among the words SCRIPT is the script, and STORE a folder that is empty at first.
follows() {
  local part
  rm -rf "$work/parts" "$work/store" && mkdir "$work/parts" "$work/store"
  awk -v parts="$work/parts" '/^\$ charmlet/ && begun++ { part++ } { print >(parts "/" part + 0) }' "$1"
  for part in "$work/parts"/*; do
    follows_command "$part" || return 1
  done
}

# Whether the program does what a transcript of one command says.
follows_command() {
  local transcript=$1 status=0 words=(run SCRIPT)
  if grep -q '^\$ charmlet' "$transcript"; then
    read -ra words <<<"$(sed -n 's/^\$ charmlet *//p' "$transcript")"
  fi
  words=(${words[@]+"${words[@]/#SCRIPT/"$work/script"}"})
  words=(${words[@]+"${words[@]/#STORE/"$work/store"}"})
  sed -n 's/^> \{0,1\}//p' "$transcript" >"$work/script"
  grep -av '^[#$>]' "$transcript" >"$work/wanted" || true
  ./charmlet ${words[@]+"${words[@]}"} >"$work/printed" 2>"$work/said" || status=$?
  sed "s/^/! /; s/ \$//; s|$work/store|STORE|g; s|$work/script|SCRIPT|g" "$work/said" >>"$work/printed"
  [ "$status" -eq 0 ] || echo "= $status" >>"$work/printed"
  diff "$work/wanted" "$work/printed"
}

# Whether the commands of a page's block, its lines after '$ ', print its other lines. Bash runs them
# one after another, and echoes each, in a folder with the scripts of a user, the examples and
# nothing else. What is said on standard error counts too.
does_commands() {
  rm -rf "$work/shell" && mkdir "$work/shell" &&
    ln -s "$top"/{charmlet,backup,check,dump,explain,examples} "$work/shell" || return 1
  sed -n 's/^\$ //p' "$1" >"$work/commands"
  # Some try again until a program does what it has to.
  (cd "$work/shell" && timeout -k 5 900 bash -v "$work/commands") </dev/null >"$work/printed" 2>&1 || true
  diff <(sed 's/^\$ //' "$1") "$work/printed"
}

# Whether the files in this folder are those of the example of a checkpoint.
has_files() {
  (cd "$1" && for half in half0 half1; do echo "$half" && od -An -v -tx1 "$half"; done) | cmp examples/checkpoint.files -
}

# Whether standard error has this text, what to do after this line, and below it the cause, if one is named.
is_said() {
  diff <(printf '%s\n' "$1$(advice_after "$2")" "${@:3}") "$work/said"
}

# What the program says to do after a refused creation, showing or restart.
advice_after() {
  case $1 in
    'refused 14 Damaged'*) echo ": see 'Damaged' in docs/OPERATING.md" ;;
    'refused 15 NothingHere') echo ": the folder has none; 'charmlet run SCRIPT --dir DIR' makes one" ;;
    'refused 17 BadPes') echo ': a store has 1 to 64 processors' ;;
    'refused 20 AlreadyHere') echo ": the folder has one; go on with 'charmlet restart DIR SCRIPT'" ;;
  esac
}

# Whether that example is refused in this folder with this line, and for this cause, if one is named.
is_refused_in() {
  local status=0
  ./charmlet run examples/checkpoint.charmlet --dir "$1" >"$work/printed" 2>"$work/said" || status=$?
  [ "$status" -eq 1 ] && [ "$(cat "$work/printed")" = "$2" ] && is_said "cannot create store" "${@:2}"
}

# Whether the store in this folder is shown as these lines.
is_shown_as() {
  ./charmlet show "$1" >"$work/printed" 2>/dev/null && [ "$(cat "$work/printed")" = "$2" ]
}

# Whether a folder that can't be shown is answered with this line, and this cause, if one is named.
shows_none() {
  local status=0
  ./charmlet show "$1" >"$work/printed" 2>"$work/said" || status=$?
  [ "$status" -eq 1 ] && [ "$(cat "$work/printed")" = "$2" ] && is_said "cannot show store" "${@:2}"
}

# Whether the store in this folder comes back for a script on so many processors, and prints these lines.
restarts_as() {
  printf '%s\n' "$2" >"$work/restarting" && ./charmlet restart "$1" "$work/restarting" --pes "$3" >"$work/printed" 2>/dev/null &&
    diff <(echo "$4") "$work/printed"
}

# Whether no store comes back from this folder on so many processors, with this line and nothing else, and for this cause, if
# one is named.
restarts_none() {
  local status=0
  printf 'status 7 1\n' >"$work/restarting"
  ./charmlet restart "$1" "$work/restarting" --pes "$2" >"$work/printed" 2>"$work/said" || status=$?
  [ "$status" -eq 1 ] && [ "$(cat "$work/printed")" = "$3" ] && is_said "cannot restart store" "${@:3}"
}

# Makes what several cases look at: in $work/folder the store of the example of a checkpoint, in
# $work/cut that store with half 0 cut before its gate, and $work/no-store, which is empty.
make_stores() {
  [ ! -d "$work/folder" ] || return 0
  mkdir "$work/folder" "$work/cut" "$work/no-store"
  ./charmlet run examples/checkpoint.charmlet --dir "$work/folder" >/dev/null 2>&1 || true
  head -c 51 "$work/folder/half0" >"$work/cut/half0" || true
}

# The cause of a refusal where there is no folder.
no_folder="$work/no-folder: there is no such folder"
