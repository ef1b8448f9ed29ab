# What the scripts share that compare the malformed line of a script, in $work/script, as the program
# names it with the one that tests/malformed-line names. A purpose is 'run' or 'restart', and maybe
# ' by workers' after it.

# Leaves in `named` the line that the program names, and its status, as tests/malformed-line has
# them. There is no folder for a store, so that no line of the script is run.
name_line() {
  local said status=0 words=(run "$work/script" --dir "$work/none")
  [[ $1 != restart* ]] || words=(restart "$work/none" "$work/script")
  [[ $1 != *' by workers' ]] || words+=(--workers)
  said=$("$program" "${words[@]}" 2>&1 >/dev/null) || status=$?
  case $status$said in
    '1cannot create store'* | '1cannot restart store'*) named=' 0' ;;
    *) named="${said%%$'\n'*} $status" ;;
  esac
}

# Leaves in `found` the line that tests/malformed-line names, and its status.
find_line() {
  local said status=0 words=()
  [[ $1 != *' by workers' ]] || words+=(--workers)
  [[ $1 != restart* ]] || words+=(--restart)
  said=$(tests/malformed-line ${words[@]+"${words[@]}"} "$work/script" 2>&1) || status=$?
  found="$said $status"
}
