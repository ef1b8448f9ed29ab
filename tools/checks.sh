# What the scripts share that try something and count what goes well. It is sourced after
# tools/programs.sh.

# How many trials passed, and how many failed.
passed=0
failed=0

# Counts a trial that failed, and says why.
fails() {
  failed=$((failed + 1))
  echo "$SCRIPT: $1" >&2
}

# Prints the sum, and says whether nothing failed and something passed, or as much as the word says.
sum_up() {
  echo "$passed passed, $failed failed"
  [ "$failed" -eq 0 ] && [ "$passed" -gt 0 ] && [ "$passed" -eq "${1-$passed}" ]
}

# Adds the sum in the last line of a file to `passed` and `failed`. Without one, or where nothing was
# tried, one more failed.
add_sum() {
  local sum more_passed more_failed
  sum=$(tail -n 1 "$1" | sed -nE 's/^([0-9]+) passed, ([0-9]+) failed$/\1 \2/p')
  read -r more_passed more_failed <<<"${sum:-0 1}"
  [ $((more_passed + more_failed)) -gt 0 ] || more_failed=1
  passed=$((passed + more_passed)) failed=$((failed + more_failed))
}

# How many trials the sum in the last line of a file counts.
many_in() {
  local sum
  sum=$(tail -n 1 "$1" | sed -nE 's/^([0-9]+) passed, ([0-9]+) failed$/\1 + \2/p')
  echo $((${sum:-0}))
}

# Prints the file of the program that is tried: the proved one, or the unproved one that
# `./test --cases` names in UNPROVED_PROGRAM.
tried_program() {
  if [ -n "${UNPROVED_PROGRAM-}" ]; then
    echo "$UNPROVED_PROGRAM"
  elif is_proved charmlet; then
    program_file charmlet
  else
    fail "there is no proved program that is up to date: run ./build first" 6
  fi
}

# Compiles the program of probes, unless it is kept, and prints its file.
program_of_probes() {
  "$top/tools/keep" --fast charmlet_probe || fail "the program of probes isn't compiled" "${1-1}"
}
