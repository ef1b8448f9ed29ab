# The scripts of the tree, those of tests/cases/restarts.sh and tests/cases/stress.sh aside.

# Whether it says which build it is.
tells_its_version() {
  [ "$(./charmlet --version | tail -n 2)" = "kit $(rt version)"$'\nproved' ]
}

# Whether the program of a copy of the tree is taken for a proved one.
takes_its_program() {
  [ "$(PATH=/usr/bin:/bin "$work/copy/charmlet" show "$work/no-store" 2>/dev/null)" = 'refused 15 NothingHere' ]
}

# Whether a copy of the tree has its program as a proved one, whatever is done to crates that it doesn't stand on, and hasn't
# once a byte of a source is another one, or another program has its place.
knows_its_sources() {
  local copy=$work/copy
  mkdir -p "$copy/crates/charmlet/out" &&
    tar c charmlet tools crates.txt crates/*/src crates/*/specs crates/*/proofs |
    tar x -C "$copy" &&
    cp -p crates/charmlet/out/charmlet{,.seal} "$copy/crates/charmlet/out" && takes_its_program || return 1
  sleep 0.1
  echo >>"$copy/crates/charmlet_storage_tests/src/lib.rt" && echo '# A comment.' >>"$copy/crates.txt" && takes_its_program || return 1
  echo >>"$copy/crates/charmlet/src/main.rt"
  ! takes_its_program || return 1
  cp crates/charmlet/src/main.rt "$copy/crates/charmlet/src/main.rt" && takes_its_program || return 1
  printf '#!/bin/sh\necho "refused 15 NothingHere"\n' >"$copy/crates/charmlet/out/charmlet"
  ! takes_its_program
}

# Whether the program takes its script from standard input, by either name.
reads_standard_input() {
  ./charmlet run - <examples/first-run.charmlet 2>/dev/null | cmp examples/first-run.out - &&
    cat examples/first-run.charmlet | ./charmlet run /dev/stdin 2>/dev/null | cmp examples/first-run.out -
}

# Whether the fast build that isn't proved was compiled, and does with the examples what it has to.
keeps_a_program() {
  local file script
  ended kept && file=$(tail -n 1 "$work/kept") && [ "$file" = "$(kept_file charmlet)" ] || {
    cat "$work/kept" >&2
    return 1
  }
  for script in examples/*.charmlet; do
    "$file" run "$script" | cmp - "${script%.charmlet}.out" || return 1
  done
  [ "$("$file" lab examples/first-run.charmlet)" = 'lab stops 14 outcomes 84 bad 0' ]
}

# Whether each script answers --help with its usage, and a word that it doesn't take with a message and
# 2. The programs' commands have helps of their own, which transcripts and commands show.
answers_help() {
  local tried status wrong=0
  for tried in $(find . tools tools/bench stress tests -maxdepth 1 -type f -perm -u+x); do
    case $tried in ./charmlet | ./dump | ./explain) continue ;; esac
    status=0
    timeout 60 "$tried" --help </dev/null >"$work/printed" 2>"$work/said" || status=$?
    if [ "$status" -ne 0 ] || [ -s "$work/said" ] || [[ ! $(head -n 1 "$work/printed") =~ ^(usage|${tried##*/}) ]]; then
      echo "$SCRIPT: $tried --help ends with $status, and prints no usage" >&2
      wrong=1
    fi
    status=0
    timeout 60 "$tried" --no-such-word </dev/null >"$work/printed" 2>"$work/said" || status=$?
    if [ "$status" -ne 2 ] || [ ! -s "$work/said" ]; then
      echo "$SCRIPT: $tried --no-such-word ends with $status, and not with a message and 2" >&2
      wrong=1
    fi
  done
  [ "$wrong" -eq 0 ]
}

# The block of a page that begins with this line.
block_of() {
  awk -v first="$2" '/^```/ { inside = !inside; begins = inside; next } begins { is_it = $0 == first; begins = 0 } inside && is_it' "$1"
}

# Whether the walk is as it has to be, and stands so in the README.
walks() {
  ./tour 2>/dev/null | diff examples/tour/out - &&
    block_of README.md "$(head -n 1 examples/tour/out)" | diff examples/tour/out -
}

group='scripts of the tree'
make_stores
if [ -n "$is_proved" ]; then
  count "the version" tells_its_version
  count "the program of a copy of the tree" knows_its_sources
else
  skip "$group" 2 "the program isn't proved"
fi
count "the builds that serve until one is proved" sums_well 'trials of such builds' python3 tests/keep.py
count "the one of these sources" keeps_a_program
count "the script from standard input" reads_standard_input
count "the walk" walks
count "the help of each script" answers_help
