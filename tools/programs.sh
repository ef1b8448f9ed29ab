# What the scripts of the tree share. It is sourced, with `top` set to the folder of the tree.

# What this script is called where it says something.
SCRIPT=${0##*/}

# Answers --help with the comment at the head of this script, and ends it.
answer_help() {
  [ "$*" = --help ] || return 0
  sed -n '2,/^[^#]/s/^# \{0,1\}//p' "$0"
  exit
}

# Says what is wrong and ends this script, with 1 or with the status that follows.
fail() {
  echo "$SCRIPT: $1" >&2
  exit "${2-1}"
}

# Ends this script where a command isn't there: `need COMMAND WHY`.
need() { command -v "$1" >/dev/null 2>&1 || fail "the command '$1' isn't on the PATH, and $2" 127; }

# Ends this script where the toolchain isn't there.
need_rt() {
  command -v rt >/dev/null 2>&1 ||
    fail "the command 'rt' of the Rattle toolchain isn't on the PATH, and ${1-nothing can be proved without it}" 127
}

# Makes a folder for passing files, `work`, which goes as this script ends. The words are mktemp's.
make_work() {
  work=$(mktemp -d "$@") || exit 1
  trap clean_up EXIT
}
clean_up() { rm -rf "$work"; }

# Why the last command failed, as it said in $work/said.
reason() {
  local said
  said=$(tail -n 1 "$work/said")
  [ -n "$said" ] || said='no reason was given (is there room for passing files?)'
  echo "${said##*: }"
}

# The crates that a program stands on, itself last, each after those below it.
crates_of() {
  awk -v program="$1" '
    /^[a-z]/ { name = $1; sub(/:$/, "", name); below[name] = $0; sub(/^[^:]*:/, "", below[name]) }
    function visit(name, count, deps, i) {
      if (!(name in below) || (name in seen)) return
      seen[name] = 1
      count = split(below[name], deps, " ")
      for (i = 1; i <= count; i++) visit(deps[i])
      print name
    }
    END { visit(program) }
  ' "$top/crates.txt"
}

# The folders of what a program is made from.
folders_of() {
  local crate folder
  for crate in $(crates_of "$1"); do
    for folder in src specs proofs; do
      [ ! -d "$top/crates/$crate/$folder" ] || echo "crates/$crate/$folder"
    done
  done
}

# A sum of the names and the bytes of all that a program is made from.
sources_of() {
  (
    cd "$top" || exit
    {
      for crate in $(crates_of "$1"); do
        grep "^$crate:" crates.txt
      done
      folders_of "$1" | xargs sh -c 'find "$@" -type f -print0' - | LC_ALL=C sort -z | xargs -0 sha256sum
    } | sha256sum | cut -d' ' -f1
  )
}

# Where a program is built, and where its seal is: the sums of its sources and of itself, and the kit that proved it.
program_file() { echo "$top/crates/$1/out/$1"; }
seal_file() { echo "$(program_file "$1").seal"; }

# Where a program is kept that isn't proved, and serves until it is: the fast one, and the one that
# is compiled first. It goes by the name of its file.
kept_file() { echo "$top/out/kept/$1"; }
first_file() { echo "$top/out/kept/first/$1"; }

# The seal of a built program: this sum of its sources, its own, and this line of the kit.
seal_with() {
  printf 'sources %s\nprogram %s\nkit %s\n' "$1" "$(sha256sum <"$2" | cut -d' ' -f1)" "$3"
}

# The seal that fits the sources and the proved program as they are now, with this line of the kit.
seal_of() { seal_with "$(sources_of "$1")" "$(program_file "$1")" "$2"; }

# Whether this file of a program is there, with a seal beside it, and of what the program's sources
# are now. Where nothing was touched since it was last held against its seal that is known at once,
# and else by the sums, as in a copy of the tree. The time of the seal is a second before the sums
# are taken, so that no later change is missed.
is_sealed() {
  local file=$2 seal=$2.seal since
  [ -x "$file" ] && [ -f "$seal" ] || return 1
  since=$(date -d '1 second ago' +%s.%N)
  [ -n "$(newer_than "$seal" "$1"; find "$file" -cnewer "$seal")" ] || return 0
  [ "$(seal_with "$(sources_of "$1")" "$file" "$(kit_of "$file")")" = "$(cat "$seal")" ] || return 1
  touch -d "@$since" "$seal" 2>/dev/null || true
}

# Something that a program is made from and that was touched after this file, if anything was.
newer_than() {
  (cd "$top" && folders_of "$2" | xargs sh -c 'find crates.txt "$@" -cnewer "$0" -print -quit' "$1")
}

# The kit by which this file was built.
kit_of() { sed -n 's/^kit //p' "$1.seal"; }

# Whether the proved program is there, of what its sources are now.
is_proved() { is_sealed "$1" "$(program_file "$1")"; }

# Ends as a program does that is called with these words, `run_program PROGRAM WORD..`: the proved
# one, or else the one that is kept, which is compiled where it isn't there.
run_program() {
  local program=$1
  shift
  ! is_proved "$program" || end_as "$(program_file "$program")" "$@"
  is_sealed "$program" "$(kept_file "$program")" || exec "$top/tools/keep" "$program" "$@"
  run_kept "$program" "$(kept_file "$program")" "$@"
}

# Ends as a kept file of a program does: `run_kept PROGRAM FILE WORD..`.
run_kept() {
  local also=
  [ "$2" = "$(kept_file "$1")" ] || also=", and slow until a fast one is compiled"
  [ ! -t 2 ] || echo "$1: this build isn't proved$also; ./build makes the proved one" >&2
  end_as "${@:2}"
}

# Ends as this file of a program does with these words. The program prints help on standard error;
# by the command of that name it can be paged.
end_as() {
  [ "${1##*/} ${2-}" != 'charmlet help' ] || exec "$@" 2>&1
  exec "$@"
}

# A sum of all that a proof of the whole tree rests on: the kit, and what all crates are made from.
sum_of_tree() {
  (
    cd "$top" || exit
    {
      rt version
      cat HANDLES
      find crates.txt crates -name out -prune -o -name 'must-fail*' -prune -o -type f -print0 | LC_ALL=C sort -z | xargs -0 sha256sum
    } | sha256sum | cut -d' ' -f1
  )
}

# The file that says of which tree the libraries in the crates' out/ are.
tree_file() { echo "$top/out/proved"; }

# The copy of the tree in which it is proved.
copy_of_tree() { echo "$top/out/tree"; }

# The crates of tests that are run and not proved: all but that of the pup routines, which shows what such a routine of one's own
# has to prove.
crates_of_tests() { sed -n 's/^\(charmlet_[a-z]*_tests\):.*/\1/p' "$top/crates.txt" | grep -vx charmlet_pup_tests; }

# The crates of which nothing is promised, and which aren't proved: those of tests, what these share,
# and the program of probes.
crates_unproved() {
  crates_of_tests
  echo charmlet_testing
  echo charmlet_probe
}

# All crates but these.
crates_without() { sed -n 's/^\(charmlet[a-z_]*\):.*/\1/p' "$top/crates.txt" | grep -vxF "$1"; }

# Makes a toolchain in this folder, as FOLDER/toolchain: the kit's, except that a script on standard
# input stands in its compiler's place. The compiler is FOLDER/kit/clang.
make_toolchain() {
  local folder=$1 kit
  kit=$(dirname "$(rt doc)")
  mkdir -p "$folder/toolchain/bin" "$folder/kit"
  ln -s "$kit/toolchain/lib" "$folder/toolchain/lib"
  ln -s "$kit/toolchain/bin/"* "$folder/toolchain/bin/"
  mv "$folder/toolchain/bin/clang" "$folder/kit/clang" 2>/dev/null || return
  cat >"$folder/toolchain/bin/clang"
  chmod +x "$folder/toolchain/bin/clang"
}

# What the toolchain's quick build is told of the libraries that a crate in this copy of the tree stands on: the words by which
# it is given each one's name, those that it uses, and its source. `rt try` tells it the same.
words_of_sources() {
  local tree=$1 program=$2 kit crate name at uses libraries=(std)
  kit=$(dirname "$(rt doc)")
  for crate in $(top=$tree crates_of "$program"); do
    uses=core,std
    for name in $(sed -n "s/^$crate: *//p" "$tree/crates.txt"); do
      uses+=,$name
      [ -d "$tree/crates/$name" ] || libraries+=("$name")
    done
    [ "$crate" = "$program" ] || printf '%s\n' --lib "$crate:$uses=$tree/crates/$crate/src/lib.rt"
  done
  # Those of the toolchain, and the ones that these use.
  for ((at = 0; at < ${#libraries[@]}; at++)); do
    name=${libraries[at]}
    [[ " ${libraries[*]:0:at} " != *" $name "* ]] || continue
    libraries+=($(sed -n 's/^dep //p' "$kit/rlibs/$name.rlib/format"))
    uses=$(sed -n 's/^dep //p' "$kit/rlibs/$name.rlib/format" | paste -sd ,)
    printf '%s\n' --lib "$name:$uses=$kit/rattle/$name/src/lib.rt"
  done
}

# Copies these crates, or else all that are proved, into an empty folder, without their edits, so
# that it is the top of a repository for rt: `copy_crates FOLDER [CRATE..]`.
copy_crates() {
  local tree=$1 crate
  shift
  [ $# -gt 0 ] || set -- $(crates_without "$(crates_unproved)")
  mkdir -p "$tree/.git"
  tar -C "$top" -cf - --exclude=out --exclude='must-fail*' HANDLES "${@/#/crates/}" | tar -C "$tree" -xf - || return
  for crate in "$@"; do
    grep "^$crate:" "$top/crates.txt"
  done >"$tree/crates.txt"
}

# Adds a program to a copy of the tree, as a crate over these others, whose source is one file:
# `add_program TREE NAME FILE CRATE..`.
add_program() {
  local crate=$1/crates/$2
  mkdir -p "$crate/src" "$crate/specs" "$crate/proofs"
  cp "$3" "$crate/src/main.rt"
  echo '-- The program cites no definition of its own.' | tee "$crate/specs/Lib.antt" >"$crate/proofs/Lib.antt"
  echo "$2: ${*:4}" >>"$1/crates.txt"
}

# Proves the crates of a copy of the tree, and builds and runs its programs, by `rt ci`: one on each processor where memory
# holds 4.5 GB for each, or as many at once as RT_JOBS says. Elsewhere rt reckons how many memory holds, with up to 8 GB for a
# crate, of which the largest takes 4.8.
prove_in() {
  local jobs=${RT_JOBS-} processors kilobytes
  processors=$(nproc)
  kilobytes=$(awk '/^MemAvailable:/ { print $2 }' /proc/meminfo)
  [ "$kilobytes" -lt $((processors * 4500000)) ] || jobs=${jobs:-$processors}
  (cd "$1" && RT_JOBS=$jobs rt ci)
}

# Proves all crates from nothing, and builds and runs the programs, by `rt ci`, in a copy of the tree, which has no edits since
# edits.py tries those together. What was built goes into the crates' out/; it stays in the copy too, for what reads it there.
# What processors that leaves free edits and tests take.
prove_tree() {
  local tree sum crate out
  tree=$(copy_of_tree)
  sum=$(sum_of_tree)
  rm -rf "$tree" "$(tree_file)"
  copy_crates "$tree" || return
  prove_in "$tree" || return
  for crate in "$tree"/crates/*; do
    out=$top/crates/$(basename "$crate")/out
    rm -rf "$out"
    cp -al "$crate/out" "$out" || return
  done
  echo "$sum" >"$(tree_file)"
}

# Whether the libraries in the crates' out/ are of the tree as it is now.
is_tree_proved() {
  [ -f "$(tree_file)" ] && [ "$(sum_of_tree)" = "$(cat "$(tree_file)")" ]
}

# Whether the last line of a file is a sum, 'N passed, M failed', by which something passed, and nothing failed.
went_well() { [[ $(tail -n 1 "$1" 2>/dev/null) =~ ^[1-9][0-9]*\ passed,\ 0\ failed$ ]]; }
