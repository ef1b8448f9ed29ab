# The pages, compared with the crates.

# Whether each edit that the gate doesn't try can be applied still: the text that it changes stands once.
can_be_applied() {
  local edit line file old stale=0
  for edit in crates/*/must-fail-too/*.edit; do
    file='' old=''
    while IFS= read -r line; do
      case $line in
        'file: '*) file=${file:-${line#file: }} ;;
        'old: '*) old=${old:-${line#old: }} ;;
      esac
    done <"$edit"
    file=${edit%/must-fail-too/*}/$file
    if [ "$(grep -cF -- "$old" "$file")" -ne 1 ]; then
      echo "test: $edit changes a text that doesn't stand once in $file" >&2
      stale=$((stale + 1))
    fi
  done
  [ "$stale" -eq 0 ]
}

# Whether no name that was given up has come back.
has_no_retired_word() {
  ! grep -rnwIFf tests/retired-words --exclude=retired-words --exclude-dir=.git --exclude-dir=out . >&2
}

# The files of definitions below these folders: all but the lists of a crate's files, and a file whose
# folder of the same name has them.
definitions_in() {
  local file
  find "$@" -name '*.antt' ! -name Lib.antt | while IFS= read -r file; do
    [ -d "${file%.antt}" ] || echo "$file"
  done
}

# Whether the section "Definitions to read" of docs/PROVED.md lists 10 to 15 files of the crates, each
# with its lines; and whether each file of definitions of the product stands in backquotes on its
# crate's page of docs/reference: by its name, or by its path, which it takes where two of a crate have
# that name.
has_each_definition() {
  local name lines crate page file path files amiss=0 count=0
  local -A named paths
  while IFS='|' read -r _ name lines _; do
    name=$(tr -d '` ' <<<"$name") lines=${lines// /} count=$((count + 1))
    if [ ! -f "crates/$name" ]; then
      echo "test: docs/PROVED.md lists a file that isn't there: $name" >&2
      amiss=1
    elif [ "$(wc -l <"crates/$name")" -ne "$lines" ]; then
      echo "test: docs/PROVED.md gives $lines lines to $name, which has $(wc -l <"crates/$name")" >&2
      amiss=1
    fi
  done < <(sed -n '/^## Definitions to read/,/^## What is trusted/p' docs/PROVED.md | grep '^| `')
  if [ "$count" -lt 10 ] || [ "$count" -gt 15 ]; then
    echo "test: docs/PROVED.md lists $count files of definitions, and not 10 to 15" >&2
    amiss=1
  fi
  for crate in crates/*/; do
    crate=$(basename "$crate")
    case $crate in charmlet_testing | charmlet_probe | *_tests) continue ;; esac
    [ -d "crates/$crate/specs" ] || continue
    mapfile -t files < <(definitions_in "crates/$crate/specs" | sort)
    [ "${#files[@]}" -gt 0 ] || continue
    page=docs/reference/$crate.md
    if [ ! -f "$page" ]; then
      echo "test: $crate has definitions, and no page $page" >&2
      amiss=1
      continue
    fi
    named=() paths=()
    while IFS= read -r name; do
      named[$name]=1
    done < <(grep -o '`[^`]*`' "$page" | tr -d '`')
    for file in "${files[@]}"; do
      name=${file##*/}
      paths[$name]=${paths[$name]-}/
    done
    for file in "${files[@]}"; do
      path=${file#"crates/$crate/specs/"} name=${file##*/}
      [ "${paths[$name]}" = / ] || name=$path
      [ -n "${named[$name]-}${named[$path]-}${named["specs/$path"]-}${named["$crate/specs/$path"]-}${named["$file"]-}" ] || {
        echo "test: $page doesn't name $path" >&2
        amiss=1
      }
    done
  done
  [ "$amiss" -eq 0 ]
}

# Whether docs/reference/ is what the sources, the edits and the READMEs give, with no page too many,
# and each public item has a doc comment.
has_the_reference() {
  tools/reference --check
}

# Whether the text that each edit changes stands once, in an item of its crate.
places_each_edit() {
  tools/reference --check-edits
}

# Whether tests/wrong-bodies names each edit of must-fail, and no edit that isn't there.
names_each_wrong_body() {
  tools/reference --check-wrong-bodies
}

# Whether the figures of docs/ are what the crates and their text give.
has_each_figure() {
  tools/figures --check
}

# The pages that are written by hand.
pages=(README.md docs/*.md docs/dev/*.md tools/bench/README.md crates/*/README.md)

# How many words these pages may have together.
MOST_WORDS=50000

# Whether they have no more.
has_few_words() {
  local words
  words=$(cat "${pages[@]}" | wc -w)
  [ "$words" -le "$MOST_WORDS" ] || {
    echo "$SCRIPT: the pages written by hand have $words words, and may have $MOST_WORDS" >&2
    return 1
  }
}

# Whether each test, probe, transcript, file of commands, script or other file of the tree that a page
# names in backquotes is there: by the word before it, or by the form of its name. Any other name with
# a line below stands somewhere in the crates.
names_what_is_there() {
  awk '
    # A file of the tree, with words after it or without.
    function path(text, page, word) {
      if (text !~ /^(\.|tools|stress|tests)\/[a-z][A-Za-z0-9_.\/-]*( |$)/) return
      split(text, word, " ")
      sub(/\/$/, "", word[1])
      print "script", word[1], page
    }
    function tell(page, text, before, name, last, kind) {
      kind = last = ""
      while (match(text, /`[^`]+`/)) {
        before = substr(text, 1, RSTART - 1)
        name = substr(text, RSTART + 1, RLENGTH - 2)
        text = substr(text, RSTART + RLENGTH)
        if (match(before, /(^|[^a-zA-Z`])(tests?|probes?|transcripts?|commands) $/)) {
          kind = substr(before, RSTART, RLENGTH - 1)
          sub(/^[^a-z]/, "", kind)
          if (kind != "commands") sub(/s$/, "", kind)
        } else if (last ~ /^charmlet_[a-z_]+$/ && before == ": ") kind = "test"
        else if (before !~ /^(, | and |, and )$/) kind = ""
        last = name
        path(name, page)
        if (name ~ /^[a-z0-9]+([-_][a-z0-9]+)+$/ || (kind != "" && name ~ /^[a-z0-9]+$/)) {
          print (kind != "" ? kind : name ~ /-/ ? "file" : "word"), name, page
        }
      }
    }
    FNR == 1 { if (page) tell(page, text); page = FILENAME; text = ""; inside = 0 }
    /^```/ { inside = !inside; next }
    inside { line = $0; sub(/^\$ /, "", line); path(line, FILENAME) }
    !inside { text = text (text == "" ? "" : " ") $0 }
    END { tell(page, text) }
  ' "${pages[@]}" docs/reference/*.md | sort -u >"$work/names"
  {
    find crates/*_tests/src -name '*.rt' -exec sed -nE '/^#\[test\]$/,/fn /s/^(pub )?fn ([a-z0-9_]+).*/test \2/p' {} +
    # A module of tests goes by its name.
    find crates/*_tests/src/tests -mindepth 1 -maxdepth 2 -name '*.rt' -printf '%f\n' | sed 's/^/test /; s/\.rt$//'
    ls tests/probes | sed 's/^/probe /'
    basename -as .txt tests/transcripts/*.txt | sed 's/^/transcript /'
    ls tests/commands | sed 's/^/commands /'
    find . -maxdepth 1 -type f -printf 'script %p\n'
    find tools stress tests -printf 'script %p\n'
  } | sort -u >"$work/there"
  {
    cut -d ' ' -f 2 "$work/there"
    # The first words of the names of probes, the scripts, the kits, the folders of edits, and a word of a probe's line.
    ls tests/probes | sed -n 's/^\(refused-memory\)-.*/\1/p'
    find examples tests/dumps -type f -printf '%f\n' | sed 's/\..*//'
    find . tools tools/bench stress tests -maxdepth 1 -type f -printf '%f\n' | sed 's/\..*//'
    printf '%s\n' must-fail rattle-kit-13{b,f} first-halves
  } | sort -u >"$work/files"
  {
    grep -rhoE '[a-z0-9]+(_[a-z0-9]+)+' crates/*/src crates/*/specs crates/*/proofs crates.txt tools/*.sh
    find crates -path '*/out' -prune -o -name '*_*' -printf '%f\n'
    # Those of others: of the library, and of the kit.
    printf '%s\n' write_fmt sqlite_disk
  } | sed 's/\..*//' | sort -u >"$work/words"
  awk -v there="$work/there" -v files="$work/files" -v words="$work/words" '
    FILENAME == there { is_there[$1, $2]; next }
    FILENAME == files { is_there["file", $1]; next }
    FILENAME == words { is_there["word", $1]; next }
    !(($1, $2) in is_there) {
      what = $1 == "word" ? "what no crate has" : ($1 == "commands" ? "a file of " : "a ") $1 " that isn'\''t there"
      print "test: " $3 " names " what ": " $2
      lacking++
    }
    { named[$1]++ }
    END { exit lacking > 0 || named["test"] < 20 || named["probe"] < 15 || named["transcript"] < 10 || named["script"] < 30 || named["file"] < 30 }
  ' "$work/there" "$work/files" "$work/words" "$work/names" >&2
}

group='pages and crates'
count "the text that each edit of must-fail-too changes" can_be_applied
count "the pages of docs/reference" has_the_reference
count "the places of all edits" places_each_edit
count "the wrong bodies of tests/wrong-bodies" names_each_wrong_body
count "the figures of docs" has_each_figure
count "the definitions of docs/PROVED.md" has_each_definition
count "the names that were given up" has_no_retired_word
count "the names of tests and of files on pages" names_what_is_there
count "the number of words on pages" has_few_words
