# The page on embedding, and the program that it shows.

# Whether the lines of the first file stand in one of the others, one after another.
stands_in() {
  awk '
    NR == FNR { lines = lines $0 "\n"; next }
    FNR == 1 { text = "\n" }
    { text = text $0 "\n" }
    index(text, "\n" lines) { is_there = 1; exit }
    END { exit !is_there }
  ' "$@"
}

# Whether each block of the page on embedding stands in an embedder's sources, in what it prints, or in crates.txt, and whether
# the page has all of its main function's file, in order, but for empty lines: `has_the_embedder CRATE 1` of the section on
# threads, and with a 0 of all others.
has_the_embedder() {
  local crate=crates/$1 piece
  rm -rf "$work/pieces" && mkdir "$work/pieces" && : >"$work/whole"
  awk -v pieces="$work/pieces" -v has_threads="$2" '
    !inside && /^## / { on_threads = ($0 == "## A runtime with threads") }
    /^```/ { inside = !inside; piece += inside; next }
    inside && on_threads + 0 == has_threads { print >(sprintf("%s/%02d", pieces, piece)) }
  ' docs/EMBEDDING.md
  for piece in "$work/pieces"/*; do
    if stands_in "$piece" "$crate/src/main.rt"; then
      cat "$piece" >>"$work/whole"
    elif ! stands_in "$piece" "$crate"/src/*.rt "$crate/stdout" crates.txt; then
      echo "test: these lines of docs/EMBEDDING.md stand in none of the embedder's files:" >&2
      cat "$piece" >&2
      return 1
    fi
  done
  diff <(grep . "$crate/src/main.rt") <(grep . "$work/whole")
}

# Whether the embedder prints over a folder what it prints in memory, leaves its store there, and makes no other one over it.
embeds_in_a_folder() {
  local crate=crates/charmlet_embedded status=0
  mkdir "$work/embedded" && "$crate/out/charmlet_embedded" "$work/embedded" | cmp "$crate/stdout" - &&
    is_shown_as "$work/embedded" $'half 0 generation 1 base 0 log 4\narray 0 kind 1 version 2\nwanted 1 1' || return 1
  "$crate/out/charmlet_embedded" "$work/embedded" >"$work/printed" 2>"$work/said" || status=$?
  [ "$status" -eq 1 ] && [ ! -s "$work/printed" ] && [ "$(cat "$work/said")" = 'Error: AlreadyHere' ] &&
    [ "$(ls -A "$work/embedded")" = half0 ]
}

group='the embedder'
count "the blocks of docs/EMBEDDING.md" has_the_embedder charmlet_embedded 0
count "its blocks on threads" has_the_embedder charmlet_embedded_threads 1
if has_proved_libraries; then
  count "the store of the embedder in a folder" embeds_in_a_folder
else
  skip "$group" 1 "the embedder isn't proved and built"
fi
