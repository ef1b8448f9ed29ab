# Stores in folders, and what is shown of them.

# Whether that example prints in a folder what it prints in memory, and leaves its files there.
keeps_a_store() {
  mkdir "$work/kept-store" &&
    ./charmlet run examples/checkpoint.charmlet --dir "$work/kept-store" 2>/dev/null | cmp examples/checkpoint.out - &&
    has_files "$work/kept-store"
}

# Whether a store that is there already stays as it is.
leaves_a_store() {
  is_refused_in "$work/folder" 'refused 20 AlreadyHere' && has_files "$work/folder"
}

# Whether the store of the example of a checkpoint is shown, and stays as it is.
shows_a_store() {
  is_shown_as "$work/folder" $'half 1 generation 2 base 2 log 0\narray 0 kind 1 version 2\nwanted 1 1' && has_files "$work/folder"
}

# Whether a flushed store is shown, of which a restart needs what its log constructs.
shows_a_log() {
  mkdir "$work/flushed" && printf 'array 0 1\nsupply 1 1\nreq 7 1 0 0 65535 5\ndeliver 0 c7.1\nflush\n' >"$work/flushing" &&
    ./charmlet run "$work/flushing" --dir "$work/flushed" >/dev/null 2>&1 &&
    is_shown_as "$work/flushed" $'half 0 generation 1 base 0 log 2\narray 0 kind 1 version 2\nwanted 1 1'
}

# Whether a folder without a store is shown as one, and stays empty.
shows_nothing() {
  shows_none "$work/no-store" 'refused 15 NothingHere' && [ -z "$(ls -A "$work/no-store")" ]
}

# Whether a store whose half 0 is cut before its gate is damaged there, and stays as it is.
shows_damage() {
  shows_none "$work/cut" 'refused 14 Damaged 0 51' &&
    [ "$(ls -A "$work/cut")" = half0 ] && head -c 51 "$work/folder/half0" | cmp - "$work/cut/half0"
}

group='runs, stores and restarts'
make_stores
count "the files of a store in a folder" keeps_a_store
count "a store that is in a folder already" leaves_a_store
count "the refusal of a folder that isn't there" is_refused_in "$work/no-folder" 'refused 2 Device' "$no_folder"
count "the showing of a store in a folder" shows_a_store
count "the showing of a store with a log" shows_a_log
count "the showing of a folder without a store" shows_nothing
count "the showing of a folder that isn't there" shows_none "$work/no-folder" 'refused 2 Device' "$no_folder"
count "the showing of a store that is damaged" shows_damage
