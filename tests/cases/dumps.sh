# Dumps of stores.

# Whether the store that a script leaves in a folder is dumped so, in both forms, and stays as it is.
is_dumped() {
  local store=$work/dumped
  rm -rf "$store" "$work/before" && mkdir "$store" && ./charmlet run "$1" --dir "$store" >/dev/null 2>&1 && cp -r "$store" "$work/before" &&
    ./dump "$store" | diff "${1%.charmlet}.txt" - && ./dump --json "$store" | diff "${1%.charmlet}.json" - &&
    diff -r "$store" "$work/before"
}

# Whether there is no dump of this folder, with this line, and for this cause, if one is named.
dumps_none() {
  local status=0
  ./dump "$1" >"$work/printed" 2>"$work/said" || status=$?
  [ "$status" -eq 1 ] && [ "$(cat "$work/printed")" = "$2" ] &&
    diff <(printf '%s\n' 'cannot dump store' "${@:3}") "$work/said"
}

group='dumps'
make_stores
for script_file in tests/dumps/*.charmlet; do
  count "the dump of $script_file" is_dumped "$script_file"
done
count "the dump of a folder without a store" dumps_none "$work/no-store" 'refused 15 NothingHere'
count "the dump of a folder that isn't there" dumps_none "$work/no-folder" 'refused 2 Device' "$no_folder"
count "the dump of a store that is damaged" dumps_none "$work/cut" 'refused 14 Damaged 0 51'
