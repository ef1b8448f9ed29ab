# The blocks of pages: each one that has a script is a transcript, and so is each that has commands of a shell.

# Whether the script of a page's block is the file that its first line names.
is_in_its_file() {
  local name
  name=$(sed -n '1s/^# //p' "$1")
  [ -n "$name" ] && sed -n 's/^> \{0,1\}//p' "$1" | cmp - "$name"
}

group='blocks of pages'
for page in GUIDE OPERATING; do
  awk -v blocks="$work/$page-" '
    /^```/ { inside = !inside; if (inside) file = sprintf("%s%02d", blocks, ++block); next }
    inside { print >file }
  ' "docs/$page.md"
  for block in $(grep -l '^[>$] ' "$work/$page"-*); do
    if grep -q '^\$ ' "$block"; then
      count "the commands of $(basename "$block")" does_commands "$block"
    else
      count "$(basename "$block")" follows "$block"
      count "the script of $(basename "$block")" is_in_its_file "$block"
    fi
  done
done
