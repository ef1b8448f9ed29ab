# Folds the answers to altered stores into a table that can be read. They are lines 'STORE|CHANGE|SHOWN|RESTARTED': of
# each store first that of the change 'as it is', and then those of the cuts and of the bytes, rising. Where both
# commands refuse with the same line, that line stands in the table alone. Of other answers it has the lines that
# aren't those of the store as it is, and 'no' before the name of a line that is gone.
BEGIN {
  FS = "|"
  print "# What `show` and `restart` have to print after a file of a store was altered, as the plain program of"
  print "# recovery gives it; `stress/altered-files --answers` writes it. Of the stores `flushed` has a log of two"
  print "# events in half 0, which is altered; `image` has an image in half 1 besides, which is altered; `older` is"
  print "# the same store, of which half 0 is altered; `caught` has a new store in half 0, and in half 1, which is"
  print "# altered, an image that was taken shelf by shelf; `again` is such a store too, whose one element was destroyed"
  print "# and constructed again meanwhile. Their files have the third mark; those of the stores with"
  print "# `second` before their names have the second one, and those of `first-caught` the first one in half 1."
  print "# A half that has older versions of its kinds is restarted with one generation more than it is shown with."
  print "# `5-8 = 00 07` are the bytes at 5 to 8, each by itself set to 00 or to 07. If both commands print one line,"
  print "# it stands alone; else the lines stand that the store doesn\047t have as it is."
  print ""
}

# What names a line among those of an answer.
function name_of(line,  words) {
  split(line, words, " ")
  if (words[1] == "status") return words[1] " " words[2] " " words[3]
  if (words[1] ~ /^(array|wanted|state|census)$/) return words[1] " " words[2]
  return words[1]
}

# What is other in an answer than in that of the store as it is.
function other_lines(answer, usual,  lines, ones, count, was, i, name, text, is_there) {
  if (answer ~ /^refused/) return answer
  count = split(usual, ones, "; ")
  for (i = 1; i <= count; i++) was[name_of(ones[i])] = ones[i]
  count = split(answer, lines, "; ")
  for (i = 1; i <= count; i++) {
    name = name_of(lines[i])
    is_there[name] = 1
    if (lines[i] != was[name]) text = text (text == "" ? "" : "; ") lines[i]
  }
  count = split(usual, ones, "; ")
  for (i = 1; i <= count; i++) {
    name = name_of(ones[i])
    if (!(name in is_there)) text = text (text == "" ? "" : "; ") "no " name
  }
  return text
}

# The answers to an altered store.
function answers(shown, restarted,  text) {
  if (shown == restarted) return shown
  if (shown != usual_shown) text = "show: " other_lines(shown, usual_shown)
  if (restarted != usual_restarted) {
    text = text (text == "" ? "" : " | ") "restart: " other_lines(restarted, usual_restarted)
  }
  return text == "" ? "as it is" : text
}

# Writes the cuts, or the bytes, from `first` on that have the answers in `last_text`.
function write_group(  range, i, count, parts) {
  if (last_text == "") return
  range = first == last ? first : first "-" last
  count = split(last_text, parts, "\n")
  for (i = 1; i <= count; i++) {
    print (is_cut ? "cut to " range ": " : range " = ") parts[i]
  }
  last_text = ""
}

# Takes in what a cut or all values of a byte are answered.
function end_place() {
  if (place == "") return
  if (is_cut != place_is_cut || place_text != last_text || place != last + 1) {
    write_group()
    first = place
    is_cut = place_is_cut
    last_text = place_text
  }
  last = place
  place = ""
}

# The text of a byte's answers, with one more value.
function with_value(text, value, answer,  i, count, parts, is_in, result) {
  count = text == "" ? 0 : split(text, parts, "\n")
  for (i = 1; i <= count; i++) {
    if (substr(parts[i], index(parts[i], ": ") + 2) == answer) {
      parts[i] = substr(parts[i], 1, index(parts[i], ": ") - 1) " " value ": " answer
      is_in = 1
    }
    result = result (i == 1 ? "" : "\n") parts[i]
  }
  return is_in ? result : result (count == 0 ? "" : "\n") value ": " answer
}

$2 == "as it is" {
  end_place()
  write_group()
  print (NR == 1 ? "" : "\n") $1 ", as it is"
  print "show: " $3
  print "restart: " $4
  usual_shown = $3
  usual_restarted = $4
  last = ""
  next
}

{
  split($2, change, " ")
  if (change[1] == "cut") {
    end_place()
    place = change[2]
    place_is_cut = 1
    place_text = answers($3, $4)
    next
  }
  if (place_is_cut || change[1] != place) {
    end_place()
    place_text = ""
  }
  place = change[1]
  place_is_cut = 0
  place_text = with_value(place_text, change[2], answers($3, $4))
}

END {
  end_place()
  write_group()
}
