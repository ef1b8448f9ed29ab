# Makes counters `from` to `to` - 1 of array 0: by the script of a run if it begins at 0, and else
# by one of a restart.
BEGIN {
  if (from == 0) print "array 0 1"
  for (left = to - from; left > 0; left -= 10000) print "supply 1", left < 10000 ? left : 10000
  for (i = from; i < to; i++) {
    print "req 1", i + 1, 0, i, 65535, i
    if (i % 8 == 7) print "drain 8"
    if (i % 2048 == 2047) print "flush"
  }
  print "drain 8"
  print "checkpoint"
}
