# Restarts: of stores as they are, of older ones, and of those whose run was killed or lacked room.

# Whether the store of the example of a checkpoint comes back on four processors, and its files stay as they were.
restarts_a_store() {
  restarts_as "$work/folder" $'state 0 0\nstatus 7 1' 4 $'restarted generation 2 events 2 on 4\nstate 0.0 pe 0 sent 0 received 1 05000000000000000500000000000000\ntold replied' && has_files "$work/folder"
}

# Whether a store of four processors comes back on one, goes on there, and comes back from its image on 64: each element on its home, with the same states, counts
# and pending messages.
restarts_on_others() {
  mkdir "$work/homes" && cat >"$work/homely" <<'SCRIPT'
pes 4
array 3 1
supply 1 2
req 7 1 3 5 65535 9
req 8 1 3 6 65535 4
req 9 1 3 5 0 1
deliver 0 c7.1
deliver 1 c8.1
flush
SCRIPT
  ./charmlet run "$work/homely" --dir "$work/homes" >/dev/null 2>&1 &&
    restarts_as "$work/homes" $'pending\nstate 3 5\nstate 3 6\ndeliver 0 c9.1\ncheckpoint' 1 "restarted generation 1 events 5 on 1
pending 1 c9.1
state 3.5 pe 0 sent 0 received 1 09000000000000000900000000000000
state 3.6 pe 0 sent 0 received 1 04000000000000000400000000000000
delivered c9.1
checkpoint 2" &&
    restarts_as "$work/homes" $'pending\nstate 3 5\nstate 3 6\nstatus 9 1\ncensus' 64 "restarted generation 2 events 6 on 64
pending 0
state 3.5 pe 8 sent 0 received 2 0a000000000000000a00000000000000
state 3.6 pe 9 sent 0 received 1 04000000000000000400000000000000
told replied 10
census 1 supplied 2 shelves 2 stock 0 retired 0"
}

# Whether a store of all kinds, which an older program left by the second mark, is shown with the versions of that time, comes back in the newest ones on
# other processors, where its counter has the entries 2 and 3, by an image of the next generation, and so once more on others without a further image; and
# whether the half that the older program left is as it was.
restarts_an_older_store() {
  local kinds='array 1 kind 2 version 1
array 2 kind 3 version 1
array 3 kind 4 version 1
array 4 kind 5 version 1
array 5 kind 6 version 1
wanted 1 1
wanted 2 2
wanted 3 1
wanted 4 1
wanted 5 2
wanted 6 1'
  cp -r crates/charmlet_dump/data "$work/older" && chmod -R u+w "$work/older" &&
    is_shown_as "$work/older" "half 1 generation 2 base 31 log 2
array 0 kind 1 version 1
$kinds" &&
    restarts_as "$work/older" $'state 0 3\nreq 4 1 0 3 2 5\nreq 4 2 0 3 3\npending\ndrain 99\nflush\nstatus 4294967295 1\nstatus 4 1\nstatus 4 2' 3 "restarted generation 3 events 33 on 3
state 0.3 pe 0 sent 0 received 2 08000000000000000800000000000000
told unknown
told unknown
pending 6 c2.4 c3.2 c4294967295.1 e2.7.1 c4.1 c4.2
drained 9 left 2
flushed 44
told replied 8
told replied 3
told replied 8" &&
    is_shown_as "$work/older" "half 0 generation 3 base 33 log 11
array 0 kind 1 version 2
$kinds" &&
    restarts_as "$work/older" $'state 0 3\nstate 1 0\nstate 5 2\nstatus 1 2\npending' 64 "restarted generation 3 events 44 on 64
state 0.3 pe 3 sent 0 received 5 03000000000000000800000000000000
state 1.0 pe 1 sent 3 received 4 01000000000000000300000000000000
state 5.2 pe 7 sent 0 received 3 0200000007000000000000000800000000000000
told replied 8
pending 2 c3.2 e2.7.1" && cmp crates/charmlet_dump/data/half1 "$work/older/half1"
}

# Whether the restart of such a store is refused where a file may have 512 bytes, in which there is no room for the image, whether its half is as it was
# then, and whether it comes back once there is room.
needs_room_for_an_image() {
  local status=0
  mkdir "$work/narrow" && cp crates/charmlet_dump/data/half1 "$work/narrow" && chmod u+w "$work/narrow/half1" &&
    printf 'state 0 3\n' >"$work/restarting" || return 1
  (trap '' XFSZ && set -o posix && ulimit -f 1 &&
    "$program" restart "$work/narrow" "$work/restarting" >"$work/printed" 2>"$work/said") || status=$?
  [ "$status" -eq 1 ] && [ "$(cat "$work/printed")" = 'refused 2 Device' ] &&
    is_said "cannot restart store" 'refused 2 Device' "$work/narrow: File too large (os error 27)" &&
    [ "$(./charmlet show "$work/narrow" | head -n 1)" = 'half 1 generation 2 base 31 log 2' ] &&
    restarts_as "$work/narrow" 'state 0 3' 1 'restarted generation 3 events 33 on 1
state 0.3 pe 0 sent 0 received 2 08000000000000000800000000000000' && cmp crates/charmlet_dump/data/half1 "$work/narrow/half1"
}

# Runs an example in a new folder, and kills it once it has printed a line that begins so.
kill_a_run() {
  mkdir "$2" || return 1
  : >"$work/run"
  ./charmlet run "$1" --dir "$2" >"$work/run" 2>/dev/null &
  local run=$!
  while kill -0 "$run" 2>/dev/null && ! grep -q "^$3" "$work/run"; do
    sleep 0.01
  done
  kill -KILL "$run" 2>/dev/null || true
  wait "$run" 2>/dev/null || true
}

# Whether a store whose run is killed comes back with what was flushed, and goes on, as the README shows.
survives_a_kill() {
  kill_a_run examples/long-run.charmlet "$work/killed" flushed || return 1
  is_shown_as "$work/killed" $'half 0 generation 1 base 0 log 5\narray 0 kind 2 version 1\nwanted 2 2' &&
    restarts_as "$work/killed" $'status 3 1\ndrain 10\nflush\nstatus 3 1' 4 $'restarted generation 1 events 5 on 4\ntold accepted\ndrained 10 left 1\nflushed 15\ntold replied 1'
}

# Whether clients that repeat their requests after their store was killed are told no less than before, and none is carried out twice.
repeats_after_a_kill() {
  kill_a_run examples/repeating-clients.charmlet "$work/bank" 'told replied' || return 1
  ./charmlet restart "$work/bank" examples/repeating-clients.restart --pes 4 >"$work/printed" 2>/dev/null &&
    diff examples/repeating-clients.restarted "$work/printed"
}

# Writes a script whose log grows past 8,192 bytes, flush by flush.
write_long_log() {
  local number entry words
  words=$(printf ' 7%.0s' {1..20})
  printf 'array 0 1\nsupply 1 1\n'
  for number in {1..40}; do
    entry=0
    [ "$number" -gt 1 ] || entry=65535
    printf 'req 7 %d 0 0 %d 1%s\ndrain 8\nflush\nstatus 7 %d\n' "$number" "$entry" "$words" "$number"
  done
}

# Whether a run of that script, whose disk was full in its midst, was told so once and halted, and its store in this folder
# comes back with all that was told.
comes_back_from_full() {
  local told events
  [ "$(grep -c '^refused 2 Device$' "$work/printed")" -eq 1 ] && [ "$(tail -n 1 "$work/printed")" = 'refused 3 Halted' ] || return 1
  told=$(grep -c '^told replied' "$work/printed")
  events=$(sed -n 's/^flushed //p' "$work/printed" | tail -n 1)
  printf 'restarted generation 1 events %d on 1\n%s\nflushed %d\n' \
    "$events" "$(grep '^told replied' "$work/printed" | tail -n 1)" "$events" >"$work/wanted"
  restarts_as "$1" "$(printf 'status 7 %d\nflush' "$told")" 1 "$(cat "$work/wanted")"
}

# Whether a store whose file may grow no more comes back with all that was told.
survives_a_full_file() {
  write_long_log >"$work/long"
  mkdir "$work/full"
  (trap '' XFSZ && ulimit -f 4 && ./charmlet run "$work/long" --dir "$work/full" >"$work/printed" 2>"$work/said") || return 1
  comes_back_from_full "$work/full"
}

# Whether a store does so whose file system is full: one of 8,192 bytes in memory, which is mounted for this run alone.
survives_a_full_file_system() {
  mkdir "$work/small" "$work/filled" && write_long_log >"$work/long" || return 1
  unshare -rm bash -c 'mount -t tmpfs -o size=8k none "$1" && ./charmlet run "$2" --dir "$1" && cp "$1"/* "$3"' - \
    "$work/small" "$work/long" "$work/filled" >"$work/printed" 2>"$work/said" || return 1
  comes_back_from_full "$work/filled"
}

# Whether a store that may only be read is shown and restarted, and refuses the first write, and stays as it was: one in a folder
# that is mounted for reading alone, for this run.
reads_what_it_may_not_write() {
  mkdir "$work/read-only" && ./charmlet run examples/checkpoint.charmlet --dir "$work/read-only" >/dev/null 2>&1 || return 1
  printf 'status 7 1\nflush\nreq 7 2 0 0 0 3\nflush\nreq 7 3 0 0 0 3\n' >"$work/restarting"
  unshare -rm bash -c 'mount --bind "$1" "$1" && mount -o remount,bind,ro "$1" && ./charmlet show "$1" && ./charmlet restart "$1" "$2"' - \
    "$work/read-only" "$work/restarting" >"$work/printed" 2>/dev/null || return 1
  diff "$work/printed" - <<'LINES' && has_files "$work/read-only"
half 1 generation 2 base 2 log 0
array 0 kind 1 version 2
wanted 1 1
restarted generation 2 events 2 on 1
told replied
flushed 2
told unknown
refused 2 Device
refused 3 Halted
LINES
}

# Whether of four restarts of one store at once each is refused or adds one to the store's counter, twenty times: what
# one adds is there for the next one.
restarts_one_at_a_time() {
  local round run runs client going added=0
  rm -rf "$work/shared" && mkdir "$work/shared" &&
    ./charmlet run examples/checkpoint.charmlet --dir "$work/shared" >/dev/null 2>&1 || return 1
  for round in {1..20}; do
    runs=()
    for run in {1..4}; do
      client=$((10 * round + run))
      printf 'req %d 1 0 0 0 1\ndrain 1\nflush\nstatus %d 1\n' "$client" "$client" >"$work/adding$run"
      ./charmlet restart "$work/shared" "$work/adding$run" >"$work/run$run" 2>/dev/null &
      runs+=($!)
    done
    wait "${runs[@]}" || true
    for run in {1..4}; do
      tail -n 1 "$work/run$run"
    done >"$work/ends"
    sed -n 's/^told replied //p' "$work/ends" | sort -n >"$work/told"
    going=$(wc -l <"$work/told")
    [ "$going" -gt 0 ] && [ $((going + $(grep -c '^refused 2 Device$' "$work/ends"))) -eq 4 ] || return 1
    diff <(seq $((5 + added + 1)) $((5 + added + going))) "$work/told" || return 1
    added=$((added + going))
  done
  restarts_as "$work/shared" 'state 0 0' 1 "restarted generation 2 events $((2 + 2 * added)) on 1
$(printf 'state 0.0 pe 0 sent 0 received %d %02x00000000000000%02x00000000000000' $((1 + added)) $((5 + added)) $((5 + added)))"
}

# Whether a restart with a script that has a header ends before its folder is looked at.
restarts_without_header() {
  local status=0
  printf 'flush\narray 0 1\n' >"$work/restarting"
  ./charmlet restart "$work/no-folder" "$work/restarting" >"$work/printed" 2>"$work/said" || status=$?
  [ "$status" -eq 2 ] && [ ! -s "$work/printed" ] && diff - "$work/said" <<'LINES'
script line 2
  array 0 1
'array' does not stand in the script of a restart, which has the arrays of its store
LINES
}

group='runs, stores and restarts'
make_stores
count "the restart of a store" restarts_a_store
count "the restarts of a store on other processors" restarts_on_others
count "the restarts of a store that an older program left" restarts_an_older_store
count "the restart of such a store where there is no room" needs_room_for_an_image
count "the restart of a store whose run is killed" survives_a_kill
count "the clients that repeat over a kill and a restart" repeats_after_a_kill
count "the restarts of 50 runs that are killed at random moments" sums_well 'kills' stress/crash-many 50
count "the restarts of 25 runs by workers that are killed at random moments" sums_well 'kills' stress/crash-many --workers 25
count "the restart of a store whose file could grow no more" survives_a_full_file
group='file systems that are full or for reading alone'
if unshare -rm mount -t tmpfs none /mnt 2>/dev/null; then
  count "the restart of a store whose file system was full" survives_a_full_file_system
  count "the store that may only be read" reads_what_it_may_not_write
else
  skip "$group" 2 "nobody may mount a file system here"
fi
group='runs, stores and restarts'
count "the restarts of one store at once" restarts_one_at_a_time
count "50 stores that come back by 1, 2, 3 and 64 workers" sums_well 'replays' stress/many-replays 50
count "the restart of a folder without a store" restarts_none "$work/no-store" 1 'refused 15 NothingHere'
count "the restart of a folder that isn't there" restarts_none "$work/no-folder" 1 'refused 2 Device' "$no_folder"
count "the restart of a store that is damaged" restarts_none "$work/cut" 1 'refused 14 Damaged 0 51'
count "the restart of a store on 65 processors" restarts_none "$work/folder" 65 'refused 17 BadPes'
count "the restart with a script that has a header" restarts_without_header
