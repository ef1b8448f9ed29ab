# Runs of scripts, alone and several in one folder.

# Whether the program runs a script of this name in the folder that it is started in.
runs_named() {
  cp examples/first-run.charmlet "$work/$1"
  (cd "$work" && "$top/charmlet" run "$1" 2>/dev/null) | cmp examples/first-run.out -
}

# Whether the program ends with 1 and says so, where its output takes nothing.
fails_on_a_full_device() {
  local status=0
  ./charmlet run examples/first-run.charmlet >/dev/full 2>"$work/said" || status=$?
  [ "$status" -eq 1 ] && diff - "$work/said" <<'LINES'
cannot go on
cannot write output: No space left on device (os error 28)
LINES
}

# Whether a malformed script leaves a folder empty.
touches_no_folder() {
  local status=0
  mkdir "$work/untouched" && printf 'array 0 1\nflush now\n' >"$work/malformed"
  ./charmlet run "$work/malformed" --dir "$work/untouched" 2>/dev/null || status=$?
  [ "$status" -eq 2 ] && [ -z "$(ls -A "$work/untouched")" ]
}

# Whether the folder of a run is no other program's while the run goes on, here until its output is read, and no new
# store's after it, and whether the run prints and leaves what it does when it is alone.
holds_its_folder() {
  local run line in_use is_refused=0
  {
    printf 'array 0 1\nsupply 1 1\nreq 7 1 0 0 65535 5\ndeliver 0 c7.1\nflush\n'
    printf 'state 0 0\n%.0s' {1..5000}
    printf 'req 7 2 0 0 0 3\ndeliver 0 c7.2\nflush\nstatus 7 2\n'
  } >"$work/long"
  mkdir "$work/held" && mkfifo "$work/pipe" || return 1
  ./charmlet run "$work/long" --dir "$work/held" >"$work/pipe" 2>/dev/null &
  run=$!
  {
    while read -r line && echo "$line" && [ "$line" != 'flushed 2' ]; do :; done >"$work/run"
    in_use="$work/held: another program uses the folder"
    is_refused_in "$work/held" 'refused 2 Device' "$in_use" && shows_none "$work/held" 'refused 2 Device' "$in_use" &&
      restarts_none "$work/held" 1 'refused 2 Device' "$in_use" && is_refused=1
    cat >>"$work/run"
  } <"$work/pipe"
  wait "$run" && [ "$is_refused" -eq 1 ] && ./charmlet run "$work/long" 2>/dev/null | cmp - "$work/run" &&
    is_refused_in "$work/held" 'refused 20 AlreadyHere' &&
    restarts_as "$work/held" $'status 7 2\nstate 0 0' 1 'restarted generation 1 events 4 on 1
told replied 8
state 0.0 pe 0 sent 0 received 2 08000000000000000800000000000000'
}

# Whether of four runs that begin in one new folder at once one makes its store, and the others are refused and change
# nothing, twenty times.
makes_one_store() {
  local round run runs made
  for round in {1..20}; do
    rm -rf "$work/shared" && mkdir "$work/shared"
    runs=()
    for run in {1..4}; do
      ./charmlet run examples/checkpoint.charmlet --dir "$work/shared" >"$work/run$run" 2>/dev/null &
      runs+=($!)
    done
    wait "${runs[@]}" || true
    made=0
    for run in {1..4}; do
      case $(cat "$work/run$run") in
        "$(cat examples/checkpoint.out)") made=$((made + 1)) ;;
        'refused 2 Device' | 'refused 20 AlreadyHere') ;;
        *) return 1 ;;
      esac
    done
    [ "$made" -eq 1 ] && has_files "$work/shared" || return 1
  done
}

group='runs, stores and restarts'
for name in ' first' 'last ' ' '; do
  count "the run of a script whose name is '$name'" runs_named "$name"
done
count "the end of a run whose output is full" fails_on_a_full_device
count "the folder of a malformed script" touches_no_folder
count "the folder of a run that goes on" holds_its_folder
count "the runs that begin in one folder at once" makes_one_store
