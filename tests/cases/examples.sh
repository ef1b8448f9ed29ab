# The examples, the transcripts and the probes.

# Whether the run that the gate makes of the program is the first example.
is_first_example() {
  cmp examples/first-run.charmlet crates/charmlet/data/first-run.charmlet && cmp examples/first-run.out crates/charmlet/stdout
}

# Whether the program prints this output of a script.
prints() {
  ./charmlet run "$1" >"$work/printed" 2>/dev/null && cmp "$2" "$work/printed"
}

group='examples'
count "the gate's run of the program" is_first_example
for script_file in examples/*.charmlet; do
  count "$script_file" prints "$script_file" "${script_file%.charmlet}.out"
done

group='transcripts'
for transcript in tests/transcripts/*.txt; do
  count "$transcript" follows "$transcript"
done

for probe in tests/probes/*; do
  if tools/probe --is-for engine "$probe"; then
    group='probes over an engine'
    count "the probe $(basename "$probe")" tools/probe "$probe"
  fi
  if tools/probe --is-for hub "$probe"; then
    group='probes over a hub'
    count "the probe $(basename "$probe") over a hub" tools/probe --hub "$probe"
  fi
done
