# Runs by workers. One without messages gives its processor to others, which are slow to give it back
# if there are some. So ./test compares these last.

group='workers'
count "200 scripts by workers on 1 to 8 processors beside an engine" sums_well 'schedules' stress/many-schedules
count "the lives of a store for a quarter of a minute, some of which are killed" sums_well 'lives' stress/soak 0.25
