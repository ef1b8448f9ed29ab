# What ./test starts beside the comparisons: altered files, refused calls and stubs.

group='groups of altered files'
count "the stores whose files are altered" ends_well 'altered files' altered
count "the same by four workers" ends_well 'altered files by four workers' altered-by-four
group='groups of refused calls and of stubs'
if [ -n "${running[refusals]-}" ]; then
  count "each probe on refused memory" ends_well 'refused allocations' refusals
  count "the runs to which memory or a call of the system is refused" \
    ends_well 'runs to which something is refused' failing
fi
if [ -n "${running[stubs]-}" ]; then
  count "the stubs in the place of a program" ends_well 'stubs' stubs
fi
