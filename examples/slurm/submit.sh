#!/usr/bin/env bash
# Merges an archive by days, months and years, by Slurm.
set -eu
usage=$(cat << 'END'
submit.sh [options] ARCHIVE TREE

ARCHIVE has a directory for each day, as 2023/032, with RINEX navigation files as for merge_archive.py. TREE gets day/2023032.rnx,
month/202302.rnx, year/2023.rnx, each with its rows of inputs (.files), logs and state. All nodes share both, and navbridge.

Each month has an array of tasks for its days, then a task that merges the month; then a task merges the year. If a step fails, the steps
after it are cancelled. Submitted again, steps whose inputs have not changed end at once, and the others are made.

  --date TEXT, --leap N   of the headers (now, 18); equal arguments give equal bytes
  --cover                 also the times covered, as day/2023032.cover and so on
  --strict                a day of which a file was not read is a failed step (otherwise it is made of the rest, and its log names the file)
  --program FILE          navbridge (crates/navbridge/out/navbridge of this repository; if installed, that of the path)
  --wait                  waits for the tasks, then names the steps that were not made
  --help                  this text

Exit status: 0 submitted (with --wait: all made); 1 some step was not made; 2 wrong arguments, no program, or no Slurm.
END
)
here=$(dirname -- "$(readlink -f -- "${BASH_SOURCE[0]}")")
step=$here/step.sh
# shellcheck source=/dev/null
. "$here/plan.sh"
read_words "$usage" "$@"
command -v sbatch > /dev/null || { echo "submit.sh: sbatch is not installed" >&2; exit 2; }
plan

declare -A steps
ids=
while read -r year; do
  behind=
  while read -r month; do
    export MONTH=$month
    days=$(wc -l < "$TREE/state/$month.days")
    array=$(sbatch --parsable --job-name="day $month" --array="1-$days" -o "$TREE/log/day-$month-%a.log" "$step" day)
    steps[$array]="day $month"
    job=$(sbatch --parsable --job-name="month $month" --dependency="afterok:$array" --kill-on-invalid-dep=yes \
      -o "$TREE/log/month-$month.log" "$step" month "$month")
    steps[$job]="month $month"
    behind=$behind:$job ids=$ids,$array,$job
  done < "$TREE/state/$year.months"
  job=$(sbatch --parsable --job-name="year $year" --dependency="afterok$behind" --kill-on-invalid-dep=yes \
    -o "$TREE/log/year-$year.log" "$step" year "$year")
  steps[$job]="year $year" ids=$ids,$job
done < "$TREE/state/years"
echo "submitted: $(wc -l < "$TREE/state/days") days, $(wc -l < "$TREE/state/months") months, $(wc -l < "$TREE/state/years") years; jobs ${ids#,}"
[ "$WAIT" = 1 ] || exit 0

while :; do
  states=$(squeue -h -r -t all -j "${ids#,}" -o '%F %K %T')
  case $states in *PENDING* | *RUNNING* | *COMPLETING* | *CONFIGURING* | *REQUEUE* | *SUSPENDED*) sleep 3 ;; *) break ;; esac
done
bad=0
while read -r job task state; do
  [ "$state" != COMPLETED ] || continue
  bad=1
  one=${steps[$job]:-job $job}
  if [ "${one%% *}" = day ]; then one="day $(sed -n "${task}p" "$TREE/state/${one#day }.days")"; fi
  why=$(cat "$TREE/state/${one/ /.}.failed" 2> /dev/null || true)
  echo "not made: $one: $state${why:+: ${why#*: }}"
done <<< "$(sort -k1,1n -k2,2n <<< "$states")"
[ "$bad" = 1 ] || echo "all made"
exit "$bad"
