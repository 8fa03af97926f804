#!/usr/bin/env bash
#SBATCH --requeue
#SBATCH --open-mode=append
#SBATCH --cpus-per-task=1
# One step of the tree: merges the files of a day, the days of a month, or the months of a year.
#
#   step.sh day|month|year NAME       NAME is 2023032, 202302 or 2023
#   step.sh day                       in an array of Slurm: the line of TREE/state/$MONTH.days with the task's number
#
# submit.sh and parallel.sh call it, with these in the environment: MERGE (merge_archive.py), ARCHIVE (with a directory YEAR/DAY for
# each day, as 2023/032), TREE, DATE, LEAP, PROGRAM; COVER=1 for the times covered by each file; STRICT=1 if a day of which a file was
# not read shall fail. It makes TREE/day/NAME.rnx and so on, and NAME.rnx.files. A step whose inputs have not changed is not repeated. One
# that fails leaves TREE/state/LEVEL.NAME.failed, and the steps after it fail with its name.
set -eu
if [ "${1:---help}" = --help ]; then
  sed -n '5,${/^#/!q;s/^# \{0,1\}//p}' "$0"
  exit 0
fi
level=$1
name=${2:-$(sed -n "${SLURM_ARRAY_TASK_ID}p" "$TREE/state/$MONTH.days")}
out=$TREE/$level/$name.rnx
failed=$TREE/state/$level.$name.failed
words=(-j 1 --date "$DATE" --leap "$LEAP" --program "$PROGRAM" -q -o "$out")
if [ "${COVER:-0}" = 1 ]; then words+=(--cover "$TREE/$level/$name.cover"); fi

fail() {
  echo "$level $name: $1" | tee "$failed" >&2
  exit 1
}

# the results below that this step takes, one a line; fails where one of them was not made
below() {
  local lower=$1 list=$2 one
  while read -r one; do
    [ ! -e "$TREE/state/$lower.$one.failed" ] || fail "not made, since $lower $one failed"
    [ -e "$TREE/$lower/$one.rnx" ] || fail "not made, since $lower $one is missing"
    echo "$TREE/$lower/$one.rnx"
  done < "$list"
}

mkdir -p "$TREE/$level"
status=0
case $level in
  day) "$MERGE" "${words[@]}" "$ARCHIVE/${name:0:4}/${name:4}" || status=$? ;;
  month)
    inputs=$(below day "$TREE/state/$name.days")
    "$MERGE" "${words[@]}" - <<< "$inputs" || status=$?
    ;;
  year)
    inputs=$(below month "$TREE/state/$name.months")
    "$MERGE" "${words[@]}" - <<< "$inputs" || status=$?
    ;;
  *) fail "no such level" ;;
esac
if [ "$status" = 1 ] && [ "$level" = day ] && [ "${STRICT:-0}" != 1 ]; then
  echo "day $name: made, though some file was not read: $out.files names it"
  status=0
fi
[ "$status" = 0 ] || fail "merge_archive ended with status $status"
rm -f "$failed"
