#!/usr/bin/env bash
# Runs every conversion on its example and compares output, report and exit status, and navlog on its log; then two generated logs
# through both programs, compared with what was sent.
#
#   checks/runs.sh [--program FILE] [--navlog FILE]
#
#   --program FILE  navbridge (PROGRAM, or crates/navbridge/out/navbridge, which `rt ci` and `rt run` leave)
#   --navlog FILE   navlog (NAVLOG, or crates/navlog/out/navlog); if it is missing, its log is not tried, with a message
#
# Each line of examples/runs.txt is a run: exit status, input, file of its output, file of its report (- for none), options.
#
# Exit status: 0 all correct; 1 something differs; 2 the arguments are wrong, or navbridge is missing: build first.
set -u
. "$(dirname "$(readlink -f "$0")")/lib.sh"
program='' navlog=''
options '--program: --navlog:' "$@"
built program navbridge
has_navlog=''
if is_built navlog navlog; then has_navlog=yes; fi
work_folder
cd "$top/examples" || exit 1
while IFS='|' read -r status input output report words; do
  case $status in '' | '#'*) continue ;; esac
  eval "set -- $words"
  "$program" "$@" < "$input" > "$work/output" 2> "$work/report"
  got=$?
  tried=$((tried + 1))
  said=
  [ "$got" = "$status" ] || said="status $got"
  cmp -s "$work/output" "${output/#-/\/dev/null}" || said="$said output"
  cmp -s "$work/report" "${report/#-/\/dev/null}" || said="$said report"
  [ -z "$said" ] || differs "($said): navbridge $words < $input"
done < runs.txt
if [ -n "$has_navlog" ]; then
  "$navlog" --from ubx < log.ubx > "$work/navcap" 2> "$work/report"
  got=$?
  "$program" --from capture --to list < "$work/navcap" > "$work/output" 2> /dev/null
  tried=$((tried + 1))
  if [ "$got" != 0 ] || ! cmp -s "$work/output" log.list || ! cmp -s "$work/report" log.report; then
    differs "(status $got): navlog --from ubx < log.ubx | navbridge --from capture --to list"
  fi
  # generated: what a receiver logs of an hour, and the same subframes and page parts as a capture, become one file
  if [ -e "$top/bench/feeder.py" ] && command -v python3 > /dev/null; then
    for seed in 7 8; do
      words=(--seconds 36 --rate 100 --seed "$seed" --satellites 4 --clean --free)
      python3 "$top/bench/feeder.py" ubx "${words[@]}" 2> /dev/null | "$navlog" --from ubx 2> /dev/null > "$work/logged.navcap"
      python3 "$top/bench/feeder.py" capture "${words[@]}" 2> /dev/null > "$work/sent.navcap"
      for capture in logged sent; do
        "$program" --from capture --to rinex --date "20240105 000000 UTC" --leap 18 < "$work/$capture.navcap" 2> /dev/null > "$work/$capture.rnx"
      done
      tried=$((tried + 1))
      if [ ! -s "$work/sent.rnx" ] || ! cmp -s "$work/logged.rnx" "$work/sent.rnx"; then
        differs "the generated log of seed $seed, through navlog and navbridge"
      fi
    done
  fi
else
  echo "navlog: not tried, since it is not built ($navlog)"
fi
ended runs
