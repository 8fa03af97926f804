#!/usr/bin/env bash
# Prints the outputs of convbin (RTKLIB), gpsdecode (gpsd) and navbridge for the same streams, if they are installed: seen.txt.
# The transmission time that convbin takes from the clock is printed as CLOCK.
#
#   examples/beside/run.sh [--program FILE]
#
#   --program FILE  navbridge (PROGRAM, or crates/navbridge/out/navbridge)
set -u
# shellcheck source=../../checks/lib.sh
. "$(dirname "$(readlink -f "$0")")/../../checks/lib.sh"
program=''
options '--program:' "$@"
built program navbridge
work_folder
out=$work
cd "$top/examples/beside" || exit 1
beside() { # stream, week of the words, what convbin is told of the time
  echo "=== $1"
  echo "--- navbridge --from stream --to rinex3 --week $2"
  "$program" --from stream --to rinex3 --week "$2" --date "20240101 000000 UTC" --leap 18 < "$1" | sed '1,4d'
  echo "status ${PIPESTATUS[0]}"
  if command -v convbin > /dev/null; then
    rm -f "$out/nav"
    echo "--- convbin -r rtcm3 -v 3.02 ${3:+-tr $3}"
    # shellcheck disable=SC2086
    { convbin -r rtcm3 -v 3.02 ${3:+-tr $3} -n "$out/nav" -od -os "$1"; } > /dev/null 2>&1
    echo "status $?"
    clock=''
    [ -n "${3:-}" ] || clock='s/^ *[0-9.]*D+08 /                  CLOCK /'
    [ -f "$out/nav" ] && sed "1,/END OF HEADER/d;$clock" "$out/nav"
  fi
  if command -v gpsdecode > /dev/null; then
    echo "--- gpsdecode"
    gpsdecode < "$1" 2>&1 | cut -c1-60
  fi
}
beside good.rtcm3 2295
beside good.rtcm3 2295 "2024/1/1 0:0:0"
beside week.rtcm3 1100 "2001/2/4 0:0:0"
beside turn.rtcm3 2295 "2024/1/1 0:0:0"
beside fit.rtcm3 2295 "2024/1/1 0:0:0"
beside health.rtcm3 2295 "2024/1/1 0:0:0"
beside sisa.rtcm3 2295 "2024/1/1 0:0:0"
beside range.rtcm3 2295 "2024/1/1 0:0:0"
beside sat40.rtcm3 2295 "2024/1/1 0:0:0"
beside damaged.rtcm3 2295 "2024/1/1 0:0:0"
beside false.rtcm3 2295 "2024/1/1 0:0:0"
echo "=== a full disk"
"$program" --from stream --to rinex3 --week 2295 --date "20240101 000000 UTC" --leap 18 < good.rtcm3 > /dev/full 2> /dev/null
echo "navbridge: status $?"
if command -v convbin > /dev/null; then
  convbin -r rtcm3 -v 3.02 -tr 2024/1/1 0:0:0 -n /dev/full -od -os good.rtcm3 > /dev/null 2>&1
  echo "convbin: status $?"
fi
