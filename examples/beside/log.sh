#!/usr/bin/env bash
# Compares the outputs of convbin (RTKLIB) and of navlog with navbridge for the same receiver log, number by number.
#
#   examples/beside/log.sh [--navlog FILE] [--program FILE]
#
#   --navlog FILE   navlog (NAVLOG, or crates/navlog/out/navlog)
#   --program FILE  navbridge (PROGRAM, or crates/navbridge/out/navbridge)
set -euo pipefail
# shellcheck source=../../checks/lib.sh
. "$(dirname "$(readlink -f "$0")")/../../checks/lib.sh"
navlog='' program=''
options '--navlog: --program:' "$@"
built navlog navlog
built program navbridge
command -v convbin > /dev/null || fail "convbin is not installed (Debian's package rtklib)"
work_folder
out=$work
cd "$top/examples/beside"
python3 log.py log > "$out/log.ubx"
"$navlog" --from ubx < "$out/log.ubx" 2> "$out/report" > "$out/log.navcap"
"$program" --from capture --to rinex3 --date "20240105 000000 UTC" --leap 18 < "$out/log.navcap" > "$out/ours.nav" 2> /dev/null
convbin -r ubx -v 3.04 -tr 2024/1/5 0:0:0 -n "$out/theirs.nav" -od -os "$out/log.ubx" > /dev/null 2>&1
cat "$out/report"
python3 log.py compare "$out/ours.nav" "$out/theirs.nav"
