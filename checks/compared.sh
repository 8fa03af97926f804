#!/usr/bin/env bash
# Compares what examples/beside/run.sh prints of RTKLIB, gpsd and navbridge with examples/beside/seen.txt, from which
# docs/COMPARED.md is written.
#
#   checks/compared.sh [--program FILE]
#
#   --program FILE  navbridge (PROGRAM, or crates/navbridge/out/navbridge)
#
# Exit status: 0 all correct, or skipped with a reason; 1 something differs; 2 the arguments are wrong, or the program is missing.
set -u
. "$(dirname "$(readlink -f "$0")")/lib.sh"
program=''
options '--program:' "$@"
built program navbridge
for it in convbin gpsdecode; do
  command -v "$it" > /dev/null || skip "$it is not installed"
done
# other versions may differ
for it in rtklib:2.4.3.b34 gpsd-clients:3.22; do
  has=$(dpkg-query -W -f '${Version}' "${it%%:*}" 2> /dev/null)
  [[ $has == "${it#*:}"* ]] || skip "${it%%:*} is $has, and seen.txt was made with ${it#*:}"
done
work_folder
"$top/examples/beside/run.sh" --program "$program" > "$work/now" 2>&1
tried=1
diff "$top/examples/beside/seen.txt" "$work/now" || wrong=1
ended compared
