#!/usr/bin/env bash
# No conversion takes 3 in 100 more instructions than in bench/results/instructions.txt, as callgrind counts them over small inputs.
#
#   checks/instructions.sh [--program FILE] [--navlog FILE] [--navconvert FILE]
#
#   --program FILE     navbridge (PROGRAM, or crates/navbridge/out/navbridge)
#   --navlog FILE      navlog (NAVLOG, or crates/navlog/out/navlog)
#   --navconvert FILE  navconvert (NAVCONVERT, or crates/navconvert/out/navconvert)
#
# It takes two minutes. If a change is worth more instructions, `bench/instructions.sh --write` replaces the table.
#
# Status: 0 none takes more, or skipped, and why; 1 one does; 2 the arguments are wrong, or a program is not built.
set -u
. "$(dirname "$(readlink -f "$0")")/lib.sh"
program='' navlog='' navconvert=''
options '--program: --navlog: --navconvert:' "$@"
script=$top/bench/instructions.sh
[ -e "$script" ] || skip "bench/instructions.sh is not here"
exec "$script" --check ${program:+--program "$(path_of "$program")"} ${navlog:+--navlog "$(path_of "$navlog")"} \
  ${navconvert:+--navconvert "$(path_of "$navconvert")"}
