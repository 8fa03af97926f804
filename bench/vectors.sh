#!/usr/bin/env bash
# Measures the seconds in which sent_captures makes a capture of an hour, and its megabytes.
#
#   bench/vectors.sh [SATELLITES]      of each system; default 32
#
# It makes a program over the crate in its own directory, proves and builds it there, and measures the complete run. The program makes the
# capture of number 7 in week 2295 and writes it.
set -eu
. "$(dirname "$(readlink -f "$0")")/lib.sh"
options '..' "$@"
satellites=${arguments[0]:-32}
over vectors nav_eph sent_captures
cat > "$work/crates/vectors/src/main.rt" <<'PROGRAM'
#![tactic(auto)]

use nav_eph::RefWeek;
use sent_captures::make_capture;
use std::io::Write;
use std::process::ExitCode;

fn main(rt: HostRuntime) -> ExitCode {
    let Some(week) = RefWeek::new(2295) else {
        return ExitCode::from(1);
    };
    let Ok(text) = make_capture(rt.alloc(), 7, SATELLITES, week) else {
        return ExitCode::from(2);
    };
    let mut output = rt.stdout();
    match output.write_all(text.as_slice()) {
        Ok(()) => ExitCode::from(0),
        Err(_) => ExitCode::from(3),
    }
}
PROGRAM
sed -i "s/SATELLITES/$satellites/" "$work/crates/vectors/src/main.rt"
build vectors
program="$work/crates/vectors/out/vectors"
for _ in 1 2 3; do
  from=$(date +%s%N)
  "$program" > "$work/text"
  to=$(date +%s%N)
  awk -v n="$satellites" -v t=$((to - from)) -v b="$(wc -c < "$work/text")" -v l="$(wc -l < "$work/text")" \
    'BEGIN { printf "%d satellites of each system: %d lines, %.1f MB, %.3f s\n", n, l, b / 1e6, t / 1e9 }'
done
sha256sum "$work/text"
