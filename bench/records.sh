#!/usr/bin/env bash
# Measures reading the records of a RINEX navigation file: MB/s and records/s of rinex_read.
#
#   bench/records.sh [RECORDS]      default 200,000
#
# It makes a file of two alternating ephemerides, and a program over the crate in its own directory, proves and builds it there, and
# measures the complete run, reading included.
set -eu
. "$(dirname "$(readlink -f "$0")")/lib.sh"
options '..' "$@"
records=${arguments[0]:-200000}
over records nav_io rinex_read
mkdir -p "$work/crates/records/proofs/count"
cat > "$work/crates/records/src/main.rt" <<'PROGRAM'
#![tactic(auto)]

ghost use Rattle.std.specs.Prelude.{◌≡◌};
ghost use Rattle.rinex_read.specs.declared.judged.HeaderState.TheVariants.{Passed};

use nav_io::{ReadSource, Source};
use rinex_read::{ItemRead, Records};
use std::process::ExitCode;

// How many records are items.
fn count<S: Source>(records: &mut Records, source: &mut S) -> u64
    requires { records.old.header ≡ Passed }
{
    let mut items: u64 = 0;
    'records: loop {
        match records.next_item(source) {
            Ok(ItemRead::Item { .. }) => items = items.wrapping_add(1),
            Ok(ItemRead::Refused { .. }) => {}
            Ok(ItemRead::PassedOver { .. }) => {}
            Ok(ItemRead::End) => return items,
            Err(_) => return 0,
        }
    }
}

fn main(rt: HostRuntime) -> ExitCode {
    let mut source = ReadSource::new(rt.stdin());
    let mut records = Records::new();
    match records.read_header(&mut source) {
        Ok(()) => {}
        Err(_) => return ExitCode::from(1),
    }
    let items = count(&mut records, &mut source);
    ExitCode::from(if items == RECORDS { 0 } else { 2 })
}
PROGRAM
sed -i "s/RECORDS/$records/" "$work/crates/records/src/main.rt"
cat > "$work/crates/records/proofs/count/Invariants.antt" <<'PROOF'
use Rattle.std.proofs.Common.{◌≡◌}
use Rattle.rinex_read.specs.declared.judged.HeaderState.TheVariants.{Passed}
use Rattle.rinex_read.specs.States.{lines_left}
use Rattle.records.proofs.count.Given as goal

abbrev pub invariant-records : goal.invariant-records
invariant-records g l = l.records.header ≡ Passed

abbrev pub decreases-records : goal.decreases-records
decreases-records g l = lines_left l.records
PROOF
cat > "$work/two" <<'RECORDS'
> EPH G01 LNAV
G01 2014 03 12 12 00 00 7.284949533641D-04 1.136868377216D-13 2.498001805407D-15
     4.100000000000D+01-4.687500000000D-01 0.000000000000D+00 1.462918079267D-09
     0.000000000000D+00 3.477371757617D-01-4.809349775314D-06 1.907348632812D-06
     4.535680000000D+05 1.862645149231D-09-2.679698272349D+00 0.000000000000D+00
     9.952962786565D-01 7.668125000000D+02 3.141592652127D+00 1.676087315764D-06
    -2.296524230881D-09 0.000000000000D+00 1.783000000000D+03 0.000000000000D+00
     2.800000000000D+00 4.400000000000D+01 2.002343535423D-08 4.100000000000D+01
     9.999000000000D+08 4.000000000000D+00
> EPH E01 INAV
E01 2024 01 05 14 00 00 6.249999994179D-02 1.151801143351D-08-5.377642775528D-17
     3.780000000000D+02-1.024000000000D+03 1.170263031867D-08-3.141592652127D+00
     6.103329360485D-05 0.000000000000D+00 0.000000000000D+00 5.252121177673D+03
     7.200000000000D+03 0.000000000000D+00 0.000000000000D+00 0.000000000000D+00
     3.141592652127D+00-2.819062500000D+02 0.000000000000D+00-1.684141579828D-08
    -2.925836158534D-09 5.170000000000D+02 2.296000000000D+03
     3.120000000000D+00 1.000000000000D+00-7.823109626770D-08-4.377216100693D-08
     9.071990000000D+05
RECORDS
{
  printf '%-60s%s\n' '     4.01           N: GNSS NAV DATA    M: MIXED' 'RINEX VERSION / TYPE' "$(printf ' ')" 'END OF HEADER'
  awk -v n=$((records / 2)) '{ text = text $0 "\n" } END { for (i = 0; i < n; i++) printf "%s", text }' "$work/two"
} > "$work/file"
build records "$work/file"
time=$(least 1 "$work/file" "$work/crates/records/out/records")
awk -v n="$records" -v b="$(stat -c %s "$work/file")" -v t="$time" \
  'BEGIN { printf "%.0f records of %.1f MB in %.2f s: %.1f MB/s, %.0f records/s\n", n, b / 1e6, t / 1e9, b / t * 1e3, n / t * 1e9 }'
