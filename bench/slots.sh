#!/usr/bin/env bash
# Measures the assembly of issues: microseconds for each data block, and bytes at the peak.
#
#   bench/slots.sh [BLOCKS]      default 200,000
#
# Four runs: partial issues of one key, each a window and a second after the one before; as many different ionosphere parameters, all open
# at once; and blocks of 64 keys repeated ten seconds apart, in order and in another order. It makes a program over the crate in its own
# directory, proves and builds it there, and measures the complete run.
set -eu
. "$(dirname "$(readlink -f "$0")")/lib.sh"
options '..' "$@"
parts=${arguments[0]:-200000}
over slots nav_bits nav_eph periods slot_assembly
mkdir -p "$work/crates/slots/proofs"
touch "$work/crates/slots/proofs/Lib.antt"
cat > "$work/crates/slots/src/main.rt" <<'PROGRAM'
#![tactic(auto)]

ghost use Rattle.std.specs.Prelude.{◌<◌};

use nav_bits::{S, U};
use nav_eph::{
    Body, GpsIon, GpsOrbitB, NavItem, Part, RefWeek, Sat, Second, SentTag, System,
};
use periods::Closed;
use slot_assembly::{SlotAssembly, add_periods};
use std::alloc::{AllocError, Global};
use std::process::ExitCode;

// A half of an orbit.
fn half(sat: Sat, issue: u64, stamp: u32) -> Part
    requires { issue < 2 }
{
    let orbit = GpsOrbitB {
        iode: U::from_bits(issue),
        cic: S::from_bits(0),
        omega0: S::from_bits(0),
        cis: S::from_bits(0),
        i0: S::from_bits(0),
        crc: S::from_bits(0),
        omega: S::from_bits(0),
        omega_dot: S::from_bits(0),
        idot: S::from_bits(0),
    };
    Part { stamp, sat, body: Body::GpsB(orbit) }
}

// The half with this number, of one key, each a window and a second after the one before.
fn partial(sat: Sat, _second: Second, number: u64) -> Part {
    half(sat, 0, (number % 596_000 * 7_201) as u32)
}

// The half with this number, of 64 keys in turn, ten seconds after the last one of its key.
fn repeated(sat: Sat, _second: Second, number: u64) -> Part {
    let sat = Sat::new(System::Gps, (number % 32 + 1) as u8).unwrap_or(sat);
    half(sat, number / 32 % 2, (number / 64 % 400_000_000 * 10) as u32)
}

// An ionosphere with a content of its own.
fn ionosphere(sat: Sat, second: Second, number: u64) -> Part {
    let content = GpsIon {
        alpha0: S::from_bits(number % 128),
        alpha1: S::from_bits(number / 128 % 128),
        alpha2: S::from_bits(number / 16_384 % 128),
        alpha3: S::from_bits(0),
        beta0: S::from_bits(0),
        beta1: S::from_bits(0),
        beta2: S::from_bits(0),
        beta3: S::from_bits(0),
    };
    Part { stamp: 0, sat, body: Body::GpsIon(content, second) }
}

fn some_parts(alloc: Global, sat: Sat, second: Second) -> Result<Vec<Part>, AllocError> {
    let (_body, _tag): (Option<Body>, Option<SentTag>) = (None, None);
    let mut parts = Vec::new(alloc);
    for number in 0..PARTSu64 {
        parts.push(KIND(sat, second, number * STEPu64 % PARTSu64))?;
    }
    Ok(parts)
}

fn count(alloc: Global, r: RefWeek, sat: Sat, second: Second) -> Result<usize, AllocError> {
    let _item: Option<NavItem> = None;
    let parts = some_parts(alloc, sat, second)?;
    let mut assembly = SlotAssembly::new(alloc, r, 7_200);
    let mut periods: Vec<Closed> = Vec::new(alloc);
    add_periods(&mut assembly, &parts, &mut periods)?;
    Ok(periods.len())
}

fn main(rt: HostRuntime) -> ExitCode {
    match (RefWeek::new(2_295), Sat::new(System::Gps, 5), Second::new(18)) {
        (Some(r), Some(sat), Some(second)) => match count(rt.alloc(), r, sat, second) {
            Ok(periods) => ExitCode::from(if periods == PERIODS { 0 } else { 2 }),
            Err(_) => ExitCode::from(1),
        },
        _ => ExitCode::from(3),
    }
}
PROGRAM
main="$work/crates/slots/src/main.rt"
sed -i "s/PARTS/$parts/g" "$main"
cp "$main" "$work/main.rt"
while read -r kind step periods what; do
  sed "s/KIND/$kind/; s/STEP/$step/; s/PERIODS/$periods/" "$work/main.rt" > "$main"
  build slots
  program="$work/crates/slots/out/slots"
  python3 - "$program" "$parts" "$what" <<'TIME'
import resource, subprocess, sys, time
program, parts, what = sys.argv[1], int(sys.argv[2]), sys.argv[3]
start = time.monotonic()
subprocess.run([program], check=True)
seconds = time.monotonic() - start
peak = resource.getrusage(resource.RUSAGE_CHILDREN).ru_maxrss * 1024
print(f"{parts} {what}: {1e6 * seconds / parts:.2f} microseconds a part, {peak / 1e6:.0f} MB, {peak // parts} bytes a part")
TIME
done << RUNS
partial 1 $parts partial periods of one key
ionosphere 1 $parts ionospheres open at once
repeated 1 64 repeated parts of 64 keys
repeated 7919 64 repeated parts of 64 keys in another order
RUNS
