#!/usr/bin/env bash
# Measures how many I/NAV page parts a second inav takes. First thirty satellites on two signals, a part of each every second,
# in a window of 7,200 s; then 100,000 parts of one satellite on one signal in two seconds, 50,000 even ones and 50,000 odd ones of
# other words.
#
#   bench/halves.sh [SECONDS]      default 7,200
#
# On an idle machine, 14,400 seconds, so that parts are dropped: 864,000 parts in 0.173 s, 5.0 million a second, and the 100,000 of
# one satellite in 0.050 s, 2.0 million a second. This includes making the parts.
#
# It makes a program over the crate in its own directory, proves and builds it there, and measures the complete run.
set -eu
. "$(dirname "$(readlink -f "$0")")/lib.sh"
options '..' "$@"
seconds=${arguments[0]:-7200}
over halves nav_bits nav_eph inav
over crowded nav_bits nav_eph inav
cat > "$work/crates/halves/src/main.rt" <<'PROGRAM'
#![tactic(auto)]

ghost use Rattle.std.specs.Prelude.{◌≡◌};
ghost use Rattle.nav_eph.specs.declared.sat.System.TheVariants.{Gal};

use inav::{Half, Halves, split};
use nav_bits::Bits;
use nav_eph::{Sat, Signal, System};
use std::alloc::AllocError;
use std::process::ExitCode;

// Takes a half on both signals, and counts the words.
fn both(halves: &mut Halves, stamp: u32, sat: Sat, half: &Half) -> Result<u64, AllocError>
    requires { sat.system ≡ Gal }
{
    let first = halves.take(stamp, sat, Signal::E1b, half)?;
    let second = halves.take(stamp, sat, Signal::E5b, half)?;
    Ok((first.len() as u64).wrapping_add(second.len() as u64))
}

// The halves of one second: even ones in even seconds, the odd ones of the same words a second later.
fn second(halves: &mut Halves, stamp: u32) -> Result<u64, AllocError> {
    let mut words: u64 = 0;
    for number in 1..31u8 {
        if let Some(sat) = Sat::new(System::Gal, number) {
            let mut word = Bits::<16>::zero();
            word.put(0, 32, u64::from(stamp / 2));
            word.put(96, 8, u64::from(number));
            let (even, odd) = split(&word);
            let half = if stamp % 2 == 0 { even } else { odd };
            words = words.wrapping_add(both(halves, stamp, sat, &half)?);
        }
    }
    Ok(words)
}

fn main(rt: HostRuntime) -> Result<ExitCode, AllocError> {
    let mut halves = Halves::new(rt.alloc(), 7200);
    let mut words: u64 = 0;
    for stamp in 0..SECONDS {
        words = words.wrapping_add(second(&mut halves, stamp)?);
    }
    Ok(ExitCode::from(if words == SECONDS / 2 * 60 { 0 } else { 1 }))
}
PROGRAM
sed -i "s/0\.\.SECONDS/0..${seconds}u32/; s/SECONDS/$seconds/g" "$work/crates/halves/src/main.rt"
cat > "$work/crates/crowded/src/main.rt" <<'PROGRAM'
#![tactic(auto)]

ghost use Rattle.std.specs.Prelude.{◌≡◌};
ghost use Rattle.nav_eph.specs.declared.sat.System.TheVariants.{Gal};

use inav::{Halves, split};
use nav_bits::Bits;
use nav_eph::{Sat, Signal, System};
use std::alloc::AllocError;
use std::process::ExitCode;

// Takes the even half of one word and the odd half of another, a second later, and counts the words.
fn pair(halves: &mut Halves, sat: Sat, i: u32) -> Result<u64, AllocError>
    requires { sat.system ≡ Gal }
{
    let mut first = Bits::<16>::zero();
    first.put(0, 32, u64::from(i));
    let mut second = Bits::<16>::zero();
    second.put(32, 32, u64::from(i));
    let even = halves.take(0, sat, Signal::E1b, &split(&first).0)?;
    let odd = halves.take(1, sat, Signal::E1b, &split(&second).1)?;
    Ok((even.len() as u64).wrapping_add(odd.len() as u64))
}

fn main(rt: HostRuntime) -> Result<ExitCode, AllocError> {
    let mut halves = Halves::new(rt.alloc(), 7200);
    let mut words: u64 = 0;
    if let Some(sat) = Sat::new(System::Gal, 11) {
        for i in 0..50_000u32 {
            words = words.wrapping_add(pair(&mut halves, sat, i)?);
        }
    }
    Ok(ExitCode::from(if words < 1_000_000 { 0 } else { 1 }))
}
PROGRAM
for name in halves crowded; do build "$name"; done
# Runs a program three times over: its name, and how many halves it takes.
timed() {
  for _ in 1 2 3; do
    begin=$(date +%s%N)
    "$work/crates/$1/out/$1"
    end=$(date +%s%N)
    echo "$1: $2 halves in $(((end - begin) / 1000000)) ms: $(($2 * 1000 / ((end - begin) / 1000000 + 1))) halves/s"
  done
}
timed halves $((seconds * 60))
timed crowded 100000
