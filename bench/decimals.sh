#!/usr/bin/env bash
# Measures decimal texts of scaled numbers, written and read: numbers/s of scaled_decimal and of a C program in exact arithmetic
# (bench/decimals.c).
#
#   bench/decimals.sh [NUMBERS]      default 5,000,000
#
# It makes a program over the crate in its own directory, proves and builds it there, and measures the complete run.
set -eu
. "$(dirname "$(readlink -f "$0")")/lib.sh"
options '..' "$@"
numbers=${arguments[0]:-5000000}
plain decimals
over decimals scaled_decimal
cat > "$work/crates/decimals/src/main.rt" <<'PROGRAM'
#![tactic(auto)]

ghost use Rattle.scaled_decimal.specs.ScaleValue.{AreWithin};

use scaled_decimal::{Scale, print, read};
use std::process::ExitCode;

// Texts of numbers at the scale of angles, and with `back` the numbers of these texts; a sum of what came.
fn round(scale: &Scale, numbers: u64, back: bool) -> u64
    requires { AreWithin scale.now.factor scale.now.two scale.now.ten }
{
    let mut state: u64 = 1;
    let mut sum: u64 = 0;
    for i in 0..numbers {
        state = state.wrapping_mul(6364136223846793005).wrapping_add(1442695040888963407);
        let text = print((state >> 32) as i64 - 2_147_483_648, scale);
        sum = sum.wrapping_add(text[(i % 19) as usize] as u64);
        if back {
            if let Ok(number) = read(&text, scale, -2_147_483_648, 2_147_483_647) {
                sum = sum.wrapping_add(number.cast_unsigned());
            }
        }
    }
    sum
}

fn main() -> ExitCode {
    let Some(scale) = Scale::new(true, 1, -31, 0) else {
        return ExitCode::from(1);
    };
    let sum = round(&scale, NUMBERS, BACK);
    ExitCode::from((sum % 2) as u8)
}
PROGRAM
for way in print read; do
  back=false
  [ "$way" = read ] && back=true
  sed "s/NUMBERS, BACK/$numbers, $back/" "$work/crates/decimals/src/main.rt" > "$work/main.$way"
done
for way in print read; do
  cp "$work/main.$way" "$work/crates/decimals/src/main.rt"
  build decimals
  time=$(least 1 /dev/null "$work/crates/decimals/out/decimals")
  awk -v w="$way" -v n="$numbers" -v t="$time" \
    'BEGIN { printf "navbridge, %-6s %12.0f numbers/s%s\n", w, n / t * 1e9, w == "read" ? " written and read" : "" }'
done
"$here/decimals" print "$numbers"
"$here/decimals" read "$numbers"
