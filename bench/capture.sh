#!/usr/bin/env bash
# Measures reading the lines of a capture: MB/s of nav_io's `Lines`, and of `Lines` with capture_lines' `read_line_into`.
#
#   bench/capture.sh [MEGABYTES]      default 12
#
# The capture has lines of subframes, page parts and frames, as a logger of twelve satellites of each system writes them, with random
# digits. It makes a program over the two crates in its own directory, proves and builds it there, and takes the least of five runs.
set -eu
. "$(dirname "$(readlink -f "$0")")/lib.sh"
options '..' "$@"
megabytes=${arguments[0]:-12}
over capture nav_io capture_lines
cat > "$work/crates/capture/src/main.rt" <<'PROGRAM'
#![tactic(auto)]

use capture_lines::{LineItem, read_line_into};
use nav_io::{LineKind, Lines, ReadSource};
use std::process::ExitCode;

const MOST_LINES: u32 = 4_000_000_000;

const READS: bool = WAY;

// What is counted of bytes.
fn weight_of(bytes: &[u8]) -> u32 {
    let mut sum: u32 = 0;
    for byte in bytes {
        sum = sum.wrapping_mul(31).wrapping_add(u32::from(*byte));
    }
    sum
}

// What is counted of a line.
fn weight(line: &[u8], item: &mut LineItem) -> u32 {
    if !READS {
        return if line.is_empty() { 0 } else { 1 };
    }
    read_line_into(line, item);
    match item {
        LineItem::Lnav { stamp, bits, .. } => *stamp ^ weight_of(bits.bytes().as_slice()),
        LineItem::Half { stamp, bits, .. } => *stamp ^ weight_of(bits.bytes().as_slice()),
        LineItem::Frame { stamp, bytes } => *stamp ^ weight_of(bytes.as_slice()),
        LineItem::Pass => 1,
        LineItem::Malformed => 2,
    }
}

fn main(rt: HostRuntime) -> ExitCode {
    let mut source = ReadSource::new(rt.stdin());
    let mut lines = Lines::new();
    let mut item = LineItem::Pass;
    let mut sum: u32 = 0;
    for _ in 0..MOST_LINES {
        match lines.next(&mut source) {
            Ok(LineKind::Text) => sum = sum.wrapping_add(weight(lines.text(), &mut item)),
            Ok(LineKind::Long) => sum = sum.wrapping_add(1),
            _ => break,
        }
    }
    ExitCode::from((sum % 2) as u8)
}
PROGRAM
awk -v most=$((megabytes * 1000000)) '
function digits(count,   text) {
  text = ""
  while (length(text) < count) { state = state * 16807 % 2147483647; text = text sprintf("%04x", int(state / 32768) % 65536) }
  return substr(text, 1, count)
}
BEGIN {
  state = 5; size = 0; print "NAVCAP 1"
  for (second = 0; size < most; second++) {
    for (sat = 1; sat <= 12; sat++) {
      line = ""
      if (second % 6 == 0) line = sprintf("%d L G%02d %s\n", second, sat, digits(76))
      line = line sprintf("%d P E%02d B %s\n%d P E%02d 5 %s\n", second, sat, digits(30), second, sat, digits(30))
      if (second % 30 == 0) line = line sprintf("%d R %s\n", second, digits(134))
      size += length(line); printf "%s", line
    }
  }
}' > "$work/capture.txt"
bytes=$(stat -c %s "$work/capture.txt")
lines=$(wc -l < "$work/capture.txt")
for way in false true; do
  sed "s/= WAY;/= $way;/" "$work/crates/capture/src/main.rt" > "$work/main.$way"
done
printf '%-26s %8s %12s %10s\n' "$lines lines" MB/s lines/s seconds
for way in false true; do
  cp "$work/main.$way" "$work/crates/capture/src/main.rt"
  build capture
  best=$(least 5 "$work/capture.txt" "$work/crates/capture/out/capture")
  name=$([ "$way" = true ] && echo 'lines and read_line_into' || echo 'lines alone')
  awk -v n="$name" -v b="$bytes" -v l="$lines" -v t="$best" \
    'BEGIN { s = t / 1e9; printf "%-26s %8.0f %12.0f %10.4f\n", n, b / s / 1e6, l / s, s }'
done
