#!/usr/bin/env bash
# Measures the frames of a raw stream: MB/s and frames/s of the built program, compared with a C program (bench/streams.c).
#
#   bench/frames.sh [MEGABYTES] [--program FILE]      default 50
#
#   --program FILE  navbridge (PROGRAM, or crates/navbridge/out/navbridge)
#
# Each figure is the best of five runs with the output to /dev/null. A file or a pipe costs what the system takes for the writes.
set -eu
. "$(dirname "$(readlink -f "$0")")/lib.sh"
program=''
options '--program: ..' "$@"
megabytes=${arguments[0]:-50}
built program navbridge
plain frames streams
"$here/frames" make $((megabytes * 1000000)) > "$here/frames.bin"
"$here/frames" start $((megabytes * 1000000)) > "$here/start.bin"
"$here/frames" mixed $((megabytes * 1000000)) > "$here/mixed.bin"

printf '%-28s %10s %12s %10s\n' stream MB/s frames/s seconds
show() { # name, file, nanoseconds, frames
  local bytes frames
  bytes=$(stat -c %s "$2")
  frames=$4
  awk -v n="$1" -v b="$bytes" -v f="$frames" -v t="$3" 'BEGIN { s = t / 1e9; printf "%-28s %10.0f %12.0f %10.3f\n", n, b / s / 1e6, f / s, s }'
}
declare -A count
for stream in frames start mixed; do
  count[$stream]=$("$program" --from stream --to frames < "$here/$stream.bin" | wc -l)
  time=$(least 5 "$here/$stream.bin" "$program" --from stream --to frames)
  show "navbridge, $stream" "$here/$stream.bin" "$time" "${count[$stream]}"
done
# the plain C program looks again at each byte of a false start, so only the stream of frames is a fair mirror
time=$(least 5 "$here/frames.bin" "$here/streams" frames)
show "C, frames" "$here/frames.bin" "$time" "${count[frames]}"
