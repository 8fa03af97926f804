#!/usr/bin/env bash
# Measures the conversions: the built program compared with C programs for the same conversion of the same files.
#
#   bench/jobs.sh [MEGABYTES] [--program FILE] [--navconvert FILE] [--runs N]
#
#   MEGABYTES          of each stream (50)
#   --program FILE     navbridge (PROGRAM, or crates/navbridge/out/navbridge)
#   --navconvert FILE  navconvert (NAVCONVERT, or crates/navconvert/out/navconvert)
#   --runs N           of each row, of which the least is printed (5)
#
# Inputs are made in bench/build. First each conversion is run once into a file, and its bytes are compared with those of the C program, or
# with what the maker of the input knows; then it is timed with the output to /dev/null, the least of the runs. Processor time (user and
# system) depends less on other work than the clock; both are printed. "not built" means that the program does not have the conversion.
set -eu
. "$(dirname "$(readlink -f "$0")")/lib.sh"
program='' navconvert='' runs=5
options '--program: --navconvert: --runs: ..' "$@"
size=$((${arguments[0]:-50} * 1000000))
built program navbridge
built navconvert navconvert
plain frames streams captures heard files spent
date=(--date '20240101 000000 UTC' --leap 18)
week=(--week 2295)

records() { # version: 200,000 records
  head -c 13600000 "$here/distinct.$size" | "$here/streams" "$1" 2295 '20240101 000000 UTC' 18 2> /dev/null
}
made "frames.$size" "$here/frames" make "$size"
made "start.$size" "$here/frames" start "$size"
made "start.$((size / 2))" "$here/frames" start $((size / 2))
made "distinct.$size" "$here/streams" make distinct "$size"
made "repeated.$size" "$here/streams" make repeated "$size"
made "records.$size.rinex" records rinex
made "records.$size.rinex3" records rinex3
made hour.capture "$here/captures" make 7 32 2295
made shuffled.capture shuffled hour.capture
made partial.capture "$here/captures" partial 200000
for window in 600 7200; do
  for hours in 1 4 10; do made "hours.$hours.$window" "$here/captures" hours 7 12 2295 "$hours" "$window"; done
done

# what a run takes: seconds on the clock, of the processor, kilobytes at the peak, status
spend() { # input, command
  local input=$1
  shift
  "$here/spent" "$runs" "$here/$input" /dev/null /dev/null "$@"
}
line() { printf '%-46s %7s %8s %8s %8s %7s %8s  %s\n' "$@"; }
bare=$({ "$here/spent" "$runs" /dev/null /dev/null /dev/null "$program" || true; } | cut -d' ' -f3)
echo "load $(cut -d' ' -f1-3 /proc/loadavg); a run without words has $bare kB at its peak"
line job MB 'MB/s' clock,s proc,s 'C,s' ratio 'peak, same'
# A job: its name, its input, the file that its output must be (or -), the C command (or -), the program's words.
job() { # name, input, expected, C command, words
  local name=$1 input=$2 expected=$3 plain=$4 same=- bytes
  shift 4
  bytes=$(stat -c %s "$here/$input")
  local status=0
  "$program" "$@" < "$here/$input" > "$here/output" 2> "$here/report" || status=$?
  if [ "$status" != 0 ]; then
    line "$name" "$((bytes / 1000000))" - - - - - "$([ "$status" = 2 ] && echo 'not built' || echo "STATUS $status")"
    return 0
  fi
  if [ "$expected" != - ]; then
    same=$(cmp -s "$here/output" "$here/$expected" && echo same || echo DIFFERS)
  elif [ "$plain" != - ]; then
    # shellcheck disable=SC2086
    eval "$here/$plain" < "$here/$input" > "$here/plain.output" 2> "$here/plain.report"
    same=$(cmp -s "$here/output" "$here/plain.output" && echo same || echo DIFFERS)
    cmp -s "$here/report" "$here/plain.report" || same="$same, REPORT DIFFERS"
    rm -f "$here/plain.output"
  fi
  rm -f "$here/output"
  local ours theirs=
  ours=$(spend "$input" "$program" "$@")
  peak=$(cut -d' ' -f3 <<< "$ours")
  if [ "$plain" != - ]; then theirs=$(eval "spend $input $here/$plain"); fi
  # shellcheck disable=SC2046
  line "$name" $(awk -v o="$ours" -v c="$theirs" -v b="$bytes" 'BEGIN {
    split(o, p, " "); n = split(c, q, " ")
    printf "%.1f %.0f %.3f %.3f %s %s %.1fMB,", b / 1e6, b / p[2] / 1e6, p[1], p[2], \
      n ? sprintf("%.3f", q[2]) : "-", n ? sprintf("%.2f", p[2] / q[2]) : "-", p[3] / 1000 }') 2> /dev/null |
    sed "s/,\$/, $same/"
}
words="2295 '20240101 000000 UTC' 18"
job 'frames of 67 bytes, stream to frames' "frames.$size" - 'streams frames' --from stream --to frames
job 'bytes D3, stream to frames' "start.$size" - - --from stream --to frames
job 'half as many bytes D3' "start.$((size / 2))" - - --from stream --to frames
job 'distinct frames to rinex' "distinct.$size" - "streams rinex $words" --from stream --to rinex "${week[@]}" "${date[@]}"
job 'repeated frames to rinex' "repeated.$size" - "streams rinex $words" --from stream --to rinex "${week[@]}" "${date[@]}"
job 'distinct frames to rtcm' "distinct.$size" - 'streams rtcm 2295' --from stream --to rtcm "${week[@]}"
job 'distinct frames to rinex3' "distinct.$size" - "streams rinex3 $words" \
  --from stream --to rinex3 "${week[@]}" "${date[@]}"
head="'20240101 000000 UTC' 18"
job '200,000 records, rinex to rinex' "records.$size.rinex" - "files rinex rinex $head" --from rinex --to rinex "${date[@]}"
job '200,000 records, rinex to rtcm' "records.$size.rinex" - 'files rinex rtcm' --from rinex --to rtcm
job '200,000 records, rinex to list' "records.$size.rinex" - 'files rinex list' --from rinex --to list
job '200,000 records, rinex to rinex3' "records.$size.rinex" - "files rinex rinex3 $head" --from rinex --to rinex3 "${date[@]}"
job '200,000 records, rinex3 to rinex' "records.$size.rinex3" - "files rinex3 rinex $head" --from rinex3 --to rinex "${date[@]}"
job '200,000 records, rinex to merged' "records.$size.rinex" - "files rinex merged $head" --from rinex --to merged "${date[@]}"
job '200,000 records, rinex to cover' "records.$size.rinex" - 'files rinex cover' --from rinex --to cover
# (no input is read; the megabytes are those that are written)
job '32 and 32 satellites, seed to capture' hour.capture - 'captures make 7 32 2295' \
  --from seed --to capture --seed 7 --sats 32 "${week[@]}"
job 'capture of 32 and 32 satellites to rinex' hour.capture - "heard rinex $head 2295" --from capture --to rinex "${week[@]}" "${date[@]}"
job 'its lines in random order' shuffled.capture - "heard rinex $head 2295" --from capture --to rinex "${week[@]}" "${date[@]}"
job '200,000 partial periods of one key to list' partial.capture - 'heard list 2295' --from capture --to list "${week[@]}"
# (four hours fill two windows of 7,200 s, one hour does not)
for window in 600 7200; do
  peaks=()
  for hours in 1 4 10; do
    peak=
    job "12 and 12 satellites, $hours h, window $window s" "hours.$hours.$window" - "heard rinex $head" --from capture --to rinex "${date[@]}"
    peaks+=("${peak:-nan}")
  done
  awk -v w="$window" -v one="${peaks[0]}" -v four="${peaks[1]}" -v ten="${peaks[2]}" 'BEGIN {
    printf "peak of ten hours, window %d s: %.2f times that of one, %.2f times that of four\n", w, ten / one, ten / four }'
done
one=../../examples/station.navcap
awk '{ printf "navconvert, a file of 55 kB, start to end: %.1f ms, of the processor %.1f ms, %.1f MB\n", 1e3 * $1, 1e3 * $2, $3 / 1e3 }' \
  <<< "$(spend "$one" "$navconvert" -q --overwrite "${date[@]}" -o "$here/one.rnx" "$here/$one")"
echo "load $(cut -d' ' -f1-3 /proc/loadavg)"
