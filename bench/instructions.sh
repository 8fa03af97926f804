#!/usr/bin/env bash
# Counts the instructions of each conversion and of the C program for the same conversion: by callgrind over a small input, less
# those over an empty one, by frame, line, record or byte. Other work on the machine does not change them.
#
#   bench/instructions.sh [--write | --check] [--program FILE] [--navlog FILE] [--navconvert FILE] [--by NAME]
#
#   --write            writes the table to bench/results/instructions.txt
#   --check            runs no C program: no conversion may take 3 percent more than in that table
#   --by NAME          the instructions of one conversion, by function (its name in the table)
#   --program FILE     navbridge (PROGRAM, or crates/navbridge/out/navbridge)
#   --navlog FILE      navlog (NAVLOG, or crates/navlog/out/navlog)
#   --navconvert FILE  navconvert (NAVCONVERT, or crates/navconvert/out/navconvert)
#
# The C library clears and copies without `rep`, of which valgrind counts each byte as an instruction.
# An empty capture has its first line, an empty navigation file its header, an empty log its first message. Of `seed` and of a
# complete run of navconvert nothing is subtracted. If the output differs from that of the C program, the row has a note.
#
# Exit status: 0 the table is made, nothing takes more, or skipped with a reason; 1 something takes more; 2 the arguments are wrong,
# or a program is missing.
set -eu
. "$(dirname "$(readlink -f "$0")")/lib.sh"
program='' navlog='' navconvert='' write='' check='' by=''
options '--program: --navlog: --navconvert: --write --check --by:' "$@"
for it in valgrind cc python3; do command -v "$it" > /dev/null || skip "$it is not installed"; done
built program navbridge
built navlog navlog
built navconvert navconvert
work_folder
plain frames streams captures heard files logs
table=bench/results/instructions.txt
if [ -n "$check" ] && ! grep -q '^[^|]*|[^|]*|[^|]*| *[0-9]' "$table" 2> /dev/null; then
  skip "$table has no figure: bench/instructions.sh --write stores them"
fi
export GLIBC_TUNABLES=glibc.cpu.hwcaps=-ERMS
date=(--date '20240101 000000 UTC' --leap 18)
week=(--week 2295)
head="'20240101 000000 UTC' 18"

# ---- inputs
capture() { head -n 20001 <("$1" make 7 32 2295 2> /dev/null) || true; }
records() { head -c 136000 small.distinct | ./streams "$1" 2295 '20240101 000000 UTC' 18 2> /dev/null; }
# a log of 60 s: the messages that a receiver of 15 satellites of each system gives, RXM-RAWX of 100 signals in front of each second
log() {
  python3 ../feeder.py ubx --seconds 0.6 --rate 100 --seed 7 --satellites 15 --clean --free 2> /dev/null | python3 -c '
import random, struct, sys
data, at, draw = sys.stdin.buffer.read(), 0, random.Random(7)
while at < len(data):
    size = 8 + struct.unpack_from("<H", data, at + 4)[0]
    if data[at + 2:at + 4] == b"\x01\x20":
        milliseconds, week = struct.unpack_from("<I4xH", data, at + 6)
        body = struct.pack("<BBHdHbBBBBB", 2, 0x15, 3216, milliseconds / 1000 - 0.001, week, 18, 100, 1, 1, 0, 0) + draw.randbytes(3200)
        low = high = 0
        for byte in body:
            low = low + byte & 255
            high = high + low & 255
        sys.stdout.buffer.write(b"\xb5\x62" + body + bytes((low, high)))
    sys.stdout.buffer.write(data[at:at + size])
    at += size'
}
# a navigation file of so many records of each of these kinds, with random numbers: those of checks/systems.py
systems() {
  python3 -B - "$@" << 'END'
import random, sys
sys.path.insert(0, "checks")
from systems import Record, header
draw = random.Random(7)
records = [Record(draw, kind) for kind in sys.argv[2:] for _ in range(int(sys.argv[1]))]
draw.shuffle(records)
print(header("4.01") + "".join(it.of("4.01", 1) for it in records), end="")
END
}
# frames of so many of each of these messages, with random fields by the tables of docs/FORMATS.md
messages() {
  python3 -B - "$@" << 'END'
import random, re, sys
sys.path.insert(0, "bench")
from feeder import frame, pack
draw = random.Random(7)
limits = {"satellite": (1, 10), "toe": (0, 10079), "toc": (0, 10079), "sisa": (0, 125), "nt": (1, 1460)}
rows = dict(re.findall(r"(?m)^[|] (10\d\d) [|] \d+ [|] (.*) [|]$", open("docs/FORMATS.md").read()))
frames = []
for number in sys.argv[2:]:
    for _ in range(int(sys.argv[1])):
        fields = []
        for name, width, low, high in re.findall(r"(\w+) (\d+)[usm]?(?: \((\d+) to (\d+)\))?", rows[number]):
            least, most = limits.get(name, (int(low or 0), int(high or 2 ** int(width) - 1)))
            fields.append((int(number) if name == "number" else draw.randint(least, most), int(width)))
        value, bits = pack(fields)
        frames.append(frame((value << -bits % 8).to_bytes((bits + 7) // 8, "big")))
draw.shuffle(frames)
sys.stdout.buffer.write(b"".join(frames))
END
}
in_here() { (cd "$here" && "$@"); }
made small.frames "$here/frames" make 250000
made small.starts "$here/frames" start 250000
made small.distinct "$here/streams" make distinct 250000
made small.repeated "$here/streams" make repeated 250000
made small.rinex in_here records rinex
made small.rinex3 in_here records rinex3
made small.capture in_here capture ./captures
made small.shuffled shuffled small.capture
made small.partial "$here/captures" partial 10000
made small.ubx in_here log
made small.two.rinex systems 1000 'G LNAV' 'E INAV'
made small.nine.rinex systems 200 'G LNAV' 'E INAV' 'E FNAV' 'R FDMA' 'C D1' 'C D2' 'J LNAV' 'I LNAV' 'S SBAS'
made small.two.rtcm messages 1000 1019 1046
made small.seven.rtcm messages 300 1019 1020 1041 1042 1044 1045 1046
: > "$work/none"
for it in rinex rinex3; do head -n 4 "$here/small.$it" > "$work/none.$it"; done
head -n 1 "$here/small.capture" > "$work/none.capture"
head -c 3224 "$here/small.ubx" > "$work/none.ubx"
cp examples/station.navcap "$work/station.navcap"

# ---- counts
# the instructions of a command over an input: `count INPUT COMMAND..`; its output is $work/output
count() {
  local input=$1 status=0
  shift
  valgrind --tool=callgrind --callgrind-out-file="$work/callgrind" --log-file="$work/log" "$@" \
    < "$input" > "$work/output" 2> "$work/report" || status=$?
  [ "$status" = 0 ] || [ "$input" != "${input#"$work"/none}" ] || fail "status $status of $* < $input: $(head -n 1 "$work/report")"
  sed -n 's/.*Collected : //p' "$work/log"
}
# what a unit takes: all that was counted, how many units, the empty input (- for none), the command
each() {
  local all=$1 units=$2 none=$3
  shift 3
  if [ "$none" = - ]; then none=0; else none=$(count "$work/$none" "$@"); fi
  awk -v all="$all" -v none="$none" -v n="$units" 'BEGIN { printf "%.2f", (all - none) / n }'
}
kept() { awk -F' *[|] *' -v name="$1" '$1 == name { print $4 }' "$table"; }
row() { printf '%-38s | %-7s | %7s | %9s | %9s | %6s%s\n' "$@"; }
# A job: its name, its unit, how many of them the input has, the input, the empty one, the C command (or -), the command
job() {
  local name=$1 unit=$2 units=$3 input=$4 none=$5 plain=$6 ours theirs=- ratio=- mark='' before
  shift 6
  [ -z "$by" ] || [ "$by" = "$name" ] || return 0
  if [ -n "$by" ]; then
    count "$here/$input" "$@" > /dev/null
    callgrind_annotate "$work/callgrind" | sed -n '/^Ir/,$p' | head -n 60
    return 0
  fi
  ours=$(count "$here/$input" "$@")
  mv "$work/output" "$work/ours"
  ours=$(each "$ours" "$units" "$none" "$@")
  tried=$((tried + 1))
  if [ -n "$check" ]; then
    before=$(kept "$name")
    [ -n "$before" ] || { differs "$name: it is not in $table"; return 0; }
    awk -v now="$ours" -v before="$before" 'BEGIN { exit !(now <= 1.03 * before) }' ||
      differs "$name: $ours instructions by $unit, and $before in $table"
    return 0
  fi
  if [ "$plain" != - ]; then
    eval "set -- $plain"
    theirs=$(count "$here/$input" "$here/$1" "${@:2}")
    cmp -s "$work/output" "$work/ours" || mark=', DIFFERS'
    theirs=$(each "$theirs" "$units" "$none" "$here/$1" "${@:2}")
    ratio=$(awk -v a="$ours" -v b="$theirs" 'BEGIN { printf "%.2f", a / b }')
  fi
  row "$name" "$unit" "$units" "$ours" "$theirs" "$ratio" "$mark"
}
lines_of() { wc -l < "$here/$1"; }
bytes_of() { stat -c %s "$here/$1"; }
all_jobs() {
  local words="2295 $head" n
  n=$(./bench/build/streams frames < "$here/small.frames" | wc -l)
  job 'stream to frames, 67 bytes' frame "$n" small.frames none 'streams frames' "$program" --from stream --to frames
  job 'stream to frames, bytes D3' byte "$(bytes_of small.starts)" small.starts none - "$program" --from stream --to frames
  n=$(./bench/build/streams frames < "$here/small.distinct" | wc -l)
  job 'stream to rinex, distinct' frame "$n" small.distinct none "streams rinex $words" \
    "$program" --from stream --to rinex "${week[@]}" "${date[@]}"
  job 'stream to rinex3, distinct' frame "$n" small.distinct none "streams rinex3 $words" \
    "$program" --from stream --to rinex3 "${week[@]}" "${date[@]}"
  job 'stream to rtcm, distinct' frame "$n" small.distinct none 'streams rtcm 2295' "$program" --from stream --to rtcm "${week[@]}"
  n=$(./bench/build/streams frames < "$here/small.repeated" | wc -l)
  job 'stream to rinex, repeated' frame "$n" small.repeated none "streams rinex $words" \
    "$program" --from stream --to rinex "${week[@]}" "${date[@]}"
  job 'stream to rtcm, repeated' frame "$n" small.repeated none 'streams rtcm 2295' "$program" --from stream --to rtcm "${week[@]}"
  n=$(grep -c '^> EPH' "$here/small.rinex")
  local from
  for from in rinex rinex3; do
    for to in rinex rinex3; do
      job "$from to $to" record "$n" "small.$from" "none.$from" "files $from $to $head" "$program" --from "$from" --to "$to" "${date[@]}"
    done
    for to in rtcm list; do
      job "$from to $to" record "$n" "small.$from" "none.$from" "files $from $to" "$program" --from "$from" --to "$to"
    done
    job "$from to capture" record "$n" "small.$from" "none.$from" - "$program" --from "$from" --to capture "${week[@]}"
  done
  job 'rinex to merged' record "$n" small.rinex none.rinex "files rinex merged $head" "$program" --from rinex --to merged "${date[@]}"
  job 'rinex to cover' record "$n" small.rinex none.rinex 'files rinex cover' "$program" --from rinex --to cover
  n=20000
  job 'capture to rinex' line $n small.capture none.capture "heard rinex $head 2295" \
    "$program" --from capture --to rinex "${week[@]}" "${date[@]}"
  job 'capture to rinex, random order' line $n small.shuffled none.capture "heard rinex $head 2295" \
    "$program" --from capture --to rinex "${week[@]}" "${date[@]}"
  job 'capture to rtcm' line $n small.capture none.capture 'heard rtcm 2295' "$program" --from capture --to rtcm "${week[@]}"
  job 'capture to list' line $n small.capture none.capture 'heard list 2295' "$program" --from capture --to list "${week[@]}"
  job 'capture to count' line $n small.capture none.capture - "$program" --from capture --to count "${week[@]}"
  job 'capture to list, partial periods' line 10000 small.partial none.capture 'heard list 2295' \
    "$program" --from capture --to list "${week[@]}"
  job 'seed to capture' line 15731 small.capture - 'captures make 7 2 2295' "$program" --from seed --to capture --seed 7 --sats 2 "${week[@]}"
  n=$(bytes_of small.ubx)
  job 'navlog, UBX to capture' byte $((n - 3224)) small.ubx none.ubx 'logs capture' "$navlog" --from ubx
  local front=("$navconvert" "${date[@]}" -q -o)
  job 'navconvert, UBX to capture' byte $((n - 3224)) small.ubx none.ubx 'logs capture' "$navconvert" -q -f ubx -t capture -o - -
  job 'navconvert, UBX to rinex' byte $((n - 3224)) small.ubx none.ubx "logs rinex $head" "${front[@]}" - -f ubx -
  job 'navconvert, capture to rinex' line 20000 small.capture none.capture "heard rinex $head 2295" "${front[@]}" - "${week[@]}" -f capture -
  job 'navconvert, rinex to rinex' record "$(grep -c '^> EPH' "$here/small.rinex")" small.rinex none.rinex "files rinex rinex $head" \
    "${front[@]}" - -f rinex -
  # GPS and Galileo alone, and all systems
  local it
  for it in two nine; do
    job "navconvert, rinex of $it kinds" record "$(grep -c '^> EPH' "$here/small.$it.rinex")" "small.$it.rinex" none.rinex - \
      "${front[@]}" - -f rinex -
  done
  for it in two seven; do
    n=$(./bench/build/streams frames < "$here/small.$it.rtcm" | wc -l)
    job "navconvert, stream of $it kinds" frame "$n" "small.$it.rtcm" none - "${front[@]}" - "${week[@]}" -f stream -
  done
  if [ -z "$by" ] || [ "$by" = 'navconvert, a run over 55 kB' ]; then
    rm -f "$work/station.rnx"
    job 'navconvert, a run over 55 kB' run 1 small.capture - - "${front[@]}" "$work/station.rnx" "$work/station.navcap"
  fi
}
if [ -n "$by" ]; then
  all_jobs
  exit 0
fi
if [ -n "$check" ]; then
  all_jobs
  ended instructions
  exit
fi
{
  row job unit units navbridge C ratio ''
  all_jobs
} | tee "$work/table"
if [ -n "$write" ]; then
  mkdir -p "${table%/*}"
  cp "$work/table" "$table"
fi
