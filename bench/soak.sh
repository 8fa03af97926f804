#!/usr/bin/env bash
# Runs the program on a live feed: its memory over time, and its output compared with that of one run over the complete input.
#
#   bench/soak.sh [--seconds N] [--rate N] [--seed N] [--program PATH] [--keep]
#
#   --seconds N     of the clock (3600)
#   --rate N        times the usual rate of frames and lines (100)
#   --seed N        of the values and errors (7)
#   --program PATH  navbridge (PROGRAM, or crates/navbridge/out/navbridge, which `rt ci` and `rt run` leave)
#   --keep          leaves inputs, outputs and samples in bench/build/soak; about 1.4 GB for an hour at a hundred times the rate
#
# Two runs at once, stream to rinex and capture to rinex, fed by bench/feeder.py through a pipe, with lost connections, garbage and
# truncated frames. Each ten seconds the memory of both is read from /proc: their own (RssAnon) and all that is resident, of which the
# kernel may drop pages of the program's file at any time. It ends some minutes after the hour. Exit status: 0 if every output and
# report is that of the run over the complete input, and no ephemeris is missing (of a capture the last ones are complete if the data
# ends with two hours, as with 3600 s or 1800 s at a hundred times the rate).
set -euo pipefail
. "$(dirname "$(readlink -f "$0")")/lib.sh"
seconds=3600 rate=100 seed=7 keep='' program=''
options '--seconds: --rate: --seed: --program: --keep' "$@"
built program navbridge
for number in "$seconds" "$rate" "$seed"; do
  [[ $number =~ ^[1-9][0-9]{0,5}$ ]] || fail "$number is no number from 1 to 999999; --help"
done

here=bench/build/soak
rm -rf "$here"
mkdir -p "$here"
children=()
cleanup() {
  local id
  for id in "${children[@]}"; do kill "$id" 2> /dev/null || true; done
  [ -n "$keep" ] || rm -rf "$here"
}
trap cleanup EXIT
trap 'exit 130' INT TERM

header=(--date '20240101 000000 UTC' --leap 18)
# the words of each job; the weeks of the feed begin with 2295
words_of() {
  case $1 in
    stream) words=(--from stream --to rinex --week 2295 "${header[@]}") ;;
    capture) words=(--from capture --to rinex "${header[@]}") ;;
  esac
}

echo "program $program, $(stat -c %s "$program") bytes, sha256 $(sha256sum "$program" | cut -c1-16); $(nproc) processors"
echo "$seconds s at $rate times the usual rate, seed $seed; load at the start $(cut -d' ' -f1-3 /proc/loadavg)"
declare -A id
jobs=(stream capture)
for job in "${jobs[@]}"; do
  words_of "$job"
  mkfifo "$here/$job.pipe"
  "$program" "${words[@]}" < "$here/$job.pipe" > "$here/$job.out" 2> "$here/$job.report" &
  id[$job]=$!
  children+=("$!")
  python3 bench/feeder.py "$job" --seconds "$seconds" --rate "$rate" --seed "$seed" 2> "$here/$job.told" \
    > >(exec tee "$here/$job.whole" > "$here/$job.pipe") &
  children+=("$!")
done

# a row for each job and moment: seconds, job, kB of its own, kB at the peak of all, hundredths of a second of the processor
begin=$SECONDS
sample() {
  local job kind value rest own peak fields
  for job in "${jobs[@]}"; do
    own='' peak=''
    while read -r kind value rest; do
      case $kind in RssAnon:) own=$value ;; VmHWM:) peak=$value ;; esac
    done < "/proc/${id[$job]}/status" || true
    # a program that has ended and is not waited for has no memory
    [ -n "$own" ] || continue
    read -r -a fields < "/proc/${id[$job]}/stat" || continue
    echo "$((SECONDS - begin)) $job $own $peak $((fields[13] + fields[14]))" >> "$here/samples"
  done 2> /dev/null
}
goes() {
  local job
  for job in "${jobs[@]}"; do ! kill -0 "${id[$job]}" 2> /dev/null || return 0; done
  return 1
}
while goes && [ $((SECONDS - begin)) -lt $((seconds + 600)) ]; do
  sample
  for ((i = 0; i < 10; i++)); do
    goes || break
    sleep 1
  done
done
echo "load at the end $(cut -d' ' -f1-3 /proc/loadavg)"

wrong=0
for job in "${jobs[@]}"; do
  status=0
  wait "${id[$job]}" || status=$?
  words_of "$job"
  whole=0
  "$program" "${words[@]}" < "$here/$job.whole" > "$here/$job.again" 2> "$here/$job.again.report" || whole=$?
  said=
  [ "$status" = 0 ] && [ "$whole" = 0 ] || said="$said status $status and $whole;"
  cmp -s "$here/$job.out" "$here/$job.again" || said="$said outputs differ;"
  cmp -s "$here/$job.report" "$here/$job.again.report" || said="$said reports differ;"
  sent=$(sed -n 's/.*ephemerides \([0-9]*\),.*/\1/p' "$here/$job.told")
  written=$(grep -c '^> EPH' "$here/$job.out" || true)
  [ "$sent" = "$written" ] || said="$said $sent ephemerides were sent and $written written;"
  [ -z "$said" ] || wrong=1
  echo
  echo "$job: $(cat "$here/$job.told")"
  echo "  $(stat -c %s "$here/$job.out") bytes out, $written ephemerides; ${said:-output and report are those of the run over the complete input}"
  tail -n 20 "$here/$job.report" | grep -v '^line\|^frame ' | paste -sd ',' | sed 's/,/, /g; s/^/  /'
  # from the first tenth on: the line of least squares through its own memory
  awk -v job="$job" -v seconds="$seconds" '
    $2 != job { next }
    { last = $3; ticks = $5; if ($4 > peak) peak = $4; if ($1 >= seconds / 10) { n++; x += $1; y += $3; xx += $1 * $1; xy += $1 * $3; if (n == 1) first = $3; if ($3 > most) most = $3; if (n == 1 || $3 < least) least = $3 } }
    END {
      if (n < 2) { print "  too few samples"; exit }
      slope = (n * xy - x * y) / (n * xx - x * x) * 3600
      printf "  its own memory: %d kB at a tenth, %d kB at the end, %d to %d between, slope %.0f kB an hour of %d samples;\n", first, last, least, most, slope, n
      printf "  %d kB resident at the peak; %.2f s of the processor\n", peak, ticks / 100
    }' "$here/samples"
done
[ "$wrong" = 0 ]
