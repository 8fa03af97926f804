#!/usr/bin/env bash
# Draws the times for which each satellite has an ephemeris, from a file that `--to cover` wrote.
set -eu
usage=$(cat << 'END'
cover_picture.sh [options] COVER PICTURE..

COVER is a file of `navbridge --to cover` (or - for standard input), a PICTURE a name that ends in .png or .svg. A row is a satellite, GPS
first: a blue bar is the time for which it has an ephemeris, a lower red one a gap, between the first and the last second of the file. A
gap that is too short for the picture is a red tick, taller than the bar. At the right of each row are the time covered in per cent, the
number of gaps and the longest one. Grey lines are where calendar days (or weeks, or months) of GPS time begin. A satellite that the file
does not name has no row.

  --from DATE, --to DATE   the time shown, as 2024-01-01 or "2024-01-01 06:00" (that of the file)
  --title TEXT             a line above it
  --width N                of the picture, in points (1400)
  --help                   this text

It prints the number and seconds of all gaps, and a line for each satellite: per cent covered, gaps, seconds and begin of the longest.
Debian: gnuplot-nox. Exit status: 0 done; 1 COVER has no range in that time; 2 wrong arguments, or no gnuplot.
END
)
from='' to='' title='' width=1400 names=()
while [ $# -gt 0 ]; do
  case $1 in
    --help) echo "$usage"; exit 0 ;;
    --from) from=${2-}; shift ;;
    --to) to=${2-}; shift ;;
    --title) title=${2-}; shift ;;
    --width) width=${2-}; shift ;;
    -) names+=("/dev/stdin") ;;
    -*) echo "cover_picture.sh: $1: no such option; --help" >&2; exit 2 ;;
    *) names+=("$1") ;;
  esac
  shift
done
[ "${#names[@]}" -ge 2 ] || { echo "$usage" >&2; exit 2; }
command -v gnuplot > /dev/null || { echo "cover_picture.sh: gnuplot is not installed" >&2; exit 2; }
cover=${names[0]} pictures=("${names[@]:1}")
for picture in "${pictures[@]}"; do
  case $picture in *.png | *.svg) ;; *) echo "cover_picture.sh: $picture: a name in .png or .svg is required" >&2; exit 2 ;; esac
done
case $width in '' | *[!0-9]*) echo "cover_picture.sh: --width is a number" >&2; exit 2 ;; esac
[ "$width" -ge 600 ] || { echo "cover_picture.sh: --width is at least 600" >&2; exit 2; }
title=${title//[\\\"\`]/}

# seconds of GPS time since 1980, of a date
second_of() {
  [ -n "$1" ] || return 0
  local unix
  unix=$(date -u -d "$1" +%s 2> /dev/null) || { echo "cover_picture.sh: $1: no date" >&2; exit 2; }
  echo $((unix - 315964800))
}
from=$(second_of "$from")
to=$(second_of "$to")

work=$(mktemp -d)
trap 'rm -rf "$work"' EXIT
# rows: the ranges with the number of their row, the gaps, the satellites, and the bounds; what is drawn is cut to the wanted time. The
# axis is some 300 points shorter than the picture
awk -v from="$from" -v to="$to" -v work="$work" -v points="$((width - 300))" '
  NF == 3 && $1 ~ /^[A-Z][0-9][0-9]$/ && $2 + 0 < $3 + 0 {
    n++; sat[n] = $1; a[n] = $2 + 0; b[n] = $3 + 0
    if (lo == "" || a[n] < lo) lo = a[n]
    if (hi == "" || b[n] > hi) hi = b[n]
  }
  function gap(row, name, x, y) {
    if (x >= y) return
    middle = (x + y) / 2; half = (y - x) / 2; least = 1.5 * (hi - lo) / points
    short = half < least
    if (short) half = least
    printf "%s %d %.0f %.0f\n", name, row, middle - half, middle + half > (work (short ? "/ticks" : "/gaps")); gaps++; seconds += y - x
    mine++; lost += y - x
    if (y - x > longest) { longest = y - x; begin = x }
  }
  function long(s) {
    if (s >= 172800) return sprintf("%.1f d", s / 86400)
    if (s >= 7200) return sprintf("%.1f h", s / 3600)
    return sprintf("%.0f min", s / 60)
  }
  function satellite() { # at the end of a row
    if (last == "") return
    gap(rows, last, end, hi)
    covered = 100 * (hi - lo - lost) / (hi - lo)
    if (lost > 0 && covered > 99.9) covered = 99.9
    printf "set y2tics add (\"%5.1f %%%%  %d%s\" %d)\n", covered, mine, mine ? ", longest " long(longest) : "", rows > (work "/names")
    printf "%s %.1f %d %.0f %.0f\n", last, covered, mine, longest, mine ? begin : 0 > (work "/satellites")
    mine = lost = longest = 0
  }
  END {
    if (from != "") lo = from + 0
    if (to != "") hi = to + 0
    printf "" > (work "/gaps"); printf "" > (work "/ticks"); printf "" > (work "/spans")
    for (i = 1; i <= n; i++) {
      if (b[i] <= lo || a[i] >= hi) continue
      if (a[i] < lo) a[i] = lo
      if (b[i] > hi) b[i] = hi
      if (sat[i] != last) {
        satellite()
        last = sat[i]; rows++; end = lo
        printf "set ytics add (\"%s\" %d)\n", last, rows > (work "/names")
      }
      gap(rows, last, end, a[i])
      print last, rows, a[i], b[i] > (work "/spans")
      end = b[i]
    }
    satellite()
    printf "rows=%d lo=%.0f hi=%.0f gaps=%d seconds=%.0f\n", rows, lo, hi, gaps, seconds > (work "/bounds")
  }' "$cover"
rows=0 lo=0 hi=0 gaps=0 seconds=0
# shellcheck disable=SC1091
. "$work/bounds"
[ "$rows" -gt 0 ] || { echo "cover_picture.sh: $cover: no range in that time" >&2; exit 1; }

day=86400 span=$((hi - lo)) form='%Y-%m-%d\n%H:%M'
if [ "$span" -gt $((day * 400)) ]; then step=$((day * 91)) form='%Y-%m-%d'
elif [ "$span" -gt $((day * 60)) ]; then step=$((day * 28)) form='%Y-%m-%d'
elif [ "$span" -gt $((day * 12)) ]; then step=$((day * 7)) form='%Y-%m-%d'
elif [ "$span" -gt $((day * 3 / 2)) ]; then step=$day form='%Y-%m-%d'
elif [ "$span" -gt $((day / 4)) ]; then step=$((3600 * 3))
else step=3600; fi
first=$((lo / step * step))
if [ "$step" -ge $day ]; then first=$((lo / day * day)); fi

for picture in "${pictures[@]}"; do
  case $picture in
    *.png) terminal="pngcairo size $width,$((110 + 16 * rows)) font 'sans,10' background rgb 'white'" ;;
    *) terminal="svg size $width,$((110 + 16 * rows)) dynamic font 'sans,10' background rgb 'white'" ;;
  esac
  # plain names in the folder of the data, since svg has the plot's words in it
  (
    cd "$work"
    gnuplot << END
set terminal $terminal
set output "picture"
e = 315964800.0
set xdata time
set timefmt "%s"
set format x "$form"
set xrange [$lo.0+e:$hi.0+e]
set yrange [$rows+1:0]
set xtics $first.0+e, $step
set grid xtics front lt 1 lw 1 lc rgb "#909090"
set ytics () nomirror
set y2range [$rows+1:0]
set y2tics () nomirror
load "names"
set rmargin 31
set key outside top center horizontal reverse Left samplen 2
set xlabel "GPS time"
set label "covered, gaps" at graph 1.01, graph 1 offset 0, 0.8 left
set title "$title"
set style fill solid 1.0 noborder
plot "spans" using (\$3+e):2:(\$3+e):(\$4+e):(\$2-0.38):(\$2+0.38) with boxxyerror lc rgb "#3060a0" title "has an ephemeris", \
     "gaps" using (\$3+e):2:(\$3+e):(\$4+e):(\$2-0.22):(\$2+0.22) with boxxyerror lc rgb "#d03030" title "gap", \
     "ticks" using (\$3+e):2:(\$3+e):(\$4+e):(\$2-0.5):(\$2+0.5) with boxxyerror lc rgb "#d03030" title "short gap (tall, not to scale)"
END
  ) 2> "$work/said" || { cat "$work/said" >&2; exit 1; }
  mv "$work/picture" "$picture"
done
printf '%d satellites, %d gaps of %d seconds in all, from %s to %s GPS time\n' "$rows" "$gaps" "$seconds" \
  "$(date -u -d "@$((lo + 315964800))" '+%Y-%m-%d %H:%M:%S')" "$(date -u -d "@$((hi + 315964800))" '+%Y-%m-%d %H:%M:%S')"
while read -r name covered count longest begin; do
  if [ "$count" = 0 ]; then printf '%s %s %% covered, no gap\n' "$name" "$covered"; continue; fi
  printf '%s %s %% covered, gaps %d, the longest of %d seconds from %s\n' "$name" "$covered" "$count" "$longest" \
    "$(date -u -d "@$((begin + 315964800))" '+%Y-%m-%d %H:%M:%S')"
done < "$work/satellites"
