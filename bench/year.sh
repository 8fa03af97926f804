#!/usr/bin/env bash
# Measures the merging of a year's archive: at once, by days, months and years, compared with sort -u and RTKLIB's convbin; and navreport,
# whose pages of the year may take a minute and 5 MB each.
#
# bench/year.sh [options] DIR
#
# Makes an archive by bench/year.py in DIR, if it is not there, and merges it: all files at once; by days, months and the year; again with
# nothing new; and the same records in files of a day's size. Each row has the seconds by the clock, the processor seconds, the peak memory
# of the largest process, the bytes unpacked, MB/s of these, and the records in the merged file. Then other ways: each record on a line
# through `sort -u`, of the files of one program, complete and without the transmission time; and convbin, if it is installed.
#
#   --days N, --stations N   of the archive (365, 40)
#   --jobs N                 processes at once (as many as there are processors)
#   --program FILE           navbridge, navconvert next to it (those of this repository)
#
# Exit status: 0 measured; 1 bytes differ that should not, or the pages take more; 2 wrong arguments.
set -eu
. "$(dirname "$(readlink -f "$0")")/lib.sh"
days=365 stations=40 jobs=$(nproc) program=''
options '--days: --stations: --jobs: --program: ..' "$@"
dir=${arguments[0]:-}
[ -n "$dir" ] || fail "name a directory; --help"
built program navbridge
here=$top/bench
dir=$(path_of "$dir")
mkdir -p "$dir"
merge=$here/../examples/merge_archive.sh
words=(--date "20240101 000000 UTC" --leap 18 --program "$program")
export LC_ALL=C

for kind in small joined; do
  [ ! -e "$dir/$kind.made" ] || continue
  rm -rf "${dir:?}/$kind"
  more=()
  if [ "$kind" = joined ]; then more=(--joined); fi
  "$here/year.py" "$dir/$kind" --days "$days" --stations "$stations" "${more[@]}" > "$dir/making"
  mv "$dir/making" "$dir/$kind.made"
done
echo "files of a station a day: $(tr -s ' \n' ' ' < "$dir/small.made")"
echo "files of a day's size: $(tr -s ' \n' ' ' < "$dir/joined.made")"
unpacked() { awk '$1 == "bytes" && NF == 2 { print $2 }' "$dir/$1.made"; }

# runs a command, and prints a row: label, bytes that it had, where its result is
printf '%-44s %8s %8s %8s %9s %7s %8s\n' "" seconds cpu peak "MB in" MB/s kept
row() {
  local label=$1 bytes=$2 result=$3
  shift 3
  python3 - "$label" "$bytes" "$result" "$@" << 'END'
import os, re, resource, subprocess, sys, time
label, size, result, *words = sys.argv[1:]
began = time.monotonic()
status = subprocess.run(words, stdout=subprocess.DEVNULL, stdin=subprocess.DEVNULL).returncode  # convbin tells its progress on standard error
passed = time.monotonic() - began
used = resource.getrusage(resource.RUSAGE_CHILDREN)
kept = "-"
if os.path.isfile(result):
    with open(result, "rb") as file:
        kept = sum(1 for line in file if re.match(rb"> |[A-Z]\d\d ", line)) if not result.endswith(".rnx") else sum(line[:1] == b">" for line in file)
print(f"{label:44} {passed:8.2f} {used.ru_utime + used.ru_stime:8.2f} {used.ru_maxrss / 1024:5.0f} MB {int(size) / 1e6:9.1f} {int(size) / 1e6 / passed:7.0f} {kept:>8}"
      + (f"  status {status}" if status else ""), flush=True)
END
}
bytes_of() { cat "$@" | wc -c; }

work=$dir/work
rm -rf "$work"
mkdir -p "$work"/{day,month,year}
row "all at once" "$(unpacked small)" "$work/once.rnx" "$merge" -j "$jobs" -o "$work/once.rnx" "${words[@]}" "$dir/small"
row "again, with nothing new" 0 "$work/once.rnx" "$merge" -j "$jobs" -o "$work/once.rnx" "${words[@]}" "$dir/small"

# the tree, as examples/slurm has it, by xargs alone
cat > "$work/days" << 'END'
#!/usr/bin/env bash
set -eu
small=$1 out=$2 jobs=$3 merge=$4
shift 4
cd "$small"
printf '%s\0' */* | xargs -0 -P "$jobs" -I{} bash -c 'one=$1 out=$2 merge=$3; shift 3; exec "$merge" -j 1 -q -o "$out/day/${one/\//}.rnx" "$@" "$one"' day {} "$out" "$merge" "$@"
END
cat > "$work/months" << 'END'
#!/usr/bin/env bash
set -eu
small=$1 out=$2 jobs=$3 merge=$4
shift 4
for folder in "$small"/*/*; do
  day=${folder#"$small"/}
  echo "$out/day/${day/\//}.rnx" >> "$out/$(date -u -d "${day%/*}-01-01 $((10#${day#*/} - 1)) days" +%Y%m).list"
done
printf '%s\0' "$out"/*.list | xargs -0 -P "$jobs" -I{} bash -c 'list=$1 out=$2 merge=$3; shift 3; name=${list##*/}; exec "$merge" -j 1 -q -o "$out/month/${name%.list}.rnx" "$@" - < "$list"' month {} "$out" "$merge" "$@"
END
chmod +x "$work/days" "$work/months"
row "by days, one process a day" "$(unpacked small)" - "$work/days" "$dir/small" "$work" "$jobs" "$merge" "${words[@]}"
row "then by months" "$(bytes_of "$work"/day/*.rnx)" - "$work/months" "$dir/small" "$work" "$jobs" "$merge" "${words[@]}"
row "then the year" "$(bytes_of "$work"/month/*.rnx)" "$work/year.rnx" "$merge" -j "$jobs" -q -o "$work/year.rnx" "${words[@]}" "$work/month" --name '*.rnx'
row "files of a day's size, all at once" "$(unpacked joined)" "$work/joined.rnx" "$merge" -j "$jobs" -o "$work/joined.rnx" "${words[@]}" "$dir/joined"
row "the times covered, of the year" "$(bytes_of "$work/year.rnx")" - "$merge" --cover "$work/year.cover" "${words[@]}" "$work/year.rnx"
began=$SECONDS
row "web pages of all files: navreport" "$(unpacked small)" - "$here/../examples/navreport" -q -j "$jobs" -o "$work/site" --date "20240101 000000 UTC" --program "$program" "$dir/small"
bad=0
large=$(find "$work/site" -name '*.html' -printf '%s\n' | sort -n | tail -n 1)
echo "web pages: $(find "$work/site" -name '*.html' | wc -l), the largest of $large bytes; report.json of $(bytes_of "$work/site/report.json")"
if [ $((SECONDS - began)) -ge 60 ] || [ "$large" -gt 5000000 ]; then bad=1; echo "web pages: TOO SLOW or TOO LARGE"; fi
for one in year joined; do
  if cmp -s "$work/once.rnx" "$work/$one.rnx"; then echo "$one: the bytes of all at once"; else bad=1; echo "$one: DIFFERS from all at once"; fi
done
echo "the merged year: $(bytes_of "$work/once.rnx") bytes, its times covered: $(wc -l < "$work/year.cover") ranges"

# plain ways, over a month at the most: the first days alone
echo
few=$((days < 28 ? days : 28))
plain=$work/plain
mkdir "$plain"
folders=("$dir"/small/*/*)
for folder in "${folders[@]:0:few}"; do
  for file in "$folder"/*; do
    name=$(basename "$file")
    name=$plain/${name%%.*}.rnx
    gzip -dc < "$file" > "$name" 2> /dev/null || cp "$file" "$name"
  done
done
mkdir "$work/ours"
awk 'FNR == 1 && /^     4\.01/ { print FILENAME }' "$plain"/* | while read -r file; do ln "$file" "$work/ours/"; done
cat > "$work/sorted" << 'SCRIPT'
#!/usr/bin/env bash
# each record on a line, the lines once; with a third word without the time of sending, which GLONASS has none of
set -eu
awk 'FNR == 1 { head = 1 } head { if (/END OF HEADER/) head = 0; next } /^>/ { if (n) print text; n = 1; text = $0; next } { text = text "\t" $0 }
  END { if (n) print text }' "$1"/ours/*.rnx |
  if [ $# = 3 ]; then sed -E '/^> EPH R/!s/(.*\t {4}).{19}/\1/'; else cat; fi | sort -u | tr '\t' '\n' > "$2"
SCRIPT
chmod +x "$work/sorted"
echo "the first $few days: $(find "$plain" -type f | wc -l) files, of which $(find "$work/ours" -type f | wc -l) by one program, of version 4.01; unpacked before"
size=$(bytes_of "$work"/ours/*)
row "one program's files: navconvert" "$size" "$work/ours.rnx" "$merge" -j "$jobs" -o "$work/ours.rnx" "${words[@]}" "$work/ours"
row "one program's files: sort -u" "$size" "$work/sorted.rnx" "$work/sorted" "$work" "$work/sorted.rnx"
row "the same without the time of sending" "$size" "$work/cut.rnx" "$work/sorted" "$work" "$work/cut.rnx" cut
size=$(bytes_of "$plain"/*)
row "all of these files: navconvert" "$size" "$work/plain.rnx" "$merge" -j "$jobs" -o "$work/plain.rnx" "${words[@]}" "$plain"
if command -v convbin > /dev/null; then
  row "all of these files: convbin" "$size" "$work/convbin.nav" convbin -r rinex -v 3.04 -n "$work/convbin.nav" "$plain/*.rnx" 2>> "$work/convbin.said"
  "$merge" -j "$jobs" -q -o "$work/of_convbin.rnx" "${words[@]}" "$work/convbin.nav"
  one_line() { tail -n +5 "$1" | awk '/^>/ { if (n++) print text; text = "" } { text = text $0 } END { print text }' | sort; }
  echo "what convbin wrote, merged: $(grep -c '^>' "$work/of_convbin.rnx") records, of which $(
    comm -12 <(one_line "$work/plain.rnx") <(one_line "$work/of_convbin.rnx") | wc -l) are as those of the files merged"
fi
exit "$bad"
