#!/usr/bin/env bash
# Tests the scripts for archives on examples/archive: merge_archive.sh, the tree by GNU parallel, the picture.
#
#   checks/archive.sh [--program FILE]
#
#   --program FILE  navbridge, with navconvert next to it (PROGRAM, or crates/navbridge/out/navbridge)
#
# examples/archive has files of RINEX 2, 3 and 4, packed and plain; four are truncated, empty or no RINEX. Each line is a case: `as it
# should` or `DIFFERS`. GNU parallel and gnuplot are tested if they are installed, and in a repository random files of all systems.
#
# Exit status: 0 all correct; 1 something differs; 2 the arguments are wrong, or the program is missing.
set -u
. "$(dirname "$(readlink -f "$0")")/lib.sh"
program=''
options '--program:' "$@"
built program navbridge
converter=$(dirname "$(path_of "$program")")/navconvert
[ -x "$converter" ] || converter=$top/crates/navconvert/out/navconvert
[ -x "$converter" ] || fail "build first: no program $converter; 'rt ci' at the top leaves it there"
command -v python3 > /dev/null || skip "python3 is not installed"
cd "$top/examples" || exit 1
unset PROGRAM
export LC_ALL=C.UTF-8
work_folder
out=$work
words=(--date "20240101 000000 UTC" --leap 18)

# a case: its name, and a command that must succeed
holds() {
  local name=$1
  shift
  tried=$((tried + 1))
  if "$@" > /dev/null 2>&1; then echo "as it should: $name"; else wrong=$((wrong + 1)); echo "DIFFERS: $name"; fi
}
# a run of merge_archive.sh that must end with a status
ends() {
  local name=$1 status=$2 got=0
  shift 2
  ./merge_archive.sh --program "$program" "${words[@]}" "$@" > "$out/table" 2> "$out/named" || got=$?
  holds "$name: status $status" [ "$got" = "$status" ]
}
# a navconvert that writes down that it was called, and navbridge next to it
cat > "$out/counted" << END
#!/usr/bin/env bash
echo "\$4" >> "$out/calls"
exec "$converter" "\$@"
END
chmod +x "$out/counted"
ln -s "$(path_of "$program")" "$out/navbridge"
# how often navconvert was called to give this, by the run of merge_archive.sh with the words behind
calls() {
  local to=$1
  shift
  : > "$out/calls"
  ./merge_archive.sh --program "$out/counted" "${words[@]}" "$@" > "$out/table" 2> "$out/named"
  grep -cx "$to" "$out/calls"
}

# the same by hand: each file that is no fault converted alone, and one run over all
for file in archive/2024/*/*; do
  gzip -dcf < "$file" > "$out/file" 2> /dev/null || continue
  case $file in */S00300XXX_R_20240020000*) tac "$out/file" | sed "1,/^[^ ]/d" | tac > "$out/whole" && mv "$out/whole" "$out/file" ;; esac
  "$converter" -q -t rinex "${words[@]}" -o - - < "$out/file" 2> /dev/null
done | "$converter" -q -t merged "${words[@]}" -o - - > "$out/by_hand.rnx" 2> /dev/null

ends "a mixed archive" 1 -o "$out/all.rnx" --cover "$out/all.cover" archive
holds "its table" cmp "$out/table" expected/archive.table
holds "the files that were not read, by name" cmp "$out/named" expected/archive.named
holds "its rows" cmp <(sed 1d "$out/all.rnx.files" | cut -f1-8,11-) expected/archive.rows
holds "its bytes, as by hand" cmp "$out/all.rnx" "$out/by_hand.rnx"
holds "the times covered" cmp "$out/all.cover" archive.cover
ends "the same again" 1 -o "$out/all.rnx" --cover "$out/all.cover" archive
holds "it says the same" cmp "$out/table" expected/archive.table
holds "and calls nothing" [ "$(calls merged -o "$out/all.rnx" --cover "$out/all.cover" archive)" = 0 ]
ends "the times covered alone" 1 --cover "$out/alone.cover" archive
holds "they are the same" cmp "$out/alone.cover" archive.cover

good=$(cut -f1,9 expected/archive.rows | sed -n 's/^read\t//p')
echo "$good" > "$out/good"
ends "a list of files that are all read" 0 -o "$out/good.rnx" - < "$out/good"
holds "their bytes, as of all" cmp "$out/good.rnx" "$out/by_hand.rnx"
(cat "$out/good"; echo "no such file.rnx") > "$out/list"
ends "a name that is not there" 1 -o "$out/list.rnx" - < "$out/list"
holds "it is named" grep -qx 'no such file.rnx: missing' "$out/named"
holds "the rest is read" cmp "$out/list.rnx" "$out/by_hand.rnx"
mkdir "$out/odd"
while read -r file; do cp "$file" "$out/odd/a name
with $(basename "$file").dat"; done < "$out/good"
ends "odd names, and none that says what it is" 0 -o "$out/odd.rnx" "$out/odd"
holds "their bytes" cmp "$out/odd.rnx" "$out/by_hand.rnx"
mkdir "$out/none"
ends "an empty day" 0 -o "$out/none.rnx" "$out/none"
holds "it is a header alone" [ "$(grep -c '' "$out/none.rnx") $(grep -c '^>' "$out/none.rnx")" = "4 0" ]

ends "in batches of two" 1 -o "$out/parts.rnx" --batch 2 archive
holds "their bytes" cmp "$out/parts.rnx" "$out/by_hand.rnx"
rm "$out/parts.rnx" "$out/parts.rnx.files"
holds "broken off before the end: the parts are taken" [ "$(calls merged -o "$out/parts.rnx" --batch 2 archive)" = 1 ]
rm "$out/parts.rnx" "$out/parts.rnx.files"
for part in "$out"/parts.rnx.parts/*.rnx; do rm "$part"; break; done
holds "broken off before: one batch is done again" [ "$(calls merged -o "$out/parts.rnx" --batch 2 archive)" = 2 ]
holds "the same bytes" cmp "$out/parts.rnx" "$out/by_hand.rnx"
cp -r archive "$out/archive"
./merge_archive.sh --program "$program" "${words[@]}" -o "$out/late.rnx" --batch 2 "$out/archive" > "$out/table" 2>&1
cp merged.rnx "$out/archive/2024/002/late.rnx"
holds "a late file: it alone, and what was merged" [ "$(calls merged -o "$out/late.rnx" --batch 2 "$out/archive")" = 2 ]
holds "the bytes of all" cmp "$out/late.rnx" <(cat "$out/by_hand.rnx" merged.rnx | "$converter" -q -t merged "${words[@]}" -o - - 2> /dev/null)
for _ in 1 2 3; do ./merge_archive.sh --program "$program" "${words[@]}" -o "$out/two.rnx" --batch 2 -q archive 2> /dev/null & done
wait
holds "three at work at once" cmp "$out/two.rnx" "$out/by_hand.rnx"
holds "they leave no part of a file" [ -z "$(find "$out" -name '*.part')" ]

ends "no names" 2 -o "$out/x.rnx"
ends "no result" 2 archive
ends "a date without UTC" 2 -o "$out/x.rnx" --date "20240101 000000" archive
ends "no program" 2 -o "$out/x.rnx" --program "$out/nothing" archive
holds "which is said" grep -q 'build first: no navconvert' "$out/named"
ends "navconvert named" 1 -o "$out/x.rnx" --program "$converter" archive
holds "its bytes" cmp "$out/x.rnx" "$out/by_hand.rnx"
rm "$out"/x.rnx*
mkdir "$out/alone"
ln "$out/counted" "$out/alone/counted"
ends "times covered without navbridge next to it" 2 --cover "$out/x.cover" --program "$out/alone/counted" archive
holds "which is said" grep -q 'build first: no navbridge' "$out/named"
ends "a program that is none" 3 -o "$out/x.rnx" --program /bin/false archive
holds "which leaves no result" [ ! -e "$out/x.rnx" ]

# files joined by cat, records of both versions, links, unfinished files, a result among the inputs
merged_of() { for file; do "$converter" -q -t rinex "${words[@]}" -o - "$file"; done | "$converter" -q -t merged "${words[@]}" -o - -; }
records_of() { sed '1,/END OF HEADER/d' "$1"; }
merged_of station.rnx version3.nav > "$out/both.rnx"
joined() { # name, then the note of the one file that is read, and the file on standard input
  cat > "$out/joined"
  ends "$1" 0 -o "$out/joined.rnx" --again "$out/joined"
  holds "$1: the records of both" cmp "$out/joined.rnx" "$out/both.rnx"
  holds "$1: the line" grep -qP "\tanother header in line $2\$" "$out/joined.rnx.files"
}
joined "files of versions 4 and 3 joined" 30 < <(cat station.rnx version3.nav)
joined "files of versions 3 and 4 joined" 34 < <(cat version3.nav station.rnx)
holds "which the table counts" grep -qx '    another header  *1' "$out/table"
head -c -1 version3.nav | cat - station.rnx > "$out/joined"
ends "joined where the last line has no end" 1 -o "$out/joined.rnx" --again "$out/joined"
holds "that is named, and the header after it" grep -qx ".*/joined: ends short: another header in line 33; last record left out: its last line has no end" "$out/named"
mixed() { # name, the file whose records are read, version and number of the others, the line of the first
  cat > "$out/mixed"
  ends "$1" 1 -o "$out/mixed.rnx" --again "$out/mixed"
  holds "$1: named, with the line" grep -qx ".*/mixed: mixed: records of version $3 left out: $4, the first in line $5" "$out/named"
  holds "$1: the others are read" cmp "$out/mixed.rnx" <(merged_of "$2")
}
mixed "records of version 3 behind those of 4" station.rnx 3 4 30 < <(cat station.rnx; records_of version3.nav)
mixed "records of version 4 behind those of 3" version3.nav 4 4 34 < <(cat version3.nav; records_of station.rnx)
mixed "records of version 4 amid those of 3" version3.nav 4 4 6 < <(sed '/END OF HEADER/q' version3.nav; records_of station.rnx; records_of version3.nav)
# RINEX 2 of each of its systems, and records of RINEX 3 and 4 in it
gzip -dc archive/2024/003/s0040030.24n.gz > "$out/gps.24n"
for kind in "G: GLONASS NAV DATA" "H: GEO NAV MSG DATA"; do
  printf '%9s%11s%-40sRINEX VERSION / TYPE\n%60sEND OF HEADER\n' 2.11 "" "$kind" ""
  case $kind in H*) printf '20 24  1  1  0 16'; accuracy=2 ;; *) printf ' 7 24  1  1  0 15'; accuracy=0 ;; esac
  printf '  0.0%17s.0%17s.0%17s.0\n' 0 0 900
  for line in 1 2 3; do printf '   %17s.0%17s.0%17s.0%17s.0\n' "$line" 0 0 "$((line == 2 ? accuracy : 0))"; done
done > "$out/further.24"
ends "RINEX 2" 0 -o "$out/older.rnx" "$out/gps.24n"
holds "its bytes" cmp "$out/older.rnx" <(merged_of "$out/gps.24n")
ends "RINEX 2 of GLONASS and SBAS, joined" 0 -o "$out/older.rnx" --again "$out/further.24"
holds "what is read" [ "$(grep '^>' "$out/older.rnx" | cut -c3- | xargs)" = "EPH R07 FDMA EPH S20 SBAS" ]
mixed "records of version 2 behind those of 3" version3.nav 2 9 34 < <(cat version3.nav; records_of "$out/gps.24n")
mixed "records of version 2 behind those of 4" station.rnx 2 9 30 < <(cat station.rnx; records_of "$out/gps.24n")
mixed "records of versions 3 and 4 behind those of 2" "$out/gps.24n" "3 and 4" 8 76 < <(cat "$out/gps.24n"; records_of version3.nav; records_of station.rnx)
printf '> EPH G05 CNAV\n    1\n> STO G05 LNAV\n    1\n> EPH X05 LONG\n%s> STO G05 LNAV\n    1\n' "$(printf '    %d\n' {1..12})
" | cat station.rnx - > "$out/beside"
ends "records that are carried, and one that is too long for that" 0 -o "$out/beside.rnx" "$out/beside"
holds "what is carried is counted by type" [ "$(sed -n '/^  carried/,/^  rejected/p' "$out/table" | xargs)" = "carried 3 G CNAV 1 G STO 2 rejected 0" ]
holds "and the other skipped" [ "$(sed -n '/^  skipped/,/^kept/p' "$out/table" | xargs | cut -d ' ' -f 1-5)" = "skipped 1 other lines 1" ]
{ sed '/END OF HEADER/a\    1.0' station.rnx; printf '\032'; } > "$out/lines"
ends "a line before the first record, and DOS's mark of the end" 0 -o "$out/lines.rnx" "$out/lines"
holds "the records are read" cmp "$out/lines.rnx" <(merged_of station.rnx)
holds "the line is noted" grep -qx '    lines before the first record left out  *1' "$out/table"
mkdir "$out/linked" "$out/elsewhere"
cp station.rnx "$out/linked"
cp version3.nav "$out/elsewhere"
ln -s . "$out/linked/loop"
ln -s ../elsewhere "$out/linked/other"
ends "a directory with links" 0 -o "$out/links.rnx" "$out/linked"
holds "each directory is read once" cmp "$out/links.rnx" "$out/both.rnx"
holds "a link back is counted" grep -qx '  link to a directory that is read already *1' "$out/table"
holds "and named" grep -qx ".*/linked/loop: left out: link to a directory that is read already" "$out/named"
mkdir "$out/day" "$out/day/x.parts"
cp station.rnx "$out/day"
cp version3.nav "$out/day/x.parts"
cp version3.nav "$out/day/late.rnx.part"
ends "an unfinished file" 1 -o "$out/unfinished.rnx" "$out/day"
holds "is named" grep -qx ".*/day/late.rnx.part: unfinished: its name ends in .part" "$out/named"
holds "and a directory is taken by what is in it" cmp "$out/unfinished.rnx" "$out/both.rnx"
rm "$out/day/late.rnx.part"
ends "a result in the directory that is merged" 0 -o "$out/day/all.rnx" "$out/day"
ends "again" 0 -o "$out/day/all.rnx" "$out/day"
holds "it is no input, which is said" grep -qx "merge_archive: .*/day/all.rnx: is a result of this run, and no input" "$out/named"
holds "nothing is done" [ "$(calls merged -o "$out/day/all.rnx" "$out/day")" = 0 ]
holds "its bytes" cmp "$out/day/all.rnx" "$out/both.rnx"
ln -s day "$out/way"
ends "the same by a link" 0 -o "$out/way/all.rnx" "$out/day"
holds "it is no input either" grep -qx "files  *2" "$out/table"
replaces() { # name, what would be replaced, words
  local name=$1 file=$2 before
  shift 2
  before=$(cksum < "$file")
  ends "$name" 2 "$@"
  holds "$name: said" grep -q "is an input of this run" "$out/named"
  holds "$name: it is as it was" [ "$before" = "$(cksum < "$file")" ]
}
replaces "an input as the result" "$out/day/station.rnx" -o "$out/day/station.rnx" "$out/day"
replaces "an input as the times covered" "$out/day/station.rnx" -o "$out/x.rnx" --cover "$out/day/station.rnx" "$out/day"
replaces "an input by a link" "$out/day/station.rnx" -o "$out/way/station.rnx" "$out/day"
replaces "a result that is named as an input" "$out/day/all.rnx" -o "$out/day/all.rnx" "$out/day/all.rnx" station.rnx
echo text > "$out/y.rnx.files"
ends "a file where the rows would stand" 2 -o "$out/y.rnx" station.rnx
holds "it is as it was" [ "$(cat "$out/y.rnx.files")" = text ]

if [ -d "$top/crates" ]; then
  for seed in 1 2; do
    holds "random files of RINEX 2, 3 and 4, of all systems, in several orders and batches ($seed)" \
      "$top/checks/systems.py" --program "$converter" --archive 40 --records 4 --seed "$seed"
  done
fi
if parallel --version 2> /dev/null | grep -q '^GNU parallel'; then
  echo "2/:" > "$out/hosts"
  slurm/parallel.sh --program "$program" "${words[@]}" --cover --hosts "$out/hosts" archive "$out/tree" > /dev/null 2>&1
  holds "the tree of days, months and years by GNU parallel" cmp "$out/tree/year/2024.rnx" "$out/by_hand.rnx"
  holds "its times covered" cmp "$out/tree/year/2024.cover" archive.cover
  slurm/parallel.sh --program "$program" "${words[@]}" --strict --hosts "$out/hosts" archive "$out/strict" > "$out/said" 2>&1
  holds "where each file must be read: the year is not made" [ ! -e "$out/strict/year/2024.rnx" ]
  holds "which is said" grep -q 'year 2024: not made, since month 202401 failed' "$out/said"
else
  echo "the tree: not tried, since GNU parallel is not there"
fi
if command -v gnuplot > /dev/null; then
  ./cover_picture.sh archive.cover "$out/a.png" "$out/a.svg" > "$out/said" 2>&1
  ./cover_picture.sh archive.cover "$out/b.png" "$out/b.svg" > /dev/null 2>&1
  holds "the picture: its gaps" grep -qx "6 satellites, 25 gaps of 309600 seconds in all, from 2023-12-31 22:00:00 to 2024-01-04 00:00:00 GPS time" "$out/said"
  holds "each satellite's" grep -qx "G02 94.6 % covered, gaps 2, the longest of 7200 seconds from 2024-01-03 06:00:00" "$out/said"
  holds "twice the same png" cmp "$out/a.png" "$out/b.png"
  holds "twice the same svg" cmp "$out/a.svg" "$out/b.svg"
  printf 'G01 1388016000 1400000000\nG01 1400007200 1419552000\n' > "$out/year.cover"
  ./cover_picture.sh "$out/year.cover" "$out/year.svg" > "$out/said" 2>&1
  holds "two hours in a year: counted" grep -qx "G01 99.9 % covered, gaps 1, the longest of 7200 seconds from 2024-05-17 16:53:20" "$out/said"
  # the red boxes that are three points wide: that of the legend and that of the gap
  holds "and seen" [ "$(awk -F "[ ,']+" '/polygon fill = .rgb\(208/ { if ($11 - $9 >= 3) n++ } END { print n + 0 }' "$out/year.svg")" = 2 ]
else
  echo "the picture: not tried, since gnuplot is not there"
fi
ended archives
