#!/usr/bin/env bash
# Converts real streams and logs, which are not in the repository: those of the Debian source packages of gpsd and RTKLIB.
#
#   checks/real.sh [--program FILE] [--navlog FILE] [--navconvert FILE] [DIRECTORY]
#
#   --program FILE     navbridge (PROGRAM, or crates/navbridge/out/navbridge)
#   --navlog FILE      navlog (NAVLOG, or crates/navlog/out/navlog)
#   --navconvert FILE  navconvert (NAVCONVERT, or crates/navconvert/out/navconvert)
#   DIRECTORY          with the unpacked packages. Without it they are fetched once, 35 MB, by apt-get, if it knows sources (a line
#                      `Types: deb-src` in /etc/apt/sources.list.d), into ~/.cache/navbridge/real
#
# It counts the GPS and Galileo ephemerides of three RTCM 3 streams and, if convbin is installed (Debian's package rtklib), compares
# them with its own, number by number: all are equal but the transmission time, which no message has and convbin takes from its
# clock. Of the log of a ZED-F9P it counts the subframes and pages that navlog writes: 5 and 27, each page in two lines. Two more
# pages come after the last time message of the log, and have no time. Of the stream with messages of all systems it does the
# same with the 74 ephemerides that navconvert writes. Of four files of RINEX 2 it compares the numbers of each record with those
# that navconvert writes in RINEX 3; nine records of GLONASS, with 253 for the frequency -3, are rejected.
#
# Exit status: 0 all correct, or skipped with a reason; 1 something differs; 2 the arguments are wrong, or a program is missing.
set -u
. "$(dirname "$(readlink -f "$0")")/lib.sh"
program='' navlog='' navconvert=''
options '--program: --navlog: --navconvert: ..' "$@"
built program navbridge
built navlog navlog
built navconvert navconvert
command -v python3 > /dev/null || skip "python3 is not installed"
work_folder
names=(rtcm3.2.log GMSD7_20121014.rtcm3 testglo.rtcm3 ublox-zed-f9p-sfrbx.log 07590920.05n 30400920.05n brdc1820.10n brdc0910.09g)
# whether all are in a folder
has_all() {
  local name
  for name in "${names[@]}"; do [ -n "$(find "$1" -name "$name" -size +0 2> /dev/null | head -n 1)" ] || return 1; done
}
if [ "${#arguments[@]}" -gt 0 ]; then
  folder=$(path_of "${arguments[0]}")
  has_all "$folder" || fail "$folder has not all of ${names[*]}"
else
  folder=${XDG_CACHE_HOME:-$HOME/.cache}/navbridge/real
  if ! has_all "$folder"; then
    command -v apt-get > /dev/null || skip "the source packages gpsd and rtklib are not there, and no apt-get"
    [ -n "$(apt-cache showsrc gpsd 2> /dev/null)" ] || skip "the source packages gpsd and rtklib are not there, and apt-get knows no sources"
    (cd "$work" && timeout 240 apt-get -q source --download-only gpsd rtklib > apt.log 2>&1) || skip "apt-get could not fetch the source packages gpsd and rtklib"
    mkdir -p "$folder"
    for name in "${names[@]}"; do
      for it in "$work"/gpsd_*.orig.tar.* "$work"/rtklib_*.orig.tar.*; do
        case $it in *.asc) continue ;; esac
        tar -xOf "$it" --wildcards "*/$name" > "$folder/$name" 2> /dev/null && [ -s "$folder/$name" ] && break
      done
    done
    has_all "$folder" || skip "the source packages gpsd and rtklib have not all of ${names[*]}"
  fi
fi

# A stream: its name, the week for navbridge, a time of its span for convbin, how many ephemerides are in it
stream() {
  local file got=0 count
  file=$(find "$folder" -name "$1" | head -n 1)
  tried=$((tried + 1))
  "$program" --from stream --to rinex3 --week "$2" --date "20240101 000000 UTC" --leap 18 < "$file" > "$work/ours.nav" 2> "$work/report" || got=$?
  count=$(grep -c '^[GE][0-9][0-9] ' "$work/ours.nav")
  [ "$got,$count" = "0,$4" ] || differs "$1: status $got, and $count ephemerides, not $4"
  command -v convbin > /dev/null || return 0
  tried=$((tried + 1))
  rm -f "$work/theirs.nav"
  convbin -r rtcm3 -v 3.04 -tr "$3" 12:0:0 -n "$work/theirs.nav" -od -os "$file" > /dev/null 2>&1
  python3 "$top/examples/beside/log.py" compare "$work/ours.nav" "$work/theirs.nav" > "$work/compared" || differs "$1: no comparison with convbin"
  awk -v count="$4" '
    / ephemerides of navlog/ { both += $(NF - 2) }
    / differs in / && $2 != "transmission" { other = other "; " $0 }
    END { if (both != count) print both " ephemerides in both, not " count; if (other) print substr(other, 3) }' "$work/compared" > "$work/found"
  [ ! -s "$work/found" ] || differs "$1 compared with convbin: $(cat "$work/found")"
}
stream rtcm3.2.log 2005 2016/4/6 41
stream GMSD7_20121014.rtcm3 1710 2012/10/14 15
stream testglo.rtcm3 1500 2009/12/17 15
command -v convbin > /dev/null || echo "convbin is not installed: not compared"

# all systems: 13 of BeiDou more are in messages 63, a draft's number, and one of GLONASS has no day
tried=$((tried + 1)) got=0
all=$(find "$folder" -name rtcm3.2.log | head -n 1)
"$navconvert" -q -f stream --week 2005 -t rinex3 -o - "$all" > "$work/ours.nav" 2> "$work/report" < /dev/null || got=$?
count=$(grep -c '^[A-Z][0-9][0-9] ' "$work/ours.nav")
[ "$got,$count" = "0,74" ] || differs "rtcm3.2.log, all systems: status $got, and $count ephemerides, not 74"
if command -v convbin > /dev/null; then
  tried=$((tried + 1))
  rm -f "$work/theirs.nav"
  convbin -r rtcm3 -v 3.04 -tr 2016/4/6 12:0:0 -n "$work/theirs.nav" -od -os "$all" > /dev/null 2>&1
  python3 - "$work/ours.nav" "$work/theirs.nav" > "$work/found" 2>&1 << 'END' || differs "rtcm3.2.log, all systems, compared with convbin: $(cat "$work/found")"
import sys


def records(path):
    """Of each satellite and epoch its records: their numbers, but for the transmission time, which no message has."""
    found, body = {}, False
    with open(path, encoding="ascii", errors="replace") as file:
        for line in file:
            if not body:
                body = "END OF HEADER" in line
            elif line[0].isalpha():
                numbers = [line[i : i + 19] for i in (23, 42, 61)]
                found.setdefault((line[:3].replace(" ", "0"), line[4:23]), []).append(numbers)
            else:
                numbers.extend(line[i : i + 19] for i in (4, 23, 42, 61))
    for each in found.values():
        for numbers in each:
            numbers[:] = [float(it.strip().replace("D", "E") or 0) for it in numbers[:27]]
    return found


def equal(one, other):
    """Whether they are the same to the 12 digits that convbin writes."""
    return all(abs(a - b) <= 1e-11 * max(abs(a), abs(b)) for a, b in zip(one, other))


ours, theirs = (records(path) for path in sys.argv[1:])
other = [key for key, each in ours.items() for it in each if not any(equal(it, that) for that in theirs.get(key, []))]
sys.exit(f"{len(other)} differ: {other[:3]}" if other else 0)
END
fi

# RINEX 2: a file, the letter of its system, how many records are read and rejected
cat > "$work/older.py" << 'END'
import sys


def records(path, start):
    """The records of a file, each as its satellite and date, and its numbers; those of the first line begin at this column."""
    found, body = [], False
    for line in open(path, encoding="ascii", errors="replace"):
        line = line.rstrip("\r\n")
        if not body:
            body = "END OF HEADER" in line
        elif line[:2].strip():
            date = [int(float(it)) for it in line[start - 19 : start].split()]
            numbers = [line[at : at + 19] for at in (start, start + 19, start + 38)]
            found.append(((int(line[start - 22 : start - 20]), date[0] % 100, *date[1:]), numbers))
        else:
            found[-1][1].extend(line[at : at + 19] for at in range(start - 19, start + 57, 19))
    return [(key, [float(it.replace("D", "E")) if it.strip() else 0.0 for it in each]) for key, each in found]


def equal(older, newer, glonass):
    """Whether the numbers are those of the older file, of which some have seven digits; but for URA, which is a class, and fit."""
    if glonass:
        newer = [*newer[:2], newer[2] % 86400, *newer[3:15]]
    count = 15 if glonass else 28
    return all(at == 23 or abs(a - b) <= 1e-6 * max(abs(a), abs(b)) for at, (a, b) in enumerate(zip(older[:count], newer)))


older, newer, glonass, read = records(sys.argv[1], 22), records(sys.argv[2], 23), sys.argv[3] == "R", int(sys.argv[4])
got = [key for key, each in newer if any(key == it and equal(that, each, glonass) for it, that in older)]
sys.exit(0 if len(newer) == len(got) == read else f"{len(newer)} records, of which {len(got)} are those of the file, not {read}")
END
older() {
  local file said
  file=$(find "$folder" -name "$1" | head -n 1)
  tried=$((tried + 1))
  "$navconvert" -q --overwrite -t rinex3 -o "$work/newer.nav" --report "$work/report" "$file" < /dev/null || differs "$1: it is not converted"
  said=$(grep -c "^line " "$work/report")
  [ "$said" = "$4" ] || differs "$1: $said records rejected, not $4"
  python3 "$work/older.py" "$file" "$work/newer.nav" "$2" "$3" > "$work/found" 2>&1 || differs "$1: $(cat "$work/found")"
}
older 07590920.05n G 162 0
older 30400920.05n G 164 0
older brdc1820.10n G 421 0
older brdc0910.09g R 903 9

tried=$((tried + 1)) got=0
"$navlog" --from ubx < "$(find "$folder" -name ublox-zed-f9p-sfrbx.log | head -n 1)" > "$work/navcap" 2> "$work/report" || got=$?
written="$(grep -c ' L ' "$work/navcap") subframes, $(($(grep -c ' P ' "$work/navcap") / 2)) pages"
[ "$got,$written" = "0,5 subframes, 27 pages" ] || differs "ublox-zed-f9p-sfrbx.log: status $got, $written, and not 5 subframes, 27 pages"
ended real
