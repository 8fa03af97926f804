#!/usr/bin/env python3
"""Makes random navigation files of all systems and versions, and compares what navconvert writes with texts made here.

  checks/systems.py [--program FILE] [--records N] [--files N] [--archive N] [--seed N] [--convbin FILE]

  --program FILE  navconvert (NAVCONVERT, or crates/navconvert/out/navconvert)
  --records N     records of each kind in each file (20)
  --files N       files that are merged too (0: none)
  --archive N     instead of all else: a directory of so many files, merged by examples/merge_archive.py
  --seed N        of the random numbers (1)
  --convbin FILE  RTKLIB's convbin (the one of the path)

Each column has a random integer of the full range of its broadcast field, written in the styles of several writers. A file is converted to
RINEX 4 and RINEX 3; each result is converted again, to both. Numbers are exact fractions, rounded here. Where convbin is installed, the
RINEX 3 file goes through it too: it gives the same numbers, but for the columns that it does not keep. Files that share records, some sent
at other times and some with another number, are merged in two orders. Those of an archive are of RINEX 2, 3 and 4, packed or not, some of
two headers, with records that are carried, rejected and skipped; they are merged in several orders and sizes of batches.

Exit status: 0 all correct; 1 something differs; 2 wrong arguments, or the program is missing.
"""
import argparse
import collections
import copy
import datetime
import gzip
import os
import random
import shutil
import subprocess
import sys
import tempfile
from fractions import Fraction

TOP = os.path.dirname(os.path.dirname(os.path.realpath(__file__)))
PI = Fraction(31415926535898, 10**13)
WEEK = 604800
VERSIONS = ("3.02", "3.03", "3.04", "3.05", "4.00", "4.01", "4.02")
UNKNOWN = " 9.999999999990D+08"
# Columns of a record, line by line (RINEX 4.01, navigation records; RTCM 10403.3, 3.5, for width and unit): the width of the field with
# s (signed) or u, or its range; then the unit: `^-31` is 2^-31, `e-10` is 10^-10, `pi` is for semicircles. A rule instead of the
# range: `=5` is always written 5 and not read; `z` may be blank for 0; `l` is blank for the least; `?` may be not known.
KEPLER = """s22 ^-31, s16 ^-43, s8 ^-55
u8, s16 ^-5, s16 pi^-43, s32 pi^-31
s16 ^-29, u32 ^-33, s16 ^-29, u32 ^-19
toe, s16 ^-29, s32 pi^-31, s16 ^-29
s32 pi^-31, s16 ^-5, s32 pi^-31, s24 pi^-43
"""
GALILEO = KEPLER.replace("s22 ^-31, s16 ^-43, s8 ^-55\nu8", "s31 ^-34, s21 ^-46, s6 ^-59\nu10")
KINDS = {
    "G LNAV": KEPLER + "s14 pi^-43, u2z, week, u1z\nura, u6, s8 ^-31, u10\nsent, fit",
    "E INAV": GALILEO + "s14 pi^-43, =517, week\nsisa, &455, s10 ^-32, s10 ^-32\nsent",
    "E FNAV": GALILEO + "s14 pi^-43, =258, week\nsisa, u9, s10 ^-32, =0\nsent",
    "R FDMA": """-2097151..2097151 -1^-30, -1023..1023 ^-40, frame
-67108863..67108863 ^-11, -8388607..8388607 ^-20, -15..15 ^-30, u3
-67108863..67108863 ^-11, -8388607..8388607 ^-20, -15..15 ^-30, -7..13
-67108863..67108863 ^-11, -8388607..8388607 ^-20, -15..15 ^-30, u5
u9?, -15..15? ^-30, u4?, u3?""",
    "C D1": """s24 ^-33, s22 ^-50, s11 ^-66
u5, s18 ^-6, s16 pi^-43, s32 pi^-31
s18 ^-31, u32 ^-33, s18 ^-31, u32 ^-19
toe, s18 ^-31, s32 pi^-31, s18 ^-31
s32 pi^-31, s18 ^-6, s32 pi^-31, s24 pi^-43
s14 pi^-43, =0, week, =0
ura, u1, s10 e-10, s10 e-10
sent, u5""",
    "J LNAV": KEPLER + "s14 pi^-43, u2z, week, =1\nura, u6, s8l ^-31, u10\nsent, u1z",
    "I LNAV": """s22 ^-31, s16 ^-43, s8 ^-55
u8, s15 ^-4, s22 pi^-41, s32 pi^-31
s15 ^-28, u32 ^-33, s15 ^-28, u32 ^-19
toe, s15 ^-28, s32 pi^-31, s15 ^-28
s32 pi^-31, s15 ^-4, s32 pi^-31, s22 pi^-41
s14 pi^-43, =0, week, =0
ura, u2, s8 ^-31, =0
sent""",
    "S SBAS": """s12 ^-31, s8 ^-40, -302400..907199
s30 8e-5, s17 625e-9, s10 125e-10, u6
s30 8e-5, s17 625e-9, s10 125e-10, ura
s25 4e-4, s18 4e-6, s10 625e-10, u8""",
}
KINDS["C D2"] = KINDS["C D1"]
OLDER = {"G": "N: GPS NAV DATA", "R": "G: GLONASS NAV DATA", "S": "H: GEO NAV MSG DATA"}
SATELLITES = {"G": range(1, 33), "E": range(1, 37), "R": range(1, 28), "C": range(1, 64), "J": range(1, 11), "I": range(1, 15), "S": range(20, 59)}
STEPS = {"R": 900, "E": 60, "C": 8}
GEOSTATIONARY = (*range(1, 6), *range(59, 64))
URA = (2, 2.8, 4, 5.7, 8, 11.3, 16, 32, 64, 128, 256, 512, 1024, 2048, 4096, 8192)
# columns that convbin 2.4.3 does not keep, by system: a line of the record and a column of it, from 1
NOT_KEPT = {"R": {(1, 3)}, "J": {(7, 3), (8, 1), (8, 2)}, "S": {(1, 3), (4, 4)}, "E": {(7, 1), (8, 1)}, "G": {(8, 1)}, "C": {(8, 1)}, "I": {(8, 1)}}


def text(value):
    """A number of 19 columns: 13 digits, rounded to the nearest, halves to even."""
    if value == 0:
        return " 0.000000000000D+00"
    size, exponent = abs(value), 0
    while size >= Fraction(10) ** (exponent + 1):
        exponent += 1
    while size < Fraction(10) ** exponent:
        exponent -= 1
    digits = round(size * Fraction(10) ** (12 - exponent))
    if digits == 10**13:
        digits, exponent = 10**12, exponent + 1
    return f"{'-' if value < 0 else ' '}{str(digits)[0]}.{str(digits)[1:]}D{exponent:+03d}"


def spelled(draw, number):
    """The same number as other programs write it."""
    style = draw.randrange(5)
    if style == 0:
        return number.replace("D", "E")
    if style == 1:
        return number.replace("D", "e")
    if style == 2 and number[1].isdigit() and int(number[1:15].replace(".", "")):
        exponent = int(number[16:]) + 1
        return f"{number[0]}.{number[1]}{number[3:15]}D{exponent:+03d}"
    return number


def sisa_of(index):
    """Metres of an index of Galileo's accuracy (OS SIS ICD, 5.1.12)."""
    if index == 255:
        return Fraction(-1)
    for first, base, step in ((100, 200, 16), (75, 100, 4), (50, 50, 2), (0, 0, 1)):
        if index >= first:
            return Fraction(base + step * (index - first), 100)


def sent_texts(draw, value):
    """A transmission time, as it is read and as it is written; None is not known."""
    if value is None:
        return draw.choice((" " * 19, " 9.999000000000D+08")), " 9.999000000000D+08"
    return (text(Fraction(value)),) * 2


class Record:
    """A random record: its kind, satellite, epoch, and for each column what is read and what is written."""

    def __init__(self, draw, kind):
        self.draw, self.kind, self.system = draw, kind, kind[0]
        satellites = SATELLITES[self.system]
        if kind == "C D2":
            satellites = GEOSTATIONARY
        elif kind == "C D1":
            satellites = [it for it in satellites if it not in GEOSTATIONARY]
        self.satellite = draw.choice(satellites)
        step = STEPS.get(self.system, 16)
        weeks = 1356 if self.system == "C" else 0
        week = draw.randrange(1400, 2600)
        toe = draw.randrange(WEEK // step) * step
        moment = week * WEEK + toe
        epoch = moment + draw.randrange(-WEEK // 2 // step + 1, WEEK // 2 // step + 1) * step
        self.epoch = datetime.datetime(1980, 1, 6) + datetime.timedelta(seconds=epoch)
        self.lines, self.sent = [], None
        known = draw.randrange(4) > 0
        for line in KINDS[kind].split("\n"):
            row = []
            for column in line.split(", "):
                rule, _, unit = column.partition(" ")
                # within half a day of the epoch, since RINEX 2 has the second of the day
                frame = (epoch + draw.randrange(-43199, 43201)) % WEEK
                row.append(self.column(rule, unit, known, {"toe": toe, "week": week - weeks, "frame": frame}))
            self.lines.append(row)
        self.known = known
        # the moment by which files are ordered, in the scale of the kind
        self.moment = epoch if self.system in "RS" else moment

    def column(self, rule, unit, known, given):
        """What is read and what is written of a column."""
        draw = self.draw
        if rule in given:
            return (text(Fraction(given[rule])),) * 2
        if rule == "sent":
            value = draw.choice((draw.randrange(-302400, 907200), None))
            self.sent = value
            return sent_texts(draw, value)
        if rule == "fit":
            value = draw.choice((0, 4, 6, 8))
            return text(Fraction(value)), text(Fraction(4 if value in (0, 4) else 6))
        if rule == "ura":
            return (text(Fraction(str(draw.choice(URA)))),) * 2
        if rule == "sisa":
            return (text(sisa_of(draw.choice((*range(126), 255)))),) * 2
        if rule[0] == "=":
            value = Fraction(int(rule[1:]))
            return text(value if self.kind[0] == "E" else draw.choice((value, Fraction(7)))), text(value)
        if rule[0] == "&":
            value = draw.getrandbits(9)
            return text(Fraction(value)), text(Fraction(value & int(rule[1:])))
        if not known and rule[-1] == "?":
            return draw.choice((" " * 19, ".999999999999E+09".rjust(19), UNKNOWN)), UNKNOWN
        scale = Fraction(1)
        if unit.startswith("pi"):
            scale, unit = PI, unit[2:]
        if "^" in unit:
            factor, _, power = unit.partition("^")
            scale *= Fraction(int(factor or 1)) * Fraction(2) ** int(power)
        elif "e" in unit:
            factor, _, power = unit.partition("e")
            scale *= Fraction(int(factor or 1)) * Fraction(10) ** int(power)
        width = rule.rstrip("zl?")
        if ".." in width:
            low, high = (int(it) for it in width.split(".."))
        elif width[0] == "s":
            low, high = -(1 << int(width[1:]) - 1), (1 << int(width[1:]) - 1) - 1
        else:
            low, high = 0, (1 << int(width[1:])) - 1
        value = draw.choice((low, high, 0, *(draw.randint(low, high) for _ in range(9))))
        written = text(value * scale)
        if rule[-1] == "l" and value == low:
            return " " * 19, " " * 19
        if rule[-1] == "z" and value == 0:
            return draw.choice((" " * 19, written)), written
        return written, written

    def sent_again(self):
        """The same ephemeris, sent at another second."""
        other = copy.copy(self)
        other.sent = self.draw.choice((None, self.draw.randrange(-302400, 907200)))
        other.lines = [*self.lines[:-1], [sent_texts(self.draw, other.sent), *self.lines[-1][1:]]]
        return other

    def changed(self):
        """The same satellite, message and times, with another issue of data."""
        other = copy.copy(self)
        issue = self.draw.choice([it for it in range(32) if text(Fraction(it)) != self.lines[1][0][1]])
        other.lines = [self.lines[0], [(text(Fraction(issue)),) * 2, *self.lines[1][1:]], *self.lines[2:]]
        return other

    def rank(self):
        """Its place in a merged file."""
        numbers = [Fraction(it[1].replace("D", "E").strip() or "-1") for row in self.lines[1:] for it in row]
        return self.moment, "GERCJIS".index(self.system), self.satellite, list(KINDS).index(self.kind), numbers

    def alike(self):
        """What is equal of two records of which one is written."""
        return self.of("4.01", 1) if self.system in "RS" else self.of("4.01", 1).rpartition("\n    ")[0] + self.of("4.01", 1).rpartition("\n    ")[2][19:]

    def of(self, version, which):
        """Its text in a version: as it is read (0) or as it is written (1)."""
        date = self.epoch.strftime("%Y %m %d %H %M %S")
        if which == 0 and self.draw.randrange(3) == 0:
            date = " ".join(it.lstrip("0").rjust(len(it)) if it != "00" else " 0" for it in date.split())
        satellite = f"{self.system}{self.satellite:02}"
        out = []
        if version[0] == "4":
            out.append(f"> EPH {satellite} {self.kind[2:]}")
        lines = self.lines
        if which == 0 and self.system == "R" and not self.known and self.draw.randrange(2):
            lines = lines[:-1]
        for at, row in enumerate(lines):
            numbers = "".join(it[which] if which else spelled(self.draw, it[0]) if it[0].strip() else it[0] for it in row)
            out.append((f"{satellite} {date}{numbers}" if at == 0 else f"    {numbers}").rstrip())
        return "\n".join(out) + "\n"


    def older(self):
        """The record, and its text in RINEX 2, which has no fifth line of GLONASS, and of its frame the second of the day."""
        lines = [[it[0] for it in row] for row in self.lines]
        if self.system == "R":
            self.lines[4] = [(UNKNOWN, UNKNOWN)] * 4
            second = Fraction(lines[0][2].replace("D", "E").strip()) % 86400
            lines = [[*lines[0][:2], text(second)], *lines[1:4]]
        at = self.epoch
        out = [f"{self.satellite:2} {at.year % 100:02} {at.month:2} {at.day:2} {at.hour:2} {at.minute:2}{at.second:5.1f}"]
        out += ["   "] * (len(lines) - 1)
        numbers = ["".join(spelled(self.draw, it) if it.strip() else it for it in row) for row in lines]
        return "".join(f"{a}{b}".rstrip() + "\n" for a, b in zip(out, numbers))


def header(version, kind="N: GNSS NAV DATA    M: MIXED"):
    """The shortest header."""
    return (f"{version:>9}           {kind:40}RINEX VERSION / TYPE\n"
            f"{'':60}END OF HEADER\n")


def body(data):
    """What stands behind the header."""
    return data.partition("END OF HEADER")[2].partition("\n")[2]


class Check:
    """The program, and what was tried."""

    def __init__(self, program, folder, options):
        self.program, self.folder, self.tried, self.wrong = program, folder, 0, 0
        self.files, self.archive = options.files, options.archive

    def ended(self):
        """The last line, and the exit status."""
        print(f"systems: {self.tried} tried, {self.wrong} differ")
        return 1 if self.wrong else 0

    def same(self, what, got, wanted):
        """One comparison."""
        self.tried += 1
        if got != wanted:
            self.wrong += 1
            pairs = list(zip(got.split("\n"), wanted.split("\n")))
            at = next((i for i, (a, b) in enumerate(pairs) if a != b), len(pairs))
            print(f"differs: {what}, line {at + 1} of the records")
            for name, it in (("is", got), ("wanted", wanted)):
                print(f"  {name:6} {chr(10).join(it.split(chr(10))[at:at + 1])}")

    def converted(self, what, data, target):
        """What the program writes of these bytes."""
        path = os.path.join(self.folder, "in.rnx")
        with open(path, "w", encoding="ascii") as file:
            file.write(data)
        return self.made(what, target, [path])

    def made(self, what, target, paths):
        """What the program writes of files."""
        out = os.path.join(self.folder, "out.rnx")
        if os.path.exists(out):
            os.remove(out)
        run = subprocess.run([self.program, "-t", target, "--leap", "18", "--date", "20240101 000000 UTC", "-o", out, *paths],
                             capture_output=True, text=True, check=False, stdin=subprocess.DEVNULL)
        if run.returncode or not os.path.exists(out):
            self.wrong += 1
            print(f"differs: {what}: status {run.returncode}: {run.stderr[:300]}")
            return "END OF HEADER\n"
        with open(out, encoding="ascii") as file:
            return file.read()


def numbers_of(data):
    """The records of a RINEX 3 file: satellite and epoch, and the columns of each line."""
    found = {}
    lines = None
    for line in body(data).split("\n"):
        if line[:1].strip():
            lines = found.setdefault(line[:23], [])
            lines.clear()
            lines.append([line[at:at + 19] for at in range(23, 80, 19)])
        elif line and lines is not None:
            lines.append([line[at:at + 19] for at in range(4, 80, 19)])
    return found


def beside(check, convbin, written):
    """The RINEX 3 file through convbin: the numbers of each record that it gives."""
    path, out = os.path.join(check.folder, "written.rnx"), os.path.join(check.folder, "convbin.nav")
    with open(path, "w", encoding="ascii") as file:
        file.write(written)
    subprocess.run([convbin, "-r", "rinex", "-v", "3.05", "-n", out, path], capture_output=True, check=False)
    with open(out, encoding="ascii") as file:
        theirs = numbers_of(file.read())
    ours, equal = numbers_of(written), 0
    for key, lines in theirs.items():
        if key not in ours:
            continue
        equal += 1
        for at, row in enumerate(lines):
            for column, number in enumerate(row):
                if (at + 1, column + 1) in NOT_KEPT.get(key[0], ()) or not number.strip() or at >= len(ours[key]):
                    continue
                mine = ours[key][at][column] if column < len(ours[key][at]) else ""
                values = [Fraction(it.replace("D", "E").strip() or "0") for it in (number, mine)]
                if abs(values[0] - values[1]) * 10**11 > abs(values[1]):
                    check.same(f"convbin, {key}, line {at + 1}, column {column + 1}", number, mine)
    check.tried += 1
    print(f"convbin gives {equal} of {len(ours)} records")
    if equal * 10 < len(ours) * 4:
        check.wrong += 1


def merge(check, draw, count):
    """Files that share records, in two orders, and their merged file once more."""
    records = [Record(draw, kind) for kind in KINDS for _ in range(count)]
    keplerian = [it for it in records if it.system not in "RS"]
    records += [it.sent_again() for it in keplerian] + [it.changed() for it in keplerian if draw.randrange(2)]
    files = []
    for version in draw.choices(VERSIONS, k=check.files):
        path = os.path.join(check.folder, f"part{len(files)}.rnx")
        # RINEX 3 does not have the title
        some = draw.sample(records, len(records) * 2 // 3)
        with open(path, "w", encoding="ascii") as file:
            file.write(header(version) + "".join(it.of(version, 0) for it in some))
        files.append((path, some))
    first = {}
    for it in (it for _, some in files for it in some):
        key = it.alike()
        late = (it.sent is None, it.sent or 0)
        if key not in first or late < first[key][0]:
            first[key] = late, it
    ranked = sorted((it for _, it in first.values()), key=Record.rank)
    for target, version in (("merged", "4.01"), ("merged3", "3.05")):
        wanted = "".join(it.of(version, 1) for it in ranked)
        paths = [it for it, _ in files]
        check.same(f"{target} of {len(paths)} files", body(check.made(target, target, paths)), wanted)
        check.same(f"{target}, files in the other order", body(check.made(target, target, paths[::-1])), wanted)
        check.same(f"{target} once more", body(check.converted(target, header(version) + wanted, target)), wanted)


LOST = ("IONOSPHERIC CORR", "TIME SYSTEM CORR", "ION ALPHA", "ION BETA", "DELTA-UTC: A0,A1,T,W", "CORR TO SYSTEM TIME", "D-UTC A0,A1,T,W,S,U")


def headers(check, draw):
    """The leap seconds on which the headers of files agree, and the header lines that are not converted."""
    for count in (1, 1, 1, 2, 2, 2, 3, 3):
        leaps, lost, paths = set(), 0, []
        for at in range(count):
            lines = draw.choices(LOST, k=draw.randrange(4))
            lost += len(lines)
            lines = [f"{'':60}{it}" for it in lines]
            if draw.randrange(3):
                leap = draw.choice((9, 17))
                leaps.add(leap)
                lines.insert(draw.randrange(len(lines) + 1), f"{leap:6}{'':54}LEAP SECONDS")
            first, last = header(draw.choice(VERSIONS)).splitlines()
            paths.append(os.path.join(check.folder, f"headers{at}.rnx"))
            with open(paths[-1], "w", encoding="ascii") as file:
                file.write("\n".join((first, *lines, last)) + "\n")
        run = subprocess.run([check.program, "-t", "rinex" if count == 1 else "merged", "-o", "-", *paths],
                             capture_output=True, text=True, check=False, stdin=subprocess.DEVNULL)
        leap = leaps.pop() if len(leaps) == 1 else 18
        got = "".join(it for it in run.stdout.splitlines(True) if "LEAP" in it)
        check.same(f"leap seconds of {count} headers", got, f"{leap:6}{'':54}LEAP SECONDS\n")
        said = f"{lost} header line{'s' * (lost != 1)} of ionosphere and time not converted" if lost else "nothing skipped"
        check.same(f"what is said of {count} headers", run.stderr.strip().rpartition("; ")[2].rpartition(", ")[2], said)


CARRIED = ("EPH G CNAV 9", "EPH C CNV1 10", "EPH J CNV2 10", "EPH R L1OC 9", "STO G LNAV 2", "STO E IFNV 2", "EOP J CNVX 3", "ION C D1D2 3", "ION J LNAV 3")


def carried(draw):
    """A record whose lines are carried, and what a table calls it."""
    kind, system, message, count = draw.choice(CARRIED).split()
    satellite = f"{system}{draw.choice(SATELLITES[system]):02}"
    date = datetime.datetime(2006, 1, 1) + datetime.timedelta(seconds=draw.randrange(600_000_000))
    number = lambda: text(Fraction(draw.randrange(-10**13, 10**13), 10**draw.randrange(4, 22)))
    lines = [f"> {kind} {satellite} {message}", f"{satellite if kind == 'EPH' else '   '} {date:%Y %m %d %H %M %S}" + "".join(number() for _ in range(3))]
    lines += ["    " + "".join(number() for _ in range(4)) for _ in range(int(count) - 2)]
    return "\n".join(lines) + "\n", f"{system} {message if kind == 'EPH' else kind}"


def archived(draw, records, further):
    """A file of some of the records: its bytes, the records, those that are carried, and what is rejected and skipped."""
    version = draw.choice(("2.10", "2.11", *VERSIONS, *VERSIONS))
    some, beside, faults = draw.sample(records, draw.randrange(1, 50)), [], collections.Counter()
    kind = "N: GNSS NAV DATA    M: MIXED"
    if version[0] == "2":
        system = draw.choice("GRS")
        kind, some = OLDER[system], [it for it in records if it.system == system and (system != "R" or not it.known)][:draw.randrange(1, 30)]
        texts = [it.older() for it in some]
    else:
        texts = [it.of(version, 0) for it in some]
    if version[0] == "4":
        beside = draw.sample(further, draw.randrange(6))
        texts += [it for it, _ in beside]
    texts += [texts[0].replace(".", "x", 1)] * (draw.randrange(4) == 0)  # whose data sources are as they were
    faults["rejected", some[0].system] += len(texts) - len(some) - len(beside)
    if version[0] != "2" and draw.randrange(4) == 0:
        texts.append("X07 2024 01 01 00 00 00 0.000000000000D+00\n" if version[0] == "3" else "> EPH X07 LONG\n" + "X07\n" * 12)
        faults["skipped", "X" if version[0] == "3" else "other lines"] += 1
    draw.shuffle(texts)
    return header(version, kind) + "".join(texts), some, beside, faults


def archive(check, draw, count):
    """A directory of files: what merge_archive makes of it, in several orders and sizes of batches, and its table."""
    folder = os.path.join(check.folder, "archive")
    os.mkdir(folder)
    records = [Record(draw, kind) for kind in KINDS for _ in range(count)]
    for it in records:
        if it.system == "R" and draw.randrange(2):
            it.known, it.lines[4] = False, [(UNKNOWN, UNKNOWN)] * 4
        it.known = it.known and it.lines[-1] != [(UNKNOWN, UNKNOWN)] * 4
    keplerian = [it for it in records if it.system not in "RS"]
    records += [it.sent_again() for it in keplerian] + [it.changed() for it in keplerian if draw.randrange(2)]
    further = [carried(draw) for _ in range(count * 3)]
    first, written, paths, sums = {}, set(), [], collections.Counter()
    for number in range(check.archive):
        data = ""
        for _ in range(draw.choice((1, 1, 1, 2))):
            more, some, beside, faults = archived(draw, records, further)
            data += more
            sums.update(faults)
            for it in some:
                late = (it.sent is None, it.sent or 0)
                if it.alike() not in first or late < first[it.alike()][0]:
                    first[it.alike()] = late, it
                sums["read", it.system] += 1
            written.update(it for it, _ in beside)
            sums.update(("carried", what) for _, what in beside)
        data = data.replace("\n", draw.choice(("\n", "\n", "\r\n"))).encode("ascii")
        path = os.path.join(folder, f"{number:04}.{draw.choice(('rnx', 'nav', '24n', 'txt'))}")
        with open(path, "wb") as file:
            file.write(gzip.compress(data, 1, mtime=0) if draw.randrange(2) else data)
        paths.append(path)
    wanted = "".join(it.of("4.01", 1) for it in sorted((it for _, it in first.values()), key=Record.rank))
    whole, out = None, os.path.join(check.folder, "archive.rnx")
    for at, size in enumerate((64, 7, 1, 3)):
        what = f"order {at}, batches of {size}"
        ordered = os.path.join(check.folder, f"order{at}")  # files are merged in the order of their names
        os.mkdir(ordered)
        for path, place in zip(paths, draw.sample(range(len(paths)), len(paths))):
            os.link(path, os.path.join(ordered, f"{place:04}"))
        run = subprocess.run([os.path.join(TOP, "examples", "merge_archive.py"), "--program", check.program, "--date", "20240101 000000 UTC", "-o", out, "--again",
                              "--batch", str(size), ordered], capture_output=True, text=True, check=False)
        check.same(f"{what}: status and messages", f"{run.returncode}\n{run.stderr}", "0\n")
        if run.returncode > 1:
            return
        with open(out, encoding="ascii") as file:
            made = file.read()
        texts = [f">{it}" for it in body(made).split(">")[1:]]
        check.same(f"{what}: the records that are read", "".join(it for it in texts if it not in written), wanted)
        check.same(f"{what}: those that are carried, each once", "".join(sorted(it for it in texts if it in written)), "".join(sorted(written)))
        check.same(f"{what}: the bytes", made, whole or made)
        whole = made
        table = run.stdout[run.stdout.index("records "):]
        lines = [(0, "records", sum(sums.values()))]
        for key, order in (("read", "GRECJIS".index), ("carried", str), ("rejected", str), ("skipped", str)):
            some = {it: times for (one, it), times in sums.items() if one == key and times}
            lines.append((1, key, sum(some.values())))
            lines += [(2, it, some[it]) for it in sorted(some, key=order)] if key != "rejected" else [(2, "number", sum(some.values()))]
        lines.append((0, "kept", len(first) + len(written)))
        check.same(f"{what}: the table", table, "".join(f"{'  ' * depth + it:40}{times:12}\n" for depth, it, times in lines))


def main():
    """Tries all versions."""
    parser = argparse.ArgumentParser(description=__doc__.split("\n", maxsplit=1)[0])
    parser.add_argument("--program", default=os.environ.get("NAVCONVERT", os.path.join(TOP, "crates/navconvert/out/navconvert")))
    parser.add_argument("--records", type=int, default=20)
    parser.add_argument("--files", type=int, default=0)
    parser.add_argument("--archive", type=int, default=0)
    parser.add_argument("--seed", type=int, default=1)
    parser.add_argument("--convbin", default=shutil.which("convbin"))
    options = parser.parse_args()
    if not os.access(options.program, os.X_OK):
        print(f"systems: no program {options.program}: `rt ci` at the top leaves it there", file=sys.stderr)
        return 2
    draw = random.Random(options.seed)
    with tempfile.TemporaryDirectory() as folder:
        check = Check(options.program, folder, options)
        if options.archive:
            archive(check, draw, options.records)
            return check.ended()
        for version in VERSIONS:
            records = [Record(draw, kind) for kind in KINDS for _ in range(options.records)]
            draw.shuffle(records)
            data = header(version) + "".join(it.of(version, 0) for it in records)
            four = "".join(it.of("4.01", 1) for it in records)
            three = "".join(it.of("3.05", 1) for it in records)
            for source in (data, header("4.01") + four, header("3.05") + three):
                named = source.split("\n", maxsplit=1)[0].strip()[:4]
                check.same(f"RINEX {named} to 4", body(check.converted(named, source, "rinex")), four)
                check.same(f"RINEX {named} to 3", body(check.converted(named, source, "rinex3")), three)
            if options.convbin:
                beside(check, options.convbin, header("3.05") + three)
        for version in ("2", "2.10", "2.11", "2.12"):
            for system, kind in OLDER.items():
                records = [Record(draw, next(it for it in KINDS if it[0] == system)) for _ in range(options.records)]
                data = header(version, kind) + "".join(it.older() for it in records)
                for target, to in (("rinex", "4.01"), ("rinex3", "3.05")):
                    wanted = "".join(it.of(to, 1) for it in records)
                    check.same(f"RINEX {version} of {system} to {to}", body(check.converted(f"RINEX {version}", data, target)), wanted)
        headers(check, draw)
        if options.files:
            merge(check, draw, options.records)
        return check.ended()


if __name__ == "__main__":
    sys.exit(main())
