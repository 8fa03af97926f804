#!/usr/bin/env python3
"""A log of a u-blox receiver, and the comparison of two RINEX 3 navigation files made of it.

  examples/beside/log.py log > log.ubx
  examples/beside/log.py compare OURS THEIRS

log: two hours of 8 satellites of each system as bench/feeder.py has them. What RTKLIB asks of a log beside that is in it: pages of
E1-B in nine words (it passes over those in eight), and in each page cycle Galileo's word 0 with the time and its word 6.
compare: for each ephemeris of the one file and of the other (satellite, issue of data and toe) its epoch and each of its numbers;
it prints how many ephemerides and numbers are the same, to the 12 digits that convbin writes, and each number that is not.
"""

import importlib.util
import math
import pathlib
import sys

place = pathlib.Path(__file__).resolve().parents[2] / "bench" / "feeder.py"
spec = importlib.util.spec_from_file_location("feeder", place)
feeder = importlib.util.module_from_spec(spec)
spec.loader.exec_module(feeder)


class TimedLog(feeder.Log):
    """The feeder's log, with the words 6 and 0 of Galileo before the words 1 to 5, and nine words for a page of E1-B."""

    def page(self, satellite, second):
        place = second % 30 // 2
        if place < 13:
            return super().page(satellite, second)
        week, time = (feeder.first_week + second // feeder.WEEK - 1024) % 4096, second % feeder.WEEK
        fields = [(0, 6), (2, 2), (0, 88), (week, 12), (time, 20)] if place == 14 else [(6, 6), (0, 99), (time, 20), (0, 3)]
        return feeder.halves(feeder.pack(fields)[0])

    def sfrbx(self, system, satellite, signal, words):
        nine = system == 2 and signal == 1
        return super().sfrbx(system, satellite, signal, words + [0] * nine)


NAMES = (
    "epoch af0 af1 af2 iod crs delta_n m0 cuc e cus sqrt_a toe cic omega0 cis i0 crc omega omega_dot idot code week spare"
    " accuracy health tgd_or_bgd_e1_e5a iodc_or_bgd_e1_e5b transmission fit spare_2"
).split()


def number(text):
    return float(text.replace("D", "E")) if text.strip() else 0.0


def same(ours, theirs):
    """Whether the second is the first, rounded to 12 digits."""
    if isinstance(ours, str) or ours == theirs:
        return ours == theirs
    size = max(abs(ours), abs(theirs))
    return abs(ours - theirs) <= 0.51 * 10.0 ** (math.floor(math.log10(size)) + 1 - 12)


def records(path):
    """The numbers of each record of a RINEX 3 navigation file, by satellite, issue of data and week."""
    lines = iter(pathlib.Path(path).read_text().splitlines())
    for line in lines:
        if line[60:].startswith("END OF HEADER"):
            break
    found = {}
    for line in lines:
        if line[:1] not in "GE":
            continue
        values = [line[4:23]] + [number(line[it : it + 19]) for it in (23, 42, 61)]
        for _ in range(7):
            more = next(lines).ljust(80)
            values += [number(more[it : it + 19]) for it in (4, 23, 42, 61)]
        found[line[:3], values[4], values[12]] = dict(zip(NAMES, values))
    return found


def compare(ours, theirs):
    ours, theirs = records(ours), records(theirs)
    for system in "GE":
        mine = {it for it in ours if it[0][0] == system}
        other = {it for it in theirs if it[0][0] == system}
        both = sorted(mine & other)
        print(f"{system}: {len(mine)} ephemerides of navlog and navbridge, {len(other)} of convbin, {len(both)} in both")
        differ = {}
        for key in both:
            for name, value in ours[key].items():
                if not same(value, theirs[key][name]):
                    differ.setdefault(name, []).append((key[0], value, theirs[key][name]))
        count = len(NAMES) * len(both)
        print(f"{system}: {count - sum(len(it) for it in differ.values())} of {count} numbers are the same")
        for name, cases in differ.items():
            satellite, value, other_value = cases[0]
            print(f"{system}: {name} differs in {len(cases)}, such as {satellite}: {value} and {other_value}")


def main():
    if sys.argv[1:] == ["log"]:
        feed = TimedLog(7, 8)
        for second in range(345_600, 345_600 + 7_200):
            sys.stdout.buffer.write(b"".join(feed.second(second)))
    elif len(sys.argv) == 4 and sys.argv[1] == "compare":
        compare(sys.argv[2], sys.argv[3])
    else:
        print(__doc__, file=sys.stderr)
        sys.exit(2)


main()
