#!/usr/bin/env python3
"""Makes an archive like real ones: a directory a day, a file a station, of both versions, by several converters, packed.

  bench/year.py DIRECTORY [--days 365] [--stations 40] [--satellites 20] [--heard 60] [--year 2023] [--seed 1] [--jobs N] [--faults N] [--joined]

Each day has 400 distinct random ephemerides: 20 GPS satellites each two hours, 20 Galileo satellites each three. A station receives about
three in five of them (--heard, percent), each at its own time, and writes in the style of one of five programs: version 4.01 as navbridge,
4.00 with no digit before the point and CR LF, 3.04 with the letter e, 3.05 with I/NAV and F/NAV records, 3.03 with fit interval 0 in any
case. Records of GLONASS and BeiDou are between them, for a satellite and time the same in all files but for BeiDou's transmission time. Of
twenty files one is packed by compress (if installed), one is plain, the others by gzip. With --faults N each N-th file is truncated, empty,
of version 1, or no navigation file. With --joined the files of a day and program are one file: five a day, each as large as one of a busy day.

It prints what it made: files, bytes packed and unpacked, records, distinct ephemerides of GPS and Galileo, and those that differ only in the
fit interval.
It needs Python's own library only; equal arguments make equal bytes.
"""
import argparse
import datetime
import functools
import os
import random
import shutil
import subprocess
import sys
import zlib

PI = 3.1415926535898
GPS_ZERO = datetime.datetime(1980, 1, 6)
STYLES = ("4.01", "4.00", "3.04", "3.05", "3.03")


def signed(draw, bits, scale):
    return (draw.getrandbits(bits) - (1 << bits - 1)) * scale


def orbit(draw, toe):
    """The lines of numbers that both systems have in common: three of four numbers, and the start of the fourth."""
    small = lambda: signed(draw, 16, 2.0 ** -29)
    angle = lambda: signed(draw, 32, 2.0 ** -31 * PI)
    crs, delta_n, m0 = signed(draw, 16, 2.0 ** -5), signed(draw, 16, 2.0 ** -43 * PI), angle()
    return crs, delta_n, m0, [[small(), draw.getrandbits(27) * 2.0 ** -33, small(), (2_700_000_000 + draw.getrandbits(24)) * 2.0 ** -19],
                              [toe, small(), angle(), small()],
                              [angle(), signed(draw, 16, 2.0 ** -5), angle(), signed(draw, 24, 2.0 ** -43 * PI)]]


def gps(draw, sat, moment):
    week, toe = divmod(moment, 604800)
    crs, delta_n, m0, lines = orbit(draw, toe)
    iodc, fit = draw.getrandbits(10), draw.random() < 0.05
    clock = [signed(draw, 22, 2.0 ** -31), signed(draw, 16, 2.0 ** -43), signed(draw, 8, 2.0 ** -55)]
    return {"sat": f"G{sat:02}", "moment": moment, "week": week, "fit": fit, "clock": clock,
            "lines": [[iodc & 255, crs, delta_n, m0], *lines, [signed(draw, 14, 2.0 ** -43 * PI), 1, week, 0],
                      [draw.choice((2.0, 2.8, 4.0)), 0, signed(draw, 8, 2.0 ** -31), iodc]]}


def galileo(draw, sat, moment):
    week, toe = divmod(moment, 604800)
    crs, delta_n, m0, lines = orbit(draw, toe)
    clock = [signed(draw, 31, 2.0 ** -34), signed(draw, 21, 2.0 ** -46), signed(draw, 6, 2.0 ** -59)]
    return {"sat": f"E{sat:02}", "moment": moment, "week": week, "fit": None, "clock": clock,
            "lines": [[draw.getrandbits(10), crs, delta_n, m0], *lines, [signed(draw, 14, 2.0 ** -43 * PI), 517, week],
                      [3.12, 0, signed(draw, 10, 2.0 ** -32), signed(draw, 10, 2.0 ** -32)]]}


def number(value, style):
    """A number as a converter writes it, 19 columns."""
    if style == "4.00":  # no digit before the point
        text = f"{value:.11E}"
        mantissa, power = text.split("E")
        sign, digits = ("-", mantissa[1:]) if mantissa[0] == "-" else (" ", mantissa)
        digits = digits.replace(".", "")
        return f" {sign}.{digits}D{int(power) + (value != 0):+03d}"
    text = f"{value: .12E}"
    return text.replace("E", "e" if style == "3.04" else "D")


def record(eph, style, source):
    """The text of a record up to its time of sending, and what follows that."""
    end = "\r\n" if style == "4.00" else "\n"
    date = GPS_ZERO + datetime.timedelta(seconds=eph["moment"])
    system = eph["sat"][0]
    text = ""
    if style[0] == "4":
        text = f"> EPH {eph['sat']} {'LNAV' if system == 'G' else 'INAV' if source == 517 else 'FNAV'}{end}"
    text += f"{eph['sat']} {date:%Y %m %d %H %M %S}" + "".join(number(it, style) for it in eph["clock"]) + end
    for at, line in enumerate(eph["lines"]):
        if at == 4 and system == "E":
            line = [line[0], source, line[2]]
        text += "    " + "".join(number(it, style) for it in line) + end
    if system == "E":
        return text + "    ", end
    hours = 0 if style == "3.03" else 6 if eph["fit"] else 4
    return text + "    ", number(hours, style) + end


@functools.lru_cache(2000)
def other_numbers(seed, system, number_of, moment):
    """The lines of numbers of an ephemeris of GLONASS or BeiDou; the transmission time of BeiDou is 0."""
    draw = random.Random(f"{seed} {system}{number_of} {moment}")
    week, toe = divmod(moment, 604800)
    if system == "R":
        axis = lambda more: [signed(draw, 26, 2.0 ** -11), signed(draw, 23, 2.0 ** -20), draw.randint(-15, 15) * 2.0 ** -30, more]
        clock = [signed(draw, 21, 2.0 ** -30), draw.randint(-1023, 1023) * 2.0 ** -40, toe]
        return [clock, axis(draw.choice((0, 0, 0, 1))), axis(draw.randint(-7, 6)), axis(draw.randint(0, 2))]
    crs, delta_n, m0, lines = orbit(draw, toe)
    clock = [signed(draw, 24, 2.0 ** -33), signed(draw, 22, 2.0 ** -50), signed(draw, 11, 2.0 ** -66)]
    return [clock, [draw.randint(0, 31), crs, delta_n, m0], *lines, [signed(draw, 14, 2.0 ** -43 * PI), 0, week - 1356, 0],
            [2.0, draw.randint(0, 1), draw.randint(-512, 511) * 1e-10, draw.randint(-512, 511) * 1e-10], [0, draw.randint(0, 31)]]


def other(draw, seed, system, moment, style):
    """A record of GLONASS or BeiDou."""
    end = "\r\n" if style == "4.00" else "\n"
    date = GPS_ZERO + datetime.timedelta(seconds=moment)
    number_of = draw.randint(1, 24)
    drawn = [draw.getrandbits(24) for _ in range(15 if system == "R" else 31)]
    lines = other_numbers(seed, system, number_of, moment)
    if system == "C":
        lines = [*lines[:-1], [moment % 604800 - 7200 + 30 * (drawn[0] % 200), lines[-1][1]]]
    sat = f"{system}{number_of:02}"
    text = f"> EPH {sat} {'FDMA' if system == 'R' else 'D2' if number_of < 6 else 'D1'}{end}" if style[0] == "4" else ""
    text += f"{sat} {date:%Y %m %d %H %M %S}"
    return text + f"{end}    ".join("".join(number(it, style) for it in line) for line in lines) + end


def head(style, station):
    """A header; that of version 3 has ionosphere lines, which begin with letters."""
    end = "\r\n" if style == "4.00" else "\n"
    program = {"4.01": "navbridge", "4.00": "RTKCONV-EX 2.5.0", "3.04": "Converto v3.5.6", "3.05": "GR50 V4.51", "3.03": "EPHTOOL 1"}[style]
    lines = [f"{style:>9}           N: GNSS NAV DATA    M: MIXED            RINEX VERSION / TYPE",
             f"{program:20}{station:20}20230101 000000 UTC PGM / RUN BY / DATE"]
    if style[0] == "3":
        lines += ["GPSA   1.0245D-08  2.2352D-08 -5.9605D-08 -1.1921D-07       IONOSPHERIC CORR", "GAL    5.4250D+01  1.0938D-01  6.5002D-03  0.0000D+00       IONOSPHERIC CORR"]
    return end.join([*lines, f"{18:6}{'':54}LEAP SECONDS", f"{'':60}END OF HEADER", ""])


def packed(data, how):
    if how == "Z":
        return subprocess.run(["compress", "-c"], input=data, stdout=subprocess.PIPE, check=False).stdout
    if how == "gz":
        pack = zlib.compressobj(6, zlib.DEFLATED, 31)
        return pack.compress(data) + pack.flush()
    return data


def write(args, name, out, turn, style, has_compress, counts):
    """Writes a file, packed in one way or another, and counts it."""
    data = "".join(out).encode("ascii")
    how = "Z" if turn % 20 == 7 and has_compress else "" if turn % 20 == 13 else "gz"
    stored = packed(data, how)
    if args.faults and turn % args.faults == 0:
        fault = turn // args.faults % 4
        stored = (stored[:len(stored) // 2], b"", packed(data.replace(style.rjust(9).encode(), b"     1.00", 1), how), b"no navigation file\n")[fault]
    with open(f"{name}{'.' if how else ''}{how}", "wb") as file:
        file.write(stored)
    for place, more in enumerate((1, len(stored), len(data))):
        counts[place] += more


def make_day(args, day, has_compress):
    """The files of a day; gives how many files, bytes packed, bytes, records, distinct ephemerides, and those by the fit interval alone."""
    draw = random.Random(f"{args.seed} {day}")
    date = datetime.date(args.year, 1, 1) + datetime.timedelta(days=day)
    start = (date - GPS_ZERO.date()).days * 86400
    sky = [gps(draw, sat, start + 7200 * step) for step in range(12) for sat in range(1, args.satellites + 1)]
    sky += [galileo(draw, sat, start + 10800 * step) for step in range(8) for sat in range(1, args.satellites + 1)]
    sky.sort(key=lambda eph: eph["moment"])
    folder = os.path.join(args.folder, f"{date:%Y}", f"{date:%j}")
    os.makedirs(folder, exist_ok=True)
    texts = {(style, source): [record(eph, style, source) for eph in sky] for style in STYLES for source in ((517, 258) if style == "3.05" else (517,))}
    counts = [0, 0, 0, 0, 0, 0]
    heard_ever, joined = set(), {style: [] for style in STYLES}
    for number_of in range(args.stations):
        station = f"S{number_of:03}00XXX"
        style = STYLES[(number_of + day) % len(STYLES)]
        out = [head(style, station)]
        records = 0
        for at, eph in enumerate(sky):
            if draw.random() < 0.25:
                out.append(other(draw, args.seed, draw.choice("RC"), eph["moment"], style))
                records += 1
            if draw.random() >= args.heard / 100:
                continue
            sent = number(eph["moment"] % 604800 - 7200 + 30 * draw.randint(0, 200), style)
            text, rest = texts[style, 517][at]
            out.append(text + sent + rest)
            records += 1
            heard_ever.add((at, bool(eph["fit"]) and style != "3.03"))
            if style == "3.05" and eph["sat"][0] == "E":
                text, rest = texts[style, 258][at]
                out.append(text + sent + rest)
                records += 1
        turn = day * args.stations + number_of + 1
        if args.joined:
            joined[style] += out if not joined[style] else out[1:]
            counts[3] += records
        else:
            write(args, os.path.join(folder, f"{station}_R_{date:%Y%j}0000_01D_MN.rnx"), out, turn, style, has_compress, counts)
            counts[3] += records
    for at, (style, out) in enumerate(joined.items()):
        if out:
            write(args, os.path.join(folder, f"ALL{at}00XXX_R_{date:%Y%j}0000_01D_MN.rnx"), out, day * len(STYLES) + at + 1, style, False, counts)
    counts[4] = len({at for at, _ in heard_ever})
    counts[5] = len(heard_ever) - counts[4]
    return counts


def main():
    parser = argparse.ArgumentParser(formatter_class=argparse.RawDescriptionHelpFormatter, description=__doc__)
    parser.add_argument("folder")
    for name, value in (("days", 365), ("stations", 40), ("satellites", 20), ("heard", 60), ("year", 2023), ("seed", 1), ("jobs", len(os.sched_getaffinity(0))), ("faults", 0)):
        parser.add_argument(f"--{name}", type=int, default=value)
    parser.add_argument("--joined", action="store_true")
    args = parser.parse_args()
    has_compress = shutil.which("compress") is not None
    readers = []
    for job in range(args.jobs):
        reader, writer = os.pipe()
        if os.fork() == 0:
            total = [0] * 6
            for day in range(job, args.days, args.jobs):
                total = [a + b for a, b in zip(total, make_day(args, day, has_compress))]
            os.write(writer, " ".join(map(str, total)).encode())
            os._exit(0)
        os.close(writer)
        readers.append(reader)
    totals = [os.read(reader, 1000).split() for reader in readers]
    if any(os.wait()[1] for _ in readers):
        sys.exit("year.py: a part was not made")
    for what, counts in zip(("files", "bytes packed", "bytes", "records", "distinct", "by the fit interval alone"), zip(*totals)):
        print(f"{what:28}{sum(map(int, counts)):14}")


main()
