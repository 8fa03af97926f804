#!/usr/bin/env python3
"""Joins receiver logs in pairs and finds orbits that neither log has.

    checks/joined_logs.py [--navlog PROGRAM] [--navbridge PROGRAM] [--logs N] [--seed N]

Makes N logs (40 by default) of known subframes and pages, of UBX and of SBF, each at its own time: plain ones, ones of receivers
that have no time for some seconds after the start, ones whose time messages pause or have no time. All have the same satellites
and issues, but different orbits. Two neighbours are joined in both orders, and converted by navlog and navbridge. Each record must
be one of the first log or of the second. Each log by itself must yield records.

The programs are those that rt run or rt ci leaves, or those of the options. Exit status: 0 all correct; 1 with a line for each
failure.
"""
import argparse
import os
import random
import struct
import subprocess
import sys

HERE = os.path.dirname(os.path.dirname(os.path.abspath(__file__)))


def built(name):
    return os.path.join(HERE, "crates", name, "out", name)


# ---- bits


def bits_of(value, width):
    return [value >> (width - 1 - i) & 1 for i in range(width)]


PARITY = (
    (1, 2, 3, 5, 6, 10, 11, 12, 13, 14, 17, 18, 20, 23),
    (2, 3, 4, 6, 7, 11, 12, 13, 14, 15, 18, 19, 21, 24),
    (1, 3, 4, 5, 7, 8, 12, 13, 14, 15, 16, 19, 20, 22),
    (2, 4, 5, 6, 8, 9, 13, 14, 15, 16, 17, 20, 21, 23),
    (1, 3, 5, 6, 7, 9, 10, 14, 15, 16, 17, 18, 21, 22, 24),
    (3, 5, 6, 8, 9, 10, 11, 13, 15, 19, 22, 23, 24),
)


def word(data, last, whole):
    """A word of 30 bits behind one that ends in these two bits (IS-GPS-200, 20.3.5.2)."""

    def parity(bits):
        return [
            (last[0] if i in (0, 2, 5) else last[1]) ^ (sum(bits[k - 1] for k in row) & 1)
            for i, row in enumerate(PARITY)
        ]

    bits = list(data)
    if whole:
        # words 2 and 10 end in 00: two of their data bits are solved for it
        for tail in range(4):
            bits[22], bits[23] = tail >> 1, tail & 1
            if parity(bits)[4:] == [0, 0]:
                break
    ends = parity(bits)
    return [b ^ last[1] for b in bits] + ends


def subframe(number, tow, fields):
    """The ten words of a subframe: HOW of this count of 6 s, and 24 bits of data in each further word."""
    words, last = [], (0, 0)
    data = [bits_of(0x8B, 8) + [0] * 16, bits_of(tow, 17) + [0, 0] + bits_of(number, 3) + [0, 0]]
    data += [bits_of(x, 24) for x in fields]
    for i, bits in enumerate(data):
        sent = word(bits, last, i in (1, 9))
        words.append(int("".join(map(str, sent)), 2))
        last = (sent[28], sent[29])
    return words


def crc24q(bits):
    crc = 0
    for bit in bits:
        crc ^= bit << 23
        crc <<= 1
        if crc & 0x1000000:
            crc ^= 0x1864CFB
    return crc


def page(content):
    """The two parts of an I/NAV page with this word of 128 bits (Galileo OS SIS ICD, 4.3.2.3)."""
    even = [0, 0] + content[:112]
    odd = [1, 0] + content[112:] + [0] * 64
    odd += bits_of(crc24q(even + odd), 24) + [0] * 8
    return even + [0] * 6, odd + [0] * 6


# ---- what is sent

# of all logs, so that a part with the time of another log could be taken for one of it
ISSUE = 77
SATELLITES = (5, 12)


def gps(rnd, sat, tow, week):
    """Subframes 1 to 3 of one issue, twice, and the seconds behind which each comes."""
    issue, toe = ISSUE, tow // 7200 * 450 % 37800

    def drawn(n):
        return [rnd.getrandbits(24) for _ in range(n)]

    one = [week % 1024 << 14 | 1 << 12] + drawn(3)
    one += [rnd.getrandbits(16) << 8, issue << 16 | toe] + drawn(2)
    two = [issue << 16 | rnd.getrandbits(16)] + drawn(6) + [toe << 8 | rnd.getrandbits(8)]
    three = drawn(7) + [issue << 16 | rnd.getrandbits(14) << 2]
    return [(30 * turn + 6 * (i + 1), ("G", sat, subframe(i + 1, tow // 6 + 5 * turn + i + 1, fields)))
            for turn in (0, 1) for i, fields in enumerate((one, two, three))]


def galileo(rnd, sat, tow, week):
    """Words 1 to 5 of one issue, twice, and the seconds behind which each comes."""
    issue, toe = ISSUE, tow // 600 * 10 % 10080

    def drawn(n):
        return [rnd.getrandbits(1) for _ in range(n)]

    words = [
        bits_of(1, 6) + bits_of(issue, 10) + bits_of(toe, 14) + drawn(96) + [0, 0],
        bits_of(2, 6) + bits_of(issue, 10) + drawn(110) + [0, 0],
        bits_of(3, 6) + bits_of(issue, 10) + drawn(104) + bits_of(107, 8),
        bits_of(4, 6) + bits_of(issue, 10) + bits_of(sat, 6) + drawn(32) + bits_of(toe, 14) + drawn(58) + [0, 0],
    ]
    ionosphere = bits_of(5, 6) + drawn(61) + bits_of(0, 6) + bits_of((week - 1024) % 4096, 12)
    sent = []
    for turn in (0, 1):
        last = ionosphere + bits_of((tow + 30 * turn + 8) % 604800, 20) + [0] * 23
        for i, content in enumerate(words + [last]):
            sent.append((30 * turn + 2 * (i + 1), ("E", sat, page(content))))
    return sent


# ---- messages


def ubx(kind, payload):
    body = bytes(kind) + struct.pack("<H", len(payload)) + payload
    a = b = 0
    for x in body:
        a = (a + x) & 255
        b = (b + a) & 255
    return b"\xb5\x62" + body + bytes((a, b))


def ubx_time(second, valid=7):
    return ubx((1, 0x20), struct.pack("<IihbBI", second % 604800 * 1000, 0, second // 604800, 18, valid, 0))


def number(bits):
    return int("".join(map(str, bits)), 2)


def ubx_part(part):
    kind, sat, content = part
    if kind == "G":
        return ubx((2, 0x13), bytes((0, sat, 0, 0, 10, 1, 2, 0)) + struct.pack("<10I", *content))
    even, odd = (number(x + [0] * 8) for x in content)
    words = [x >> 32 * (3 - i) & 0xFFFFFFFF for x in (even, odd) for i in range(4)]
    return ubx((2, 0x13), bytes((2, sat, 1, 0, 8, 1, 2, 0)) + struct.pack("<8I", *words))


def sbf(kind, body):
    body += b"\0" * (-len(body) % 4)
    rest = struct.pack("<HH", kind, len(body) + 8) + body
    crc = 0
    for x in rest:
        crc ^= x << 8
        for _ in range(8):
            crc = (crc << 1 ^ (0x1021 if crc & 0x8000 else 0)) & 0xFFFF
    return b"$@" + struct.pack("<H", crc) + rest


def sbf_part(part, second):
    kind, sat, content = part
    head = struct.pack("<IH", second % 604800 * 1000, second // 604800)
    if kind == "G":
        return sbf(4017, head + bytes((sat, 1, 0, 0, 0, 0)) + struct.pack("<10I", *content))
    whole = number(content[0][:114] + content[1] + [0] * 22)
    words = [whole >> 32 * (7 - i) & 0xFFFFFFFF for i in range(8)]
    return sbf(4023, head + bytes((70 + sat, 1, 0, 17, 0, 0)) + struct.pack("<8I", *words))


def log(rnd, form):
    """A log of a minute of some satellites, at a time of its own."""
    week = rnd.randrange(2100, 2400)
    begin = 604800 * week + rnd.randrange(600000) // 30 * 30
    parts = {}
    for sat in SATELLITES:
        for at, part in gps(rnd, sat, begin % 604800, week) + galileo(rnd, sat, begin % 604800, week):
            parts.setdefault(begin + at, []).append(part)
    style = rnd.choice(("plain", "starts", "starts", "pauses", "disowns"))
    out = []
    first = rnd.randrange(12)
    for second in range(begin + first, begin + 62):
        since = second - begin - first
        if form == "ubx":
            # a receiver that starts has no time yet
            none = style == "starts" and since < 15 or style == "pauses" and 40 < since < 43
            if not none:
                out.append(ubx_time(second, 4 if style == "disowns" and since == 38 else 7))
            out += [ubx_part(part) for part in parts.get(second, ())]
        else:
            out += [sbf_part(part, second) for part in parts.get(second, ())]
    return out


# ---- the programs


class Programs:
    def __init__(self, navlog, navbridge):
        self.navlog, self.navbridge = navlog, navbridge

    def items(self, form, data):
        """The records that a log gives: none where it has no capture."""
        made = subprocess.run([self.navlog, "--from", form], input=data, capture_output=True, timeout=60)
        if made.returncode:
            raise ValueError("navlog ended with %d" % made.returncode)
        if not made.stdout:
            return set()
        words = ["--from", "capture", "--to", "rinex", "--date", "20261127 000000 UTC", "--leap", "18"]
        run = subprocess.run([self.navbridge] + words, input=made.stdout, capture_output=True, timeout=60)
        if run.returncode:
            raise ValueError("navbridge ended with %d" % run.returncode)
        return items_in(run.stdout.decode())


def items_in(text):
    """The records of a RINEX 4 navigation file without the time of transmission, which a second reception changes."""
    records = []
    for line in text.split("\n"):
        if line.startswith("> "):
            records.append([line])
        elif records and line:
            records[-1].append(line)
    # it begins the last line of an ephemeris, and the second line of an ionosphere
    return {"\n".join([record[0], record[1][23:]] + record[2:] if record[0].startswith("> ION") else record[:-1])
            for record in records}


def main():
    options = argparse.ArgumentParser(description=__doc__.split("\n\n", maxsplit=1)[0])
    options.add_argument("--navlog", default=built("navlog"), metavar="PROGRAM")
    options.add_argument("--navbridge", default=built("navbridge"), metavar="PROGRAM")
    options.add_argument("--logs", type=int, default=40, metavar="N")
    options.add_argument("--seed", type=int, default=1, metavar="N")
    given = options.parse_args()
    for program in (given.navlog, given.navbridge):
        if not os.access(program, os.X_OK):
            print("%s: no such program" % program)
            return 1
    programs = Programs(given.navlog, given.navbridge)
    rnd = random.Random(given.seed)
    bad = listed = tried = 0
    logs = {"ubx": [], "sbf": []}
    for i in range(given.logs):
        form = ("ubx", "ubx", "ubx", "sbf")[i % 4]
        logs[form].append(log(rnd, form))
    for form, made in logs.items():
        alone = []
        for at, parts in enumerate(made):
            held = programs.items(form, b"".join(parts))
            listed += len(held)
            alone.append(held)
            if not held:
                bad += 1
                print("%s log %d: nothing is listed" % (form, at))
        for at in range(len(made) - 1):
            for first, second in ((at, at + 1), (at + 1, at)):
                tried += 1
                cut = rnd.randrange(len(made[first]) // 2, len(made[first]) + 1)
                joined = b"".join(made[first][:cut] + made[second])
                for item in sorted(programs.items(form, joined) - alone[first] - alone[second]):
                    bad += 1
                    print("%s logs %d and %d: neither has\n%s" % (form, first, second, item))
    print("joined logs: %d logs, %d items, %d joined, %d wrong" % (given.logs, listed, tried, bad))
    return 1 if bad else 0


if __name__ == "__main__":
    sys.exit(main())
