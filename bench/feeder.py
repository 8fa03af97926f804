#!/usr/bin/env python3
"""Feeds what a caster or a receiver's logger would send, at a multiple of the usual rate.

  bench/feeder.py stream|capture|ubx [--rate N] [--seconds N] [--seed N] [--satellites N] [--window N] [--week N] [--begin N]
                  [--clean] [--free]

stream: RTCM 3 frames, messages 1019 and 1046 of each satellite once in 30 seconds and one 1005 each second.
capture: a line for each subframe (one in six seconds) and for each page part of E1-B and E5b (one a second) of each satellite.
ubx: the same as a u-blox receiver logs it: NAV-TIMEGPS each second, RXM-SFRBX for each subframe and each page of E1-B and E5b.

Ephemerides change as satellites change them: GPS each two hours, Galileo each ten minutes, with new random parameters, toe and
week. It begins at second --begin (345600) of --week (2295); an hour of it crosses the end of the week.

  --rate N        seconds of data in a second of the clock (100)
  --seconds N     of the clock (3600): rate times as many of data
  --seed N        of the random values and errors (7); equal arguments give equal bytes
  --satellites N  of each system, 1 to 32 (32)
  --window N      of the capture's first line (7200)
  --clean         no errors
  --free          does not wait for the clock

Errors, each after about 200 frames or lines: a frame or line is truncated and the feed goes back up to 50 (a lost connection), 1 to
199 bytes of garbage, an inverted bit; of a capture a line left out and, after about 10 blocks, 16 lines in reversed order. Time tags
are unchanged: after one that reads as much later all lines are late, as the format requires.
It writes standard output, and at the end one line on standard error: what it sent, and its delay against the clock.
"""

import random
import sys
import time

WEEK = 604_800
# the week in which stamps begin
first_week = 2295
HELP = {"-h", "--help"}

# ---- bits


def pack(fields):
    """The fields (value, bits) behind one another: a number and how many bits it has."""
    number = bits = 0
    for value, width in fields:
        number = number << width | value & (1 << width) - 1
        bits += width
    return number, bits


def crc_table():
    table = []
    for byte in range(256):
        crc = byte << 16
        for _ in range(8):
            crc <<= 1
            if crc & 0x1000000:
                crc ^= 0x1864CFB
        table.append(crc)
    return table


CRC = crc_table()


def crc24q(data):
    crc = 0
    for byte in data:
        crc = (crc << 8 & 0xFFFFFF) ^ CRC[crc >> 16 ^ byte]
    return crc


def frame(payload):
    head = bytes([0xD3, len(payload) >> 8, len(payload) & 0xFF]) + payload
    return head + crc24q(head).to_bytes(3, "big")


# the source bits of each parity bit D25 to D30 (IS-GPS-200, table 20-XIV), and which of D29*, D30* stands before them
PARITY = [
    (29, (1, 2, 3, 5, 6, 10, 11, 12, 13, 14, 17, 18, 20, 23)),
    (30, (2, 3, 4, 6, 7, 11, 12, 13, 14, 15, 18, 19, 21, 24)),
    (29, (1, 3, 4, 5, 7, 8, 12, 13, 14, 15, 16, 19, 20, 22)),
    (30, (2, 4, 5, 6, 8, 9, 13, 14, 15, 16, 17, 20, 21, 23)),
    (30, (1, 3, 5, 6, 7, 9, 10, 14, 15, 16, 17, 18, 21, 22, 24)),
    (29, (3, 5, 6, 8, 9, 10, 11, 13, 15, 19, 22, 23, 24)),
]
MASKS = [(star, sum(1 << 24 - bit for bit in bits)) for star, bits in PARITY]


def word(source, last, solved=False):
    """A word of 30 bits as it is sent; `last` is the word before. Where it is solved, source bits 23 and 24 make D29 = D30 = 0."""
    d29, d30 = last >> 1 & 1, last & 1
    for end in range(4) if solved else (0,):
        bits = source | end
        parity = 0
        for star, mask in MASKS:
            parity = parity << 1 | (bin(bits & mask).count("1") + (d29 if star == 29 else d30)) & 1
        if not solved or parity & 3 == 0:
            return ((bits ^ 0xFFFFFF if d30 else bits) << 6) | parity
    raise AssertionError("no bits 23 and 24 solve this word")


TLM = word(0b10001011 << 16, 0)


def how(count, number):
    """The second word of a subframe: the count of the next one, and its own number. It ends in 00."""
    return word(count << 7 | number << 2, TLM, solved=True)


def rest(source):
    """The words 3 to 10 of a subframe, whose 24 source bits each stand in one number of 192 bits."""
    text = last = 0
    for place in range(8):
        bits = source >> 24 * (7 - place) & 0xFFFFFF
        last = word(bits & ~3 if place == 7 else bits, last, solved=place == 7)
        text = text << 30 | last
    return text


# ---- orbits


class Gps:
    """The ephemeris of a GPS satellite that is sent in the two hours `turn`."""

    def __init__(self, seed, satellite, turn):
        draw = random.Random(f"{seed} G {satellite} {turn}").getrandbits
        # the moment of toe: the end of these two hours
        moment = (turn + 1) * 7200
        self.toe, self.week = moment % WEEK // 16, (first_week + moment // WEEK) % 1024
        self.iodc = (turn * 3 + satellite) % 1024
        self.iode = self.iodc & 0xFF
        self.satellite = satellite
        widths = dict(ura=4, code=2, idot=14, af2=8, af1=16, af0=22, crs=16, delta_n=16, m0=32, cuc=16, e=32, cus=16, root_a=32)
        widths.update(cic=16, omega0=32, cis=16, i0=32, crc=16, omega=32, omega_dot=24, tgd=8, l2p=1, fit=1)
        for name, width in widths.items():
            setattr(self, name, draw(width))

    def message(self):
        number, bits = pack(
            [(1019, 12), (self.satellite, 6), (self.week, 10), (self.ura, 4), (self.code, 2), (self.idot, 14), (self.iode, 8)]
            + [(self.toe, 16), (self.af2, 8), (self.af1, 16), (self.af0, 22), (self.iodc, 10), (self.crs, 16)]
            + [(self.delta_n, 16), (self.m0, 32), (self.cuc, 16), (self.e, 32), (self.cus, 16), (self.root_a, 32)]
            + [(self.toe, 16), (self.cic, 16), (self.omega0, 32), (self.cis, 16), (self.i0, 32), (self.crc, 16)]
            + [(self.omega, 32), (self.omega_dot, 24), (self.tgd, 8), (0, 6), (self.l2p, 1), (self.fit, 1)]
        )
        return number.to_bytes(bits // 8, "big")

    def subframes(self, week):
        """The words 3 to 10 of the subframes 1, 2 and 3, as they are sent in that week."""
        one, _ = pack(
            [(week % 1024, 10), (self.code, 2), (self.ura, 4), (0, 6), (self.iodc >> 8, 2), (self.l2p, 1), (0, 23 + 24 + 24 + 16)]
            + [(self.tgd, 8), (self.iodc & 0xFF, 8), (self.toe, 16), (self.af2, 8), (self.af1, 16), (self.af0, 22), (0, 2)]
        )
        two, _ = pack(
            [(self.iode, 8), (self.crs, 16), (self.delta_n, 16), (self.m0, 32), (self.cuc, 16), (self.e, 32), (self.cus, 16)]
            + [(self.root_a, 32), (self.toe, 16), (self.fit, 1), (0, 5), (0, 2)]
        )
        three, _ = pack(
            [(self.cic, 16), (self.omega0, 32), (self.cis, 16), (self.i0, 32), (self.crc, 16), (self.omega, 32)]
            + [(self.omega_dot, 24), (self.iode, 8), (self.idot, 14), (0, 2)]
        )
        return [rest(one), rest(two), rest(three)]


class Galileo:
    """The ephemeris of a Galileo satellite that is sent in the ten minutes `turn`, whose beginning is its toe."""

    def __init__(self, seed, satellite, turn):
        draw = random.Random(f"{seed} E {satellite} {turn}").getrandbits
        moment = turn * 600
        self.toe, self.week = moment % WEEK // 60, (first_week + moment // WEEK - 1024) % 4096
        self.iod, self.satellite = turn % 1024, satellite
        widths = dict(idot=14, af2=6, af1=21, af0=31, crs=16, delta_n=16, m0=32, cuc=16, e=32, cus=16, root_a=32, cic=16)
        widths.update(omega0=32, cis=16, i0=32, crc=16, omega=32, omega_dot=24, bgd_a=10, bgd_b=10)
        for name, width in widths.items():
            setattr(self, name, draw(width))

    def message(self):
        number, bits = pack(
            [(1046, 12), (self.satellite, 6), (self.week, 12), (self.iod, 10), (107, 8), (self.idot, 14), (self.toe, 14)]
            + [(self.af2, 6), (self.af1, 21), (self.af0, 31), (self.crs, 16), (self.delta_n, 16), (self.m0, 32)]
            + [(self.cuc, 16), (self.e, 32), (self.cus, 16), (self.root_a, 32), (self.toe, 14), (self.cic, 16)]
            + [(self.omega0, 32), (self.cis, 16), (self.i0, 32), (self.crc, 16), (self.omega, 32), (self.omega_dot, 24)]
            + [(self.bgd_a, 10), (self.bgd_b, 10), (0, 6), (0, 2)]
        )
        return number.to_bytes(bits // 8, "big")

    def words(self):
        """The words 1 to 4, each 128 bits."""
        word_1 = [(1, 6), (self.iod, 10), (self.toe, 14), (self.m0, 32), (self.e, 32), (self.root_a, 32), (0, 2)]
        word_2 = [(2, 6), (self.iod, 10), (self.omega0, 32), (self.i0, 32), (self.omega, 32), (self.idot, 14), (0, 2)]
        word_3 = [(3, 6), (self.iod, 10), (self.omega_dot, 24), (self.delta_n, 16), (self.cuc, 16), (self.cus, 16)]
        word_3 += [(self.crc, 16), (self.crs, 16), (107, 8)]
        word_4 = [(4, 6), (self.iod, 10), (self.satellite, 6), (self.cic, 16), (self.cis, 16), (self.toe, 14), (self.af0, 31)]
        word_4 += [(self.af1, 21), (self.af2, 6), (0, 2)]
        return [pack(it)[0] for it in (word_1, word_2, word_3, word_4)]

    def word_5(self, second, ionosphere):
        week = (first_week + second // WEEK - 1024) % 4096
        fields = [(5, 6), (ionosphere, 41), (self.bgd_a, 10), (self.bgd_b, 10), (0, 6), (week, 12), (second % WEEK, 20), (0, 23)]
        return pack(fields)[0]


def halves(data):
    """The even and the odd half of the page with this word of 128 bits, as 30 digits each."""
    even = data >> 16 << 6
    odd = 1 << 81 | (data & 0xFFFF) << 64
    crc = crc24q(((data >> 16) << 82 | odd).to_bytes(25, "big"))
    return f"{even:030x}", f"{(odd << 24 | crc) << 14:030x}"


# ---- feeds


class Stream:
    """The frames of each second of data."""

    def __init__(self, seed, satellites):
        self.seed, self.satellites, self.now = seed, satellites, {}
        self.distinct = 0
        self.other = frame(pack([(1005, 12), (2003, 12), (0, 128)])[0].to_bytes(19, "big"))

    def sent(self, system, satellite, turn):
        known = self.now.get((system, satellite))
        if known is None or known[0] != turn:
            maker = Gps if system == "G" else Galileo
            known = turn, frame(maker(self.seed, satellite, turn).message())
            self.now[system, satellite] = known
            self.distinct += 1
        return known[1]

    def second(self, second):
        frames = [self.other]
        for place in range(second % 30, 2 * self.satellites, 30):
            if place < self.satellites:
                frames.append(self.sent("G", place + 1, second // 7200))
            else:
                frames.append(self.sent("E", place - self.satellites + 1, second // 600))
        return frames


class Capture:
    """The lines of each second of data. Stamps count from the beginning of the first week."""

    def __init__(self, seed, satellites):
        self.seed, self.satellites, self.gps, self.galileo = seed, satellites, {}, {}
        self.distinct = 0
        self.names = [(f"P E{it + 1:02} B ", f"P E{it + 1:02} 5 ") for it in range(satellites)]
        self.dummy = halves(0)
        self.odd = [self.dummy[1]] * satellites
        self.even = {}
        zeros = 192 - 8
        self.pages = {4: rest((1 << 6 | 57) << zeros), 5: rest((1 << 6 | 1) << zeros)}
        draw = random.Random(f"{seed} ionospheres").getrandbits
        self.ionosphere = draw(41)
        self.page_18 = rest((1 << 6 | 56) << zeros | draw(64) << zeros - 64)

    def gps_line(self, satellite, second):
        turn, week, k = second // 7200, first_week + second // WEEK, second // 6
        known = self.gps.get(satellite)
        if known is None or known[:2] != (turn, week):
            self.distinct += known is None or known[0] != turn
            known = turn, week, Gps(self.seed, satellite, turn).subframes(week)
            self.gps[satellite] = known
        number = k % 5 + 1
        if number < 4:
            words = known[2][number - 1]
        else:
            words = self.page_18 if number == 4 and k // 5 % 25 == 17 else self.pages[number]
        count = (second % WEEK // 6 + 1) % 100_800
        return f"{second} L G{satellite:02} {((TLM << 30 | how(count, number)) << 240 | words) << 4:076x}\n".encode()

    def page(self, satellite, second):
        turn, place = second // 600, second % 30 // 2
        known = self.galileo.get(satellite)
        if known is None or known[0] != turn:
            orbit = Galileo(self.seed, satellite, turn)
            known = turn, orbit, [halves(it) for it in orbit.words()]
            self.galileo[satellite] = known
            self.distinct += 1
        if place < 4:
            return known[2][place]
        return halves(known[1].word_5(second, self.ionosphere)) if place == 4 else self.dummy

    def second(self, second):
        lines = []
        if second % 6 == 0:
            lines = [self.gps_line(it + 1, second) for it in range(self.satellites)]
        for place, (first, other) in enumerate(self.names):
            if second % 2 == 0:
                half, self.odd[place] = self.page(place + 1, second)
            else:
                half = self.odd[place]
            lines += [f"{second} {first}{half}\n".encode(), f"{second} {other}{half}\n".encode()]
        return lines


def ubx(kind, number, payload):
    """A message of UBX with its two sums."""
    body = bytes([kind, number]) + len(payload).to_bytes(2, "little") + payload
    a = b = 0
    for byte in body:
        a = a + byte & 0xFF
        b = b + a & 0xFF
    return b"\xb5\x62" + body + bytes([a, b])


class Log(Capture):
    """The same subframes and pages as messages of UBX. A page is logged with its odd half, both halves in it."""

    def sfrbx(self, system, satellite, signal, words):
        head = bytes([system, satellite, signal, 0, len(words), 0, 2, 0])
        return ubx(0x02, 0x13, head + b"".join(it.to_bytes(4, "little") for it in words))

    def subframe(self, line, satellite):
        """Its ten words, with the inversion by D30* taken back in the 24 data bits, as receivers log them."""
        bits = int(line.split()[3], 16) >> 4
        sent = [bits >> 30 * (9 - place) & (1 << 30) - 1 for place in range(10)]
        words = [it ^ (0x3FFFFFC0 if place and sent[place - 1] & 1 else 0) for place, it in enumerate(sent)]
        return self.sfrbx(0, satellite, 0, words)

    def second(self, second):
        time = (second % WEEK * 1000).to_bytes(4, "little") + bytes(4) + (first_week + second // WEEK).to_bytes(2, "little")
        messages = [ubx(0x01, 0x20, time + bytes([18, 7]) + bytes(4))]
        if second % 6 == 0:
            messages += [self.subframe(self.gps_line(it + 1, second), it + 1) for it in range(len(self.names))]
        for place in range(len(self.names)):
            if second % 2 == 0:
                self.even[place], self.odd[place] = self.page(place + 1, second)
            elif place in self.even:
                bits = int(self.even[place], 16) << 136 | int(self.odd[place], 16) << 8
                words = [bits >> 32 * (7 - it) & 0xFFFFFFFF for it in range(8)]
                messages += [self.sfrbx(2, place + 1, signal, words) for signal in (1, 5)]
        return messages


class Faults:
    """Puts faults between the frames or lines, each after a number of them that is drawn."""

    def __init__(self, seed, is_capture):
        self.random = random.Random(f"{seed} faults")
        self.kinds = ["cut", "garbage", "turned"] + ["left out", "reversed"] * is_capture
        self.is_capture = is_capture
        self.counts = dict.fromkeys(self.kinds, 0)
        self.next = {it: self.gap(it) for it in self.kinds}
        self.last = []

    def gap(self, kind):
        return self.random.randrange(1, 20 if kind == "reversed" else 400)

    def due(self, kind):
        self.next[kind] -= 1
        if self.next[kind] > 0:
            return False
        self.next[kind] = self.gap(kind)
        self.counts[kind] += 1
        return True

    def block(self, pieces):
        """The pieces with faults among them. Of a capture each chunk ends its line, so that they may stand in any order."""
        out = []
        for piece in pieces:
            self.last.append(piece)
            # of a line the first place behind its stamp
            body = piece.index(b" ") + 1 if self.is_capture else 0
            if self.due("cut"):
                place = self.random.randrange(1, len(piece))
                again = self.last[-self.random.randrange(1, 51) :]
                if self.is_capture and (place < body or self.random.random() < 0.5):
                    out.append(piece[:place] + b"\n")
                else:
                    # the next one follows on what was cut
                    again[0] = piece[:place] + again[0]
                out += again
            elif self.due("turned"):
                place = self.random.randrange(body, len(piece) - self.is_capture)
                out.append(piece[:place] + bytes([piece[place] ^ 1 << self.random.randrange(8)]) + piece[place + 1 :])
            elif not (self.is_capture and self.due("left out")):
                out.append(piece)
            if self.due("garbage"):
                out.append(self.random.randbytes(self.random.randrange(1, 200)) + b"\n" * self.is_capture)
        if self.is_capture and self.due("reversed"):
            out[:16] = out[:16][::-1]
        self.last = self.last[-50:]
        return out


def numbers(words):
    """The options: names with numbers, and flags."""
    given = dict(rate=100.0, seconds=3600.0, seed=7, satellites=32, window=7200, week=2295, begin=345_600, clean=False, free=False)
    rest_of = iter(words)
    for name in rest_of:
        key = name[2:]
        if not name.startswith("--") or key not in given:
            sys.exit(f"feeder: {name} is no option")
        if isinstance(given[key], bool):
            given[key] = True
        else:
            try:
                given[key] = type(given[key])(next(rest_of))
            except (StopIteration, ValueError):
                sys.exit(f"feeder: {name} needs a number")
    if not (0 < given["rate"] <= 100_000 and 0 < given["seconds"] and 1 <= given["satellites"] <= 32):
        sys.exit("feeder: --rate and --seconds are above 0, --satellites is 1 to 32")
    return given


def main(words):
    global first_week
    if not words or HELP & set(words):
        print(__doc__.strip())
        return 0 if words else 2
    form, given = words[0], numbers(words[1:])
    makers = {"stream": Stream, "capture": Capture, "ubx": Log}
    if form not in makers:
        sys.exit(f"feeder: {form} is none of stream, capture and ubx")
    rate, begin, is_capture, first_week = given["rate"], given["begin"], form == "capture", given["week"]
    feed = makers[form](given["seed"], given["satellites"])
    faults = None if given["clean"] else Faults(given["seed"], is_capture)
    write = sys.stdout.buffer.write
    if is_capture:
        write(f"NAVCAP 2 {first_week} {given['window']}\n".encode())
    pieces = size = 0
    behind = 0.0
    start = time.monotonic()
    # blocks of at least a twentieth of a second
    step = max(1, round(rate / 20))
    total = round(given["seconds"] * rate)
    try:
        for first in range(0, total, step):
            block = []
            for second in range(first, min(first + step, total)):
                block += feed.second(begin + second)
            pieces += len(block)
            data = b"".join(faults.block(block) if faults else block)
            size += len(data)
            if not given["free"]:
                late = time.monotonic() - start - first / rate
                behind = max(behind, late)
                if late < 0:
                    time.sleep(-late)
            write(data)
            sys.stdout.buffer.flush()
    except BrokenPipeError:
        print("feeder: the reader closed its input", file=sys.stderr)
        return 1
    told = [f"bytes {size}", f"{dict(capture='lines', ubx='messages').get(form, 'frames')} {pieces}", f"ephemerides {feed.distinct}"]
    told += [f"{kind} {count}" for kind, count in (faults.counts if faults else {}).items()]
    told += [f"behind {behind:.2f}", f"took {time.monotonic() - start:.1f}"]
    print(", ".join(told), file=sys.stderr)
    return 0


if __name__ == "__main__":
    try:
        status = main(sys.argv[1:])
        sys.stdout.flush()
    except KeyboardInterrupt:
        status = 130
    sys.exit(status)
