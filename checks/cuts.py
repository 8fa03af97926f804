#!/usr/bin/env python3
"""Checks that navconvert recognises the format of logs that are truncated at random places.

Makes 450 logs of UBX, 300 of SBF and 150 of RTCM 3. Each begins somewhere in a longer log and has at least one complete message,
block or frame; some have NMEA sentences between them. It asks navconvert for the command for each (--dry-run), which names the
recognised format. Nothing is converted.
"""
import argparse
import os
import random
import subprocess
import sys
import tempfile

TOP = os.path.dirname(os.path.dirname(os.path.abspath(__file__)))


def ubx_message(kind, number, payload):
    """A UBX message: its checksum is of all bytes from class to payload."""
    body = bytes([kind, number]) + len(payload).to_bytes(2, "little") + payload
    first = second = 0
    for byte in body:
        first = (first + byte) % 256
        second = (second + first) % 256
    return b"\xb5\x62" + body + bytes([first, second])


def remainder(data, width, generator):
    """The remainder of a CRC of this width, most significant bit first, from 0."""
    register = 0
    for byte in data:
        register ^= byte << (width - 8)
        for _ in range(8):
            register <<= 1
            if register >> width:
                register ^= generator
    return register


def sbf_block(number, body):
    """An SBF block: its CRC is of all bytes after it, its length a multiple of 4."""
    body += bytes(-len(body) % 4)
    rest = number.to_bytes(2, "little") + (8 + len(body)).to_bytes(2, "little") + body
    return b"$@" + remainder(rest, 16, 0x11021).to_bytes(2, "little") + rest


def rtcm_frame(payload):
    """A frame of RTCM 3: preamble, length, payload, CRC-24Q of all of it."""
    front = b"\xd3" + len(payload).to_bytes(2, "big") + payload
    return front + remainder(front, 24, 0x1864CFB).to_bytes(3, "big")


def sentence(rng):
    """A sentence of NMEA 0183."""
    text = "GPGGA,%06d.00,4807.038,N,01131.000,E,1,%02d,0.9,545.4,M,46.9,M,," % (rng.randrange(240000), rng.randrange(4, 13))
    total = 0
    for byte in text.encode():
        total ^= byte
    return f"${text}*{total:02X}\r\n".encode()


def units(kind, rng):
    """Messages of one kind, of contents that are random and sizes as receivers send them."""
    for _ in range(rng.randrange(4, 12)):
        size = rng.choice([0, 8, 16, 44, 52, 92, 100, 200, 400])
        payload = rng.randbytes(size)
        if kind == "ubx":
            yield ubx_message(rng.choice([1, 2, 5, 10]), rng.randrange(256), payload)
        elif kind == "sbf":
            yield sbf_block(rng.randrange(4000, 6000), payload)
        else:
            yield rtcm_frame(payload)


def cut_log(kind, rng, examples):
    """A log that begins somewhere before its last unit but one, and ends somewhere behind that."""
    parts = list(examples.get(kind, [])) if rng.random() < 0.3 and kind in examples else list(units(kind, rng))
    is_mixed = rng.random() < 0.3
    begins, log = [], b""
    for part in parts:
        if is_mixed:
            log += sentence(rng)
        begins.append((len(log), len(log) + len(part)))
        log += part
    # the last unit that is certainly whole
    whole = rng.randrange(1, len(begins))
    start = rng.randrange(1, begins[whole][0] + 1)
    end = rng.randrange(begins[whole][1], len(log) + 1)
    return log[start:end]


def split(data, size_of):
    """The units of a log of one kind."""
    found = []
    while data:
        found.append(data[: size_of(data)])
        data = data[size_of(data) :]
    return found


def main():
    """Makes the logs, asks, and says what was not told."""
    parser = argparse.ArgumentParser(description=__doc__, formatter_class=argparse.RawDescriptionHelpFormatter)
    parser.add_argument("--navconvert", default=f"{TOP}/crates/navconvert/out/navconvert", help="the program (that of crates/navconvert/out)")
    parser.add_argument("--seed", type=int, default=20240101, help="of the random places (20240101)")
    parser.add_argument("--check", action="store_true", help="is taken as every check takes it, and changes nothing")
    words = parser.parse_args()
    if not os.access(words.navconvert, os.X_OK):
        print(f"skipped: {words.navconvert} is not built")
        return 0
    rng = random.Random(words.seed)
    with open(f"{TOP}/examples/log.ubx", "rb") as file:
        log = split(file.read(), lambda it: int.from_bytes(it[4:6], "little") + 8)
    with open(f"{TOP}/examples/station.rtcm3", "rb") as file:
        stream = split(file.read(), lambda it: int.from_bytes(it[1:3], "big") % 1024 + 6)
    examples = {"ubx": log, "stream": stream if len(stream) > 1 else stream * 3}
    wrong = all_of = 0
    for kind, count, target in (("ubx", 450, "capture"), ("sbf", 300, "capture"), ("stream", 150, "rinex")):
        with tempfile.TemporaryDirectory() as folder:
            names = [f"cut{number:03}" for number in range(count)]
            for name in names:
                with open(f"{folder}/{name}", "wb") as file:
                    file.write(cut_log(kind, rng, examples))
            done = subprocess.run(
                [words.navconvert, "--dry-run", "--to", target, *names], cwd=folder, stdin=subprocess.DEVNULL, capture_output=True, text=True
            )
            said = done.stdout.splitlines()
            for name in names:
                all_of += 1
                told = (f"--from {kind}", f"--from={kind}'")
                if not any(f"'{name}'" in line and any(it in line for it in told) for line in said):
                    wrong += 1
                    print(f"{kind} {name}: not told")
    print(f"{all_of - wrong} of {all_of} cut logs told")
    return 1 if wrong else 0


if __name__ == "__main__":
    sys.exit(main())
