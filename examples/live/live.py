"""A live stream of RTCM 3 on standard input: for each ephemeris, as soon as its frame is complete, a line on standard error and its RINEX
record on standard output. Its argument is a week near that of the stream; without it, that of the clock.

    python3 live.py 2295 < /dev/ttyUSB0 > live.rnx
"""

import datetime
import sys
import time

import navbridge


def rejected(error: navbridge.Error, frame: bytes) -> None:
    print(f"rejected: {error}", file=sys.stderr)


week = int(sys.argv[1]) if len(sys.argv) > 1 else navbridge.week_of_unix(time.time())
print(navbridge.header_write(datetime.datetime.now(datetime.timezone.utc)), end="", flush=True)
for ephemeris in navbridge.ephemerides(sys.stdin.buffer, week, rejected):
    letter, orbit = "G" if isinstance(ephemeris, navbridge.Gps) else "E", ephemeris.orbit()
    print(f"{letter}{ephemeris.satellite:02} toe {orbit.toe:.0f} e {orbit.e:.9f}", file=sys.stderr)
    print(navbridge.record_write(ephemeris), end="", flush=True)
