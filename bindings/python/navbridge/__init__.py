"""Broadcast orbits of GPS and Galileo, by libnavbridge: messages, streams, subframes, pages, records, conversions.

Names are those of navbridge.h without ``nb_``. Values are dataclasses of the integers that were broadcast, each checked where it
is set; ``orbit()`` and ``si()`` give floats in SI units. What cannot be given is an :class:`Error`, a ValueError, whose ``status``
is the reason. Calls may run in several threads: none holds the interpreter's lock while it works, and a second call with one
object waits. Only the standard library is needed; ``array`` wants numpy.

Examples, which run as a test in a clone (``python3 bindings/python/tests.py``), where examples/ is. A stream of RTCM 3
becomes lines, and its first ephemeris an orbit in SI units, a record, its frame again, and the page of a word:

>>> from navbridge import *
>>> from pathlib import Path
>>> stream = Path("ephemerides.rtcm3").read_bytes()
>>> convert(["--from=stream", "--to=frames"], stream).output.splitlines()[0]
b'1046 63'
>>> with open("ephemerides.rtcm3", "rb") as file:
...     gal = next(ephemerides(file, week=2295))
>>> type(gal).__name__, gal.w1.iodnav == gal.w4.iodnav, gal.orbit().toe % 60
('Gal', True, 0.0)
>>> frame = message_write(gal)
>>> frame == stream[:69], is_frame(frame), frame_make(frame[3:-3]) == frame
(True, True, True)
>>> message_read(memoryview(frame)[3:-3], week=2295) == gal == frame_read(frame, week_of_unix(1704067200))
True
>>> record = record_write(gal)
>>> record.startswith("> EPH E"), record_read(record) == gal
(True, True)
>>> page = page_write(Word(number=1, w1=gal.w1), gal.satellite)
>>> page_read(page, gal.satellite).w1 == gal.w1
True
>>> words = [Word(number=1, w1=gal.w1), Word(number=2, w2=gal.w2), Word(number=3, w3=gal.w3), Word(number=4, w4=gal.w4)]
>>> words.append(Word(number=5, wn=gal.toe_week - 1024, second=60 * gal.w1.toe, health=gal.health, ion=GalIon()))
>>> joined = words_join(words, gal.satellite, week=2295)
>>> joined.w4 == gal.w4, joined.toe_week == gal.toe_week, joined.sent == 60 * gal.w1.toe
(True, True, True)
>>> import datetime
>>> header_write(datetime.datetime(2024, 1, 1)).splitlines()[0][:20]
'     4.01           '
>>> with open("expected/ephemerides.rnx", "rb") as file:
...     [record_read(it).satellite for it in records(file)]
[1, 1]
>>> row = row_from_message(bytes.fromhex("3fc080af24037ffffe7fffffd1776a03000000000924a3b1035d2ec3200c098019900200" + 28 * "00"), 2295)
>>> row.letter, row.title, row.satellite, [(it.name, it.integer, it.two) for it in row.columns()][3]
('R', 'FDMA', 2, ('x', 67108862, -11))
>>> row_rinex(row).splitlines()[0], row_from_message(row_message(row)[3:-3], 2295) == row
('> EPH R02 FDMA', True)
>>> with Pages() as parts:
...     parts.take(page[15:], 1001, gal.satellite), parts.take(page[:15], 1000, gal.satellite)[0].page == page
([], True)
>>> deframer = Deframer()
>>> [len(it) for it in deframer.feed(stream[:100])], [len(it) for it in deframer.feed(stream[100:])], deframer.finish()
([69], [67], [])
>>> words = ["--from=stream", "--to=rinex", "--week=2295", "--date=20240101 000000 UTC", "--leap=18"]
>>> with Push(words) as push:
...     first, second, last = push.push(stream[:100]), push.push(stream[100:]), push.finish()
...     report = push.report()
>>> first + second + last == convert(words, stream).output, second.startswith(b"> EPH"), report.splitlines()[0]
(True, True, b'frames 2')
>>> message_read(b"", week=2295)
Traceback (most recent call last):
    ...
navbridge.Error: the payload has fewer than two bytes, and so no message number
>>> gal.satellite = 37
Traceback (most recent call last):
    ...
ValueError: Gal.satellite: 37 is not 1 to 36
"""

from ._calls import (
    E1B, E5B, FRAME_MOST, Column, Conversion, Deframer, Joined, Pages, Push, Row, convert, ephemerides, frame_make, frame_read, frames,
    header_write, is_frame, message_read, message_write, page_read, page_write, record_read, record_write, records, row_from_message,
    row_message, row_rinex, subframe_read, subframe_write, subframes_join, week_of_unix, words_join,
)
from ._library import Error
from ._statuses import Status
from ._values import (
    PI, Gal, GalHealth, GalIon, GalWord1, GalWord2, GalWord3, GalWord4, Gps, GpsClock, GpsIon, GpsOrbitA, GpsOrbitB, GpsSide, Ion,
    Item, Orbit, Subframe, Word, array,
)

Error.__module__ = Status.__module__ = __name__
__version__ = "2.0.0"
__all__ = [
    "Column", "Conversion", "Deframer", "E1B", "E5B", "Error", "FRAME_MOST", "Gal", "GalHealth", "GalIon", "GalWord1", "GalWord2", "GalWord3",
    "GalWord4", "Gps", "GpsClock", "GpsIon", "GpsOrbitA", "GpsOrbitB", "GpsSide", "Ion", "Item", "Joined", "Orbit", "PI", "Pages",
    "Push", "Row", "Status", "Subframe", "Word", "array", "convert", "ephemerides", "frame_make", "frame_read", "frames", "header_write",
    "is_frame", "message_read", "message_write", "page_read", "page_write", "record_read", "record_write", "records", "row_from_message", "row_message", "row_rinex", "subframe_read",
    "subframe_write", "subframes_join", "week_of_unix", "words_join",
]
