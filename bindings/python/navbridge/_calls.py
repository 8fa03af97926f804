"""The calls of navbridge.h, over bytes and values."""

from __future__ import annotations

import ctypes
import datetime
import math
import mmap
import threading
from typing import Any, BinaryIO, Callable, Iterator, NamedTuple, Sequence

from ._library import Bytes, Error, done, library, number, view
from ._statuses import Status
from ._values import ITEM_SIZE, PI, SUBFRAMES, WORDS, Gal, Gps, Item, Subframe, Word, _kept, _wanted, item_bytes, item_of

FRAME_MOST = 1029
E1B, E5B = 1, 2


class Conversion(NamedTuple):
    """What a conversion wrote and what it reported."""

    output: bytes
    report: bytes


class Joined(NamedTuple):
    """The page of two parts that belong together, and the stamp of its odd part."""

    page: bytes
    stamp: int


def _words(words: Sequence[str]) -> tuple[Any, int]:
    if isinstance(words, (str, bytes)):
        raise TypeError("words: a list of words is wanted, not one text")
    texts = []
    for it in words:
        if not isinstance(it, str):
            raise TypeError(f"words: str is wanted, not {type(it).__name__}")
        texts.append(it.encode())
    return (Bytes * len(texts))(*[Bytes(it, len(it)) for it in texts]), len(texts)


def convert(words: Sequence[str], data: Any = b"") -> Conversion:
    """Does what the program ``navbridge`` does with these words and this input.

    An :class:`Error` says why it was not done. The output is in memory three times at most, the input once."""
    given, count = _words(words)
    at, size = view(data, "data")
    call = library().nb_convert
    sizes = [max(1 << 20, 4 * size), 1 << 20]
    while True:
        # rooms of the system's: what is not written takes no memory
        rooms = [mmap.mmap(-1, it) for it in sizes]
        lent = [(ctypes.c_char * len(it)).from_buffer(it) for it in rooms]
        used = [ctypes.c_size_t(), ctypes.c_size_t()]
        status = call(given, count, at, size, lent[0], sizes[0], ctypes.byref(used[0]), lent[1], sizes[1], ctypes.byref(used[1]))
        lent.clear()
        wants = [it.value for it in used]
        if status in (Status.OUTPUT_ROOM, Status.REPORT_ROOM):
            sizes = [max(it, want) for it, want in zip(sizes, wants)]
            for room in rooms:
                room.close()
            continue
        done(status)
        return Conversion(*(room[:want] for room, want in zip(rooms, wants)))


def is_frame(data: Any) -> bool:
    """Whether these bytes are one whole frame of RTCM 3 with a right checksum, and nothing else."""
    return bool(library().nb_is_frame(*view(data, "data")))


def frame_make(payload: Any) -> bytes:
    """The frame of a payload of at most 1,023 bytes."""
    at, length = view(payload, "payload")
    room = ctypes.create_string_buffer(FRAME_MOST)
    size = library().nb_frame_make(at, length, room, FRAME_MOST)
    if size == 0:
        raise ValueError(f"payload: at most 1023 bytes are wanted, not {length}")
    return room.raw[:size]


def _read(call: Callable[..., int], *given: Any) -> Any:
    room = ctypes.create_string_buffer(ITEM_SIZE)
    done(call(*given, room))
    return item_of(room.raw)


def message_read(payload: Any, week: int) -> Gps | Gal:
    """The ephemeris in message 1019 or 1046, whose week is the one near this, 1024 to 8191."""
    item: Gps | Gal = _read(library().nb_message_read, *view(payload, "payload"), number(week, "week"))
    return item


def frame_read(frame: Any, week: int) -> Gps | Gal:
    """The ephemeris in message 1019 or 1046 of a complete frame, as ``message_read`` reads it of the payload."""
    item: Gps | Gal = _read(library().nb_frame_read, *view(frame, "frame"), number(week, "week"))
    return item


def week_of_unix(seconds: float) -> int:
    """The GPS week of a time as ``time.time()`` returns it; 0 outside weeks 1 to 16,382."""
    return int(library().nb_week_of_unix(number(int(seconds), "seconds", 0, 2**64 - 1)))


def _item(item: Item) -> Any:
    return (ctypes.c_char * ITEM_SIZE).from_buffer(item_bytes(item))


def message_write(item: Gps | Gal) -> bytes:
    """The frame of message 1019 or 1046 of an ephemeris."""
    return _written(library().nb_message_write, _item(item))


def _written(call: Callable[..., int], *given: Any) -> bytes:
    room, used = ctypes.create_string_buffer(FRAME_MOST), ctypes.c_size_t()
    done(call(*given, room, FRAME_MOST, ctypes.byref(used)))
    return room.raw[: used.value]


class _RawRow(ctypes.Structure):
    """nb_row."""

    _fields_ = [
        ("epoch", ctypes.c_uint64), ("message", ctypes.c_uint32), ("satellite", ctypes.c_uint32), ("count", ctypes.c_uint32),
        ("letter", ctypes.c_char), ("title", ctypes.c_char * 7), ("columns", ctypes.c_int64 * 40),
    ]  # fmt: skip


class Column(NamedTuple):
    """A column of a row: its integer times ``factor``, 2^``two`` and 10^``ten``; semicircles where ``is_angle``. ``rule`` is an nb_rule."""

    name: str
    integer: int
    factor: int
    two: int
    ten: int
    is_angle: bool
    rule: int

    def value(self) -> float:
        """The value in this unit, angles in radians."""
        value = math.ldexp(self.integer * self.factor, self.two) * (PI if self.is_angle else 1.0)
        return value / 10.0**-self.ten if self.ten < 0 else value * 10.0**self.ten


class Row(NamedTuple):
    """The ephemeris of any system as the columns of its record, integers; ``epoch`` is in seconds from 1980-01-06."""

    message: int
    satellite: int
    letter: str
    title: str
    epoch: int
    integers: tuple[int, ...]

    def _raw(self) -> _RawRow:
        count = len(self.integers)
        if count > 40:
            raise ValueError(f"integers: at most 40 are wanted, not {count}")
        numbers = [number(it, "integers", -(2**63), 2**63 - 1) for it in self.integers]
        raw = _RawRow(number(self.epoch, "epoch", 0, 2**64 - 1), number(self.message, "message"), number(self.satellite, "satellite"), count)
        raw.columns[:count] = numbers
        return raw

    def columns(self) -> list[Column]:
        """Its columns, each with its name and unit."""
        raw, unit, all = self._raw(), (ctypes.c_int32 * 5)(), []
        for index, integer in enumerate(self.integers):
            done(library().nb_row_column(ctypes.byref(raw), index, unit))
            name = library().nb_row_name(ctypes.byref(raw), index).decode()
            all.append(Column(name, integer, unit[0], unit[1], unit[2], bool(unit[3]), unit[4]))
        return all


def row_from_message(payload: Any, week: int) -> Row:
    """The ephemeris in a message of any system that the library has a table of, near this week, 1024 to 8191."""
    raw = _RawRow()
    done(library().nb_row_from_message(*view(payload, "payload"), number(week, "week"), ctypes.byref(raw)))
    return Row(raw.message, raw.satellite, raw.letter.decode(), raw.title.decode(), raw.epoch, tuple(raw.columns[: raw.count]))


def row_message(row: Row) -> bytes:
    """The frame of the message of a row."""
    return _written(library().nb_row_message, ctypes.byref(_typed(row, Row)._raw()))


def row_rinex(row: Row) -> str:
    """The record of a row in a navigation file of RINEX 4.01."""
    return _written(library().nb_row_rinex, ctypes.byref(_typed(row, Row)._raw())).decode("ascii")


def _typed(value: Any, kind: type) -> Any:
    if not isinstance(value, kind):
        raise TypeError(f"{kind.__name__} is wanted, not {type(value).__name__}")
    return value


def subframe_read(bits: Any, satellite: int) -> Subframe:
    """The content of an LNAV subframe of that GPS satellite: 300 bits with parity and four that are ignored, 38 bytes."""
    room = ctypes.create_string_buffer(160)
    done(library().nb_subframe_read(view(bits, "bits", 38)[0], number(satellite, "satellite"), room))
    subframe: Subframe = Subframe._of_bytes(room.raw)
    return _kept(subframe, subframe.number, SUBFRAMES)


def subframe_write(subframe: Subframe, tow_count: int) -> bytes:
    """The 38 bytes of an LNAV subframe; the TOW count is the start of the next in units of 6 s from the start of the week."""
    room = ctypes.create_string_buffer(38)
    given = _wanted(_typed(subframe, Subframe), SUBFRAMES)
    done(library().nb_subframe_write(ctypes.create_string_buffer(given, 160), number(tow_count, "tow_count"), room))
    return room.raw


def subframes_join(subframes: Sequence[Subframe], satellite: int, week: int) -> Gps:
    """The ephemeris of subframes 1, 2 and 3 of a GPS satellite, of one issue; its week is near this one, 1024 to 8191."""
    parts = [_wanted(_typed(it, Subframe), SUBFRAMES) for it in subframes]
    gps: Gps = _joined(library().nb_subframes_join, parts, 3, satellite, week)
    return gps


def _joined(call: Callable[..., int], parts: list[bytes], wanted: int, satellite: int, week: int) -> Any:
    if len(parts) != wanted:
        raise ValueError(f"{wanted} parts are wanted, not {len(parts)}")
    given = b"".join(parts)
    return _read(call, ctypes.create_string_buffer(given, len(given)), number(satellite, "satellite"), number(week, "week"))


def page_read(page: Any, satellite: int) -> Word:
    """The content of the word of an I/NAV page of that Galileo satellite: its even and its odd part, 15 bytes each."""
    room = ctypes.create_string_buffer(152)
    done(library().nb_page_read(view(page, "page", 30)[0], number(satellite, "satellite"), room))
    word: Word = Word._of_bytes(room.raw)
    return _kept(word, word.number, WORDS)


def page_write(word: Word, satellite: int) -> bytes:
    """The even and the odd part of the I/NAV page of a word that this Galileo satellite sends, 15 bytes each."""
    room = ctypes.create_string_buffer(30)
    given = _wanted(_typed(word, Word), WORDS)
    done(library().nb_page_write(ctypes.create_string_buffer(given, 152), number(satellite, "satellite"), room))
    return room.raw


def words_join(words: Sequence[Word], satellite: int, week: int) -> Gal:
    """The ephemeris of words 1 to 5 of a Galileo satellite, of one issue; its week is near this one, 1024 to 8191."""
    gal: Gal = _joined(library().nb_words_join, [_wanted(_typed(it, Word), WORDS) for it in words], 5, satellite, week)
    return gal


def record_read(text: str, version: int = 4) -> Item:
    """The item of one record of a navigation file, of version 4 with its title line, of version 3 without."""
    lines = _typed(text, str).encode("latin-1", "replace")
    item: Item = _read(library().nb_record_read, lines, len(lines), number(version, "version"))
    return item


def record_write(item: Item, version: int = 4) -> str:
    """The record of an item in a navigation file of RINEX 4.01 or 3.05; ionospheric parameters have none in version 3."""
    return _written(library().nb_record_write, _item(item), number(version, "version")).decode("ascii")


def header_write(date: datetime.datetime, leap: int = 18, version: int = 4) -> str:
    """The header of a navigation file of RINEX 4.01 or 3.05 that is made at this time, with the leap seconds of GPS time."""
    if _typed(date, datetime.datetime).tzinfo is not None:
        date = date.astimezone(datetime.timezone.utc)
    given = b"%19b%c" % (date.strftime("%Y%m%d %H%M%S UTC").encode(), number(leap, "leap", 0, 99))
    return _written(library().nb_header_write, given, number(version, "version")).decode("ascii")


def records(file: BinaryIO, version: int = 4) -> Iterator[str]:
    """The records of a navigation file, a pipe or a socket's file, as ``record_read`` takes them, each as soon as the next begins."""
    read: Callable[[int], Any] = getattr(file, "read1", None) or file.read
    number(version, "version", 3, 4)
    text, size, is_end = b"", 0, False
    while not size:
        if is_end:
            raise Error(Status.NOT_THIS_FORM)
        text, is_end = _longer(text[text.rfind(b"\n") + 1 :], read(65536))  # lines that do not end it are dropped
        size = library().nb_header_size(*view(text, "text"))
    while True:
        at = size
        first = ctypes.cast(ctypes.c_char_p(text), ctypes.c_void_p).value or 0
        while size := library().nb_record_size(first + at, len(text) - at, version, is_end):
            yield text[at : at + size].decode("latin-1")
            at += size
        if is_end:
            return
        text, is_end = _longer(text[at:], read(65536))


def _longer(text: bytes, piece: Any) -> tuple[bytes, bool]:
    return text + bytes(memoryview(piece)), not piece


class _State:
    """Memory that the library has the meaning of: not copied, and used by one call at a time; another thread's call waits."""

    def __init__(self, size: int) -> None:
        self._lock = threading.Lock()
        self._state: Any = (ctypes.c_uint64 * ((size + 7) // 8))()

    def __reduce_ex__(self, protocol: Any) -> Any:
        raise TypeError(f"a {type(self).__name__} cannot be copied")


class Deframer(_State):
    """Finds the frames of a stream of RTCM 3 that comes in pieces of any size."""

    def __init__(self) -> None:
        super().__init__(library().nb_deframer_size())
        library().nb_deframer_init(self._state)

    def _decided(self) -> list[bytes]:
        room, frames = ctypes.create_string_buffer(FRAME_MOST), []
        while size := library().nb_deframer_next(self._state, room, FRAME_MOST):
            frames.append(room.raw[:size])
        return frames

    def feed(self, data: Any) -> list[bytes]:
        """The frames that are decided by these bytes, with those that were fed before; none once it is finished."""
        given, size = view(data, "data")
        with self._lock:
            frames, at, taken = self._decided(), 0, 1
            first = ctypes.cast(given, ctypes.c_void_p).value or 0
            while at < size and taken:
                taken = library().nb_deframer_feed(self._state, first + at, size - at)
                at += taken
                frames += self._decided()
        return frames

    def finish(self) -> list[bytes]:
        """The frames after an incomplete one, now that no byte follows."""
        with self._lock:
            library().nb_deframer_finish(self._state)
            return self._decided()


def frames(file: BinaryIO) -> Iterator[bytes]:
    """The frames of a binary file, a pipe or a socket's file, each as soon as its last byte has come."""
    read: Callable[[int], Any] = getattr(file, "read1", None) or file.read
    deframer = Deframer()
    while piece := read(65536):
        yield from deframer.feed(piece)
    yield from deframer.finish()


def ephemerides(file: BinaryIO, week: int, refused: Callable[[Error, bytes], Any] | None = None) -> Iterator[Gps | Gal]:
    """The ephemerides of a stream, of messages 1019 and 1046; ``refused`` is called with each of these that is none, and why."""
    number(week, "week", 1024, 8191)
    for frame in frames(file):
        try:
            yield frame_read(frame, week)
        except Error as error:
            if refused is not None and error.status not in (Status.NO_NUMBER, Status.OTHER_MESSAGE):
                refused(error, frame)


class _Closed(_State):
    """A state that holds memory until it is closed; as a context it is closed at its end."""

    _close: str

    def close(self) -> None:
        """Gives back its memory."""
        with self._lock:
            if self._state is not None:
                getattr(library(), self._close)(self._state)
                self._state = None

    def _open(self) -> Any:
        if self._state is None:
            raise Error(Status.CLOSED)
        return self._state

    def __enter__(self) -> Any:
        return self

    def __exit__(self, *error: object) -> None:
        self.close()

    def __del__(self) -> None:
        if getattr(self, "_ready", False):
            self.close()


class Pages(_Closed):
    """Parts of I/NAV pages that wait for their partners, taken in any order.

    A part is kept while its stamp is at most ``window`` and one second below the greatest, 60 to 14,400 seconds."""

    _close = "nb_pages_close"

    def __init__(self, window: int = 60) -> None:
        super().__init__(library().nb_pages_size())
        library().nb_pages_init(self._state, number(window, "window", 60, 14400))
        self._ready = True

    def take(self, part: Any, stamp: int, satellite: int, signal: int = E1B) -> list[Joined]:
        """The pages that a part of 15 bytes makes with those that were taken, each as ``page_read`` takes it."""
        given = view(part, "part", 15)[0]
        numbers = number(stamp, "stamp"), number(satellite, "satellite"), number(signal, "signal")
        with self._lock:
            done(library().nb_pages_take(self._open(), given, *numbers))
            room, pages = ctypes.create_string_buffer(36), []
            while library().nb_pages_next(self._state, room):
                pages.append(Joined(room.raw[:30], int.from_bytes(room.raw[32:], "little")))
        return pages


class Push(_Closed):
    """A conversion whose input is pushed in pieces of any size: what ``convert`` gives of the whole, as it comes.

    Its words name a job over a capture, or over a stream to RINEX or to its ephemerides."""

    _close = "nb_push_close"

    def __init__(self, words: Sequence[str]) -> None:
        given, count = _words(words)
        super().__init__(library().nb_push_size())
        status = library().nb_push_open(self._state, given, count)
        self._ready = True
        if status != 0:
            self.close()
            raise Error(status)

    def _taken(self, take: Callable[..., int]) -> bytes:
        room, pieces = ctypes.create_string_buffer(65536), []
        while size := take(self._state, room, len(room)):
            pieces.append(room.raw[:size])
        return b"".join(pieces)

    def push(self, data: Any) -> bytes:
        """Takes the next bytes of the input, and gives the output that they decide."""
        given = view(data, "data")
        with self._lock:
            done(library().nb_push(self._open(), *given))
            return self._taken(library().nb_push_take)

    def finish(self) -> bytes:
        """The last of the output, now that no byte follows."""
        with self._lock:
            done(library().nb_push_finish(self._open()))
            return self._taken(library().nb_push_take)

    def report(self) -> bytes:
        """What was reported since this was last asked."""
        with self._lock:
            self._open()
            return self._taken(library().nb_push_take_report)
