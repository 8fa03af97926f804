"""The shared object: where it is, its calls, its reasons."""

from __future__ import annotations

import ctypes
import operator
import os
from pathlib import Path
from typing import Any

from ._statuses import Status

VERSION = 3  # NB_VERSION of navbridge.h


class Error(ValueError):
    """What was asked for cannot be given; ``status`` is the reason as navbridge.h names it, a :class:`Status`."""

    def __init__(self, status: int) -> None:
        text: str = library().nb_status_text(status).decode()
        try:
            self.status: int = Status(status)
        except ValueError:
            self.status, text = status, f"{text} {status}"
        super().__init__(text)

    def __reduce__(self) -> Any:
        return Error, (int(self.status),)


class Bytes(ctypes.Structure):
    """nb_bytes."""

    _fields_ = [("at", ctypes.c_char_p), ("size", ctypes.c_size_t)]


_loaded: ctypes.CDLL | None = None


def _place() -> str:
    here = Path(__file__).resolve().parent
    for at in (here / "libnavbridge.so.2", here.parent.parent / "c" / "out" / "libnavbridge.so.2"):
        if at.exists():
            return str(at)
    return "libnavbridge.so.2"  # as it is installed


def library() -> ctypes.CDLL:
    """The shared object with the types of its calls: NAVBRIDGE_LIBRARY, that of the wheel or the clone, or the installed one."""
    global _loaded
    if _loaded is None:
        name = os.environ.get("NAVBRIDGE_LIBRARY") or _place()
        try:
            made = ctypes.CDLL(name)
        except OSError as fault:
            raise ImportError(f"{fault}; NAVBRIDGE_LIBRARY may name libnavbridge.so.2") from None
        size, at, number, truth = ctypes.c_size_t, ctypes.c_void_p, ctypes.c_uint32, ctypes.c_bool
        words, to_size = ctypes.POINTER(Bytes), ctypes.POINTER(ctypes.c_size_t)
        for call, takes, gives in (
            ("version", [], number),
            ("status_text", [number], ctypes.c_char_p),
            ("convert", [words, size, at, size, at, size, to_size, at, size, to_size], number),
            ("week_of_unix", [ctypes.c_uint64], number),
            ("is_frame", [at, size], truth),
            ("frame_make", [at, size, at, size], size),
            ("message_read", [at, size, number, at], number),
            ("frame_read", [at, size, number, at], number),
            ("message_write", [at, at, size, to_size], number),
            ("row_from_message", [at, size, number, at], number),
            ("row_message", [at, at, size, to_size], number),
            ("row_rinex", [at, at, size, to_size], number),
            ("row_column", [at, number, at], number),
            ("row_name", [at, number], ctypes.c_char_p),
            ("subframe_read", [at, number, at], number),
            ("subframe_write", [at, number, at], number),
            ("subframes_join", [at, number, number, at], number),
            ("page_read", [at, number, at], number),
            ("page_write", [at, number, at], number),
            ("words_join", [at, number, number, at], number),
            ("record_read", [at, size, number, at], number),
            ("record_write", [at, number, at, size, to_size], number),
            ("header_write", [at, number, at, size, to_size], number),
            ("header_size", [at, size], size),
            ("record_size", [at, size, number, truth], size),
            ("deframer_size", [], size),
            ("deframer_init", [at], None),
            ("deframer_feed", [at, at, size], size),
            ("deframer_next", [at, at, size], size),
            ("deframer_finish", [at], None),
            ("pages_size", [], size),
            ("pages_init", [at, number], None),
            ("pages_take", [at, at, number, number, number], number),
            ("pages_next", [at, at], number),
            ("pages_close", [at], None),
            ("push_size", [], size),
            ("push_open", [at, words, size], number),
            ("push", [at, at, size], number),
            ("push_finish", [at], number),
            ("push_take", [at, at, size], size),
            ("push_take_report", [at, at, size], size),
            ("push_close", [at], None),
        ):
            one = getattr(made, "nb_" + call)
            one.argtypes, one.restype = takes, gives
        if made.nb_version() != VERSION:
            raise ImportError(f"{name} is of version {made.nb_version()}, and not {VERSION}")
        _loaded = made
    return _loaded


def done(status: int) -> None:
    """Raises where a call gave a reason."""
    if status != 0:
        raise Error(status)


def number(value: Any, name: str, low: int = 0, high: int = 2**32 - 1) -> int:
    """An integer in a range: TypeError where it is none, ValueError where it is out of it."""
    try:
        integer = operator.index(value)
    except TypeError:
        raise TypeError(f"{name}: an integer is wanted, not {type(value).__name__}") from None
    if not low <= integer <= high:
        raise ValueError(f"{name}: {integer} is not {low} to {high}")
    return integer


def view(data: Any, name: str, size: int | None = None) -> tuple[Any, int]:
    """What a call takes of bytes, bytearray, memoryview and the like, and how many bytes that is."""
    given: Any = data
    if isinstance(data, bytes):
        length = len(data)
    else:
        try:
            lent = memoryview(data)
        except TypeError:
            raise TypeError(f"{name}: bytes, bytearray or memoryview is wanted, not {type(data).__name__}") from None
        if not lent.c_contiguous:
            raise TypeError(f"{name}: its bytes are not one after another")
        at = lent.cast("B")
        length = len(at)
        # what may not be written is not lent by ctypes
        given = bytes(at) if at.readonly or not length else (ctypes.c_char * length).from_buffer(at)
    if size is not None and length != size:
        raise ValueError(f"{name}: {size} bytes are wanted, not {length}")
    return given, length
