"""Ephemerides as they were broadcast: integers, each in its range, and by a method floats in SI units.

Names, order and widths are those of navbridge.h, which says what each is."""

from __future__ import annotations

import math
import struct
from dataclasses import dataclass, field, fields
from typing import TYPE_CHECKING, Any, Iterable, Iterator, NamedTuple, TypeVar

from ._library import number

PI = 3.1415926535898  # as the standards give it
GPS, GALILEO, GPS_ION, GALILEO_ION = 1, 2, 3, 4
WEEKS = (1, 16382)


class _Field(NamedTuple):
    low: int
    high: int
    code: str
    scale: int
    unit: float


def _u(bits: int, scale: int = 0, unit: float = 1.0, most: int | None = None, least: int = 0, code: str = "I") -> Any:
    return field(default=least, metadata={"is": _Field(least, 2**bits - 1 if most is None else most, code, scale, unit)})


def _s(bits: int, scale: int = 0, unit: float = 1.0) -> Any:
    return field(default=0, metadata={"is": _Field(-(2 ** (bits - 1)), 2 ** (bits - 1) - 1, "i", scale, unit)})


def _of(kind: type) -> Any:
    return field(default_factory=kind, metadata={"of": kind})


def _maybe(kind: type) -> Any:
    return field(default=None, metadata={"of": kind, "maybe": True})


def _sent() -> Any:
    return field(default=None, metadata={"sent": _Field(-302400, 907199, "i", 0, 1.0)})


class Numbers:
    """Integers, each checked where it is set: TypeError, ValueError, and AttributeError for a field that is not there."""

    __slots__ = ()

    if not TYPE_CHECKING:  # for a type checker a field that is not there is a mistake

        def __setattr__(self, name: str, value: Any) -> None:
            it = _META[type(self)].get(name)
            where = f"{type(self).__name__}.{name}"
            if it is None:
                raise AttributeError(f"{where}: there is no such field")
            if "of" in it:
                if not isinstance(value, it["of"]) and not (value is None and "maybe" in it):
                    raise TypeError(f"{where}: {it['of'].__name__} is wanted, not {type(value).__name__}")
            elif "is" in it or value is not None:
                limits = it["is"] if "is" in it else it["sent"]
                value = number(value, where, limits.low, limits.high)
            object.__setattr__(self, name, value)

    def si(self) -> dict[str, float]:
        """The numbers in SI units, angles in radians, under their names; an index and a flag as they are."""
        return {name: math.ldexp(getattr(self, name), it["is"].scale) * it["is"].unit for name, it in _META[type(self)].items() if "is" in it}

    def _flat(self) -> Iterator[int]:
        for name, it in _META[type(self)].items():
            value = getattr(self, name)
            if "sent" in it:
                yield from (0, 0) if value is None else (1, value)
            elif "is" in it:
                yield value
            else:
                yield from (value if value is not None else it["of"]())._flat()

    def __bytes__(self) -> bytes:
        """As the struct of navbridge.h stands in memory."""
        return _LAYOUT[type(self)].pack(*self._flat())

    @classmethod
    def _of_flat(cls, flat: Iterator[int]) -> Any:
        values = {}
        for name, it in _META[cls].items():
            if "sent" in it:
                known, second = next(flat), next(flat)
                values[name] = second if known else None
            else:
                values[name] = next(flat) if "is" in it else it["of"]._of_flat(flat)
        return cls(**values)

    @classmethod
    def _of_bytes(cls, data: bytes, at: int = 0) -> Any:
        return cls._of_flat(iter(_LAYOUT[cls].unpack_from(data, at)))


_Kind = TypeVar("_Kind")
_META: dict[type, dict[str, dict[str, Any]]] = {}
_LAYOUT: dict[type, struct.Struct] = {}


def _codes(kind: type) -> str:
    return "".join("Ii" if "sent" in it else it["is"].code if "is" in it else _codes(it["of"]) for it in _META[kind].values())


def _numbers(kind: type[_Kind]) -> type[_Kind]:
    _META[kind] = {it.name: dict(it.metadata) for it in fields(kind)}
    _LAYOUT[kind] = struct.Struct("<" + _codes(kind))
    return kind


@_numbers
@dataclass(slots=True)
class GpsClock(Numbers):
    """The clock of a GPS satellite, of subframe 1."""

    iodc: int = _u(10)
    toc: int = _u(16, unit=16, most=37799)
    af2: int = _s(8, -55)
    af1: int = _s(16, -43)
    af0: int = _s(22, -31)
    tgd: int = _s(8, -31)


@_numbers
@dataclass(slots=True)
class GpsSide(Numbers):
    """What subframe 1 has beside the clock."""

    l2_code: int = _u(2)
    ura: int = _u(4)
    health: int = _u(6)
    l2p: int = _u(1)


@_numbers
@dataclass(slots=True)
class GpsOrbitA(Numbers):
    """The first half of the orbit of a GPS satellite, of subframe 2."""

    iode: int = _u(8)
    crs: int = _s(16, -5)
    delta_n: int = _s(16, -43, PI)
    m0: int = _s(32, -31, PI)
    cuc: int = _s(16, -29)
    e: int = _u(32, -33)
    cus: int = _s(16, -29)
    root_a: int = _u(32, -19)
    toe: int = _u(16, unit=16, most=37799)


@_numbers
@dataclass(slots=True)
class GpsOrbitB(Numbers):
    """The second half of the orbit of a GPS satellite, of subframe 3."""

    iode: int = _u(8)
    cic: int = _s(16, -29)
    omega0: int = _s(32, -31, PI)
    cis: int = _s(16, -29)
    i0: int = _s(32, -31, PI)
    crc: int = _s(16, -5)
    omega: int = _s(32, -31, PI)
    omega_dot: int = _s(24, -43, PI)
    idot: int = _s(14, -43, PI)


@dataclass(frozen=True)
class Orbit:
    """An orbit and its clock in SI units, angles in radians; toe and toc in seconds of the week of toe."""

    toe: float
    toc: float
    af0: float
    af1: float
    af2: float
    group: tuple[float, float]
    root_a: float
    e: float
    m0: float
    delta_n: float
    omega0: float
    i0: float
    omega: float
    omega_dot: float
    idot: float
    crs: float
    crc: float
    cus: float
    cuc: float
    cis: float
    cic: float


def _orbit(si: dict[str, float], group: tuple[float, float]) -> Orbit:
    apart = si["toc"] - si["toe"]  # toc is at most half a week from toe
    si["toc"] += -604800.0 if apart > 302400 else 604800.0 if apart < -302400 else 0.0
    return Orbit(group=group, **{it.name: si[it.name] for it in fields(Orbit) if it.name != "group"})


@_numbers
@dataclass(slots=True)
class Gps(Numbers):
    """An ephemeris of GPS. ``sent`` is its transmission time in seconds of the week of toe, None where it is not known."""

    satellite: int = _u(8, least=1, most=32)
    toe_week: int = _u(14, least=WEEKS[0], most=WEEKS[1])
    sent: int | None = _sent()
    clock: GpsClock = _of(GpsClock)
    side: GpsSide = _of(GpsSide)
    a: GpsOrbitA = _of(GpsOrbitA)
    b: GpsOrbitB = _of(GpsOrbitB)
    fit: int = _u(1)

    def orbit(self) -> Orbit:
        """The orbit and the clock in SI units."""
        return _orbit(self.clock.si() | self.b.si() | self.a.si(), (self.clock.si()["tgd"], 0.0))


@_numbers
@dataclass(slots=True)
class GalWord1(Numbers):
    """The first part of the orbit of a Galileo satellite, of I/NAV word 1."""

    iodnav: int = _u(10)
    toe: int = _u(14, unit=60, most=10079)
    m0: int = _s(32, -31, PI)
    e: int = _u(32, -33)
    root_a: int = _u(32, -19)


@_numbers
@dataclass(slots=True)
class GalWord2(Numbers):
    """The second part, of I/NAV word 2."""

    iodnav: int = _u(10)
    omega0: int = _s(32, -31, PI)
    i0: int = _s(32, -31, PI)
    omega: int = _s(32, -31, PI)
    idot: int = _s(14, -43, PI)


@_numbers
@dataclass(slots=True)
class GalWord3(Numbers):
    """The third part, with the accuracy, of I/NAV word 3."""

    iodnav: int = _u(10)
    omega_dot: int = _s(24, -43, PI)
    delta_n: int = _s(16, -43, PI)
    cuc: int = _s(16, -29)
    cus: int = _s(16, -29)
    crc: int = _s(16, -5)
    crs: int = _s(16, -5)
    sisa: int = _u(8)


@_numbers
@dataclass(slots=True)
class GalWord4(Numbers):
    """The last part, with the clock, of I/NAV word 4."""

    iodnav: int = _u(10)
    cic: int = _s(16, -29)
    cis: int = _s(16, -29)
    toc: int = _u(14, unit=60, most=10079)
    af0: int = _s(31, -34)
    af1: int = _s(21, -46)
    af2: int = _s(6, -59)


@_numbers
@dataclass(slots=True)
class GalHealth(Numbers):
    """Group delays and health of a Galileo satellite, of I/NAV word 5."""

    bgd_a: int = _s(10, -32)
    bgd_b: int = _s(10, -32)
    hs_e5b: int = _u(2)
    hs_e1b: int = _u(2)
    dvs_e5b: int = _u(1)
    dvs_e1b: int = _u(1)


@_numbers
@dataclass(slots=True)
class Gal(Numbers):
    """An ephemeris of Galileo. ``sent`` is its transmission time in seconds of the week of toe, None where it is not known."""

    satellite: int = _u(8, least=1, most=36)
    toe_week: int = _u(14, least=WEEKS[0], most=WEEKS[1])
    sent: int | None = _sent()
    w1: GalWord1 = _of(GalWord1)
    w2: GalWord2 = _of(GalWord2)
    w3: GalWord3 = _of(GalWord3)
    w4: GalWord4 = _of(GalWord4)
    health: GalHealth = _of(GalHealth)

    def orbit(self) -> Orbit:
        """The orbit and the clock in SI units."""
        health = self.health.si()
        return _orbit(self.w4.si() | self.w3.si() | self.w2.si() | self.w1.si(), (health["bgd_a"], health["bgd_b"]))


@_numbers
@dataclass(slots=True)
class GpsIon(Numbers):
    """GPS ionospheric parameters of subframe 4, page 18; in SI units the powers of a semicircle stay."""

    alpha0: int = _s(8, -30)
    alpha1: int = _s(8, -27)
    alpha2: int = _s(8, -24)
    alpha3: int = _s(8, -24)
    beta0: int = _s(8, 11)
    beta1: int = _s(8, 14)
    beta2: int = _s(8, 16)
    beta3: int = _s(8, 16)


@_numbers
@dataclass(slots=True)
class GalIon(Numbers):
    """Galileo ionospheric parameters of I/NAV word 5: solar flux units, and these per degree and per degree squared."""

    ai0: int = _u(11, -2)
    ai1: int = _s(11, -8)
    ai2: int = _s(14, -15)
    regions: int = _u(5)


@_numbers
@dataclass(slots=True)
class Ion(Numbers):
    """Ionospheric parameters of one system, ``gps`` or ``gal``; ``moment`` is GPS time in seconds from 1980-01-06."""

    moment: int = _u(64, least=604800, most=604800 * (WEEKS[1] + 1) - 1, code="Q")
    satellite: int = _u(8, least=1, most=36)
    gps: GpsIon | None = _maybe(GpsIon)
    gal: GalIon | None = _maybe(GalIon)


def _wanted(it: Any, parts: dict[int, tuple[str, ...]]) -> bytes:
    for name in parts.get(it.number, ()):
        if getattr(it, name) is None:
            raise ValueError(f"{type(it).__name__} {it.number}: {name} is wanted")
    return bytes(it)


def _kept(it: _Kind, number: int, parts: dict[int, tuple[str, ...]]) -> _Kind:
    for name in {name for names in parts.values() for name in names} - set(parts[number]):
        setattr(it, name, None)
    return it


@_numbers
@dataclass(slots=True)
class Subframe(Numbers):
    """The content of an LNAV subframe: of ``number`` 1 ``wn``, ``second``, ``clock`` and ``side``, of 2 ``a`` and ``fit``, of 3
    ``b``, of 4 (page 18) ``second`` and ``ion``. What is not of its number is None, or 0."""

    number: int = _u(3, least=1, most=4)
    wn: int = _u(10)
    second: int = _u(20, most=604799)
    clock: GpsClock | None = _maybe(GpsClock)
    side: GpsSide | None = _maybe(GpsSide)
    a: GpsOrbitA | None = _maybe(GpsOrbitA)
    fit: int = _u(1)
    b: GpsOrbitB | None = _maybe(GpsOrbitB)
    ion: GpsIon | None = _maybe(GpsIon)


@_numbers
@dataclass(slots=True)
class Word(Numbers):
    """The content of an I/NAV word: of ``number`` 1 to 4 ``w1`` to ``w4``, of 5 ``wn``, ``second``, ``health`` and ``ion``. What is
    not of its number is None, or 0."""

    number: int = _u(3, least=1, most=5)
    wn: int = _u(12)
    second: int = _u(20, most=604799)
    w1: GalWord1 | None = _maybe(GalWord1)
    w2: GalWord2 | None = _maybe(GalWord2)
    w3: GalWord3 | None = _maybe(GalWord3)
    w4: GalWord4 | None = _maybe(GalWord4)
    health: GalHealth | None = _maybe(GalHealth)
    ion: GalIon | None = _maybe(GalIon)


SUBFRAMES = {1: ("clock", "side"), 2: ("a",), 3: ("b",), 4: ("ion",)}
WORDS = {1: ("w1",), 2: ("w2",), 3: ("w3",), 4: ("w4",), 5: ("health", "ion")}
Item = Gps | Gal | Ion
ITEM_SIZE = 344
_AT: dict[int, tuple[int, Any]] = {GPS: (4, Gps), GALILEO: (136, Gal), GPS_ION: (280, Ion), GALILEO_ION: (280, Ion)}


def item_bytes(item: Item) -> bytearray:
    """As nb_item stands in memory."""
    if isinstance(item, Ion):
        if (item.gps is None) == (item.gal is None):
            raise ValueError("Ion: either gps or gal is wanted")
        kind = GPS_ION if item.gps is not None else GALILEO_ION
    elif isinstance(item, (Gps, Gal)):
        kind = GPS if isinstance(item, Gps) else GALILEO
    else:
        raise TypeError(f"Gps, Gal or Ion is wanted, not {type(item).__name__}")
    room, (at, _), given = bytearray(ITEM_SIZE), _AT[kind], bytes(item)
    room[0] = kind
    room[at : at + len(given)] = given
    return room


def item_of(data: bytes) -> Any:
    """The item that stands in memory so."""
    kind = data[0]
    at, of = _AT[kind]
    item = of._of_bytes(data, at)
    if kind == GPS_ION:
        item.gal = None
    elif kind == GALILEO_ION:
        item.gps = None
    return item


def array(values: Iterable[Any]) -> Any:
    """A structured array of numpy, of ephemerides of one system or of orbits: a field for each number, under its name.

    Of ephemerides the fields are the raw integers, nested as they are: ``array(all)["clock"]["af0"] * 2.0**-31``."""
    import numpy

    given = list(values)
    kinds = {type(it) for it in given}
    if len(kinds) != 1:
        raise TypeError(f"values of one type are wanted, not {', '.join(sorted(it.__name__ for it in kinds)) or 'none'}")
    kind = kinds.pop()
    if kind is Orbit:
        names = [it.name for it in fields(Orbit)]
        types = [(name, "f8", (2,)) if name == "group" else (name, "f8") for name in names]
        return numpy.array([tuple(getattr(it, name) for name in names) for it in given], dtype=types)
    if kind not in _META:
        raise TypeError(f"ephemerides or orbits are wanted, not {kind.__name__}")

    def of(kind: type) -> Any:
        return [
            (name, [("is_known", "<u4"), ("second", "<i4")] if "sent" in it else {"I": "<u4", "i": "<i4", "Q": "<u8"}[it["is"].code] if "is" in it else of(it["of"]))
            for name, it in _META[kind].items()
        ]

    return numpy.frombuffer(bytearray().join(bytes(it) for it in given), dtype=numpy.dtype(of(kind)))
