"""Gatewren for Python: Carlson's elliptic integrals rc, rf, rd, rg, rj_positive, rj_negative, Bulirsch's cel, the bench's profile
of them (profile_rf and its like), the leaves they stand on, the knee bench's swing time and step log, the packed work lists of
its controller, reports of such lists, the check of others' tables, and decimal numbers as people write them.

What is called is the proved library as a shared object, which `./gatewren shared` builds and `pip install` takes along;
GATEWREN_SO may name another place.

    >>> rf(4, 4, 4)
    Value(value=0.5, rounds=0, road=Road.CLOSED, rescalings=0)
    >>> rd(0, 0, 1)
    Refused(Refusal.ZEROS)
    >>> float(rf(4, 4, 4))
    0.5

An entry answers with a Value or a Refused. A Refused has no value: float(), arithmetic, comparison with anything but another
answer, and use as a condition raise an error, so that it is never taken for a number.
"""

from __future__ import annotations

import ctypes
import enum
import operator
import os
import pathlib
import re
import struct
from collections.abc import Callable, Iterable, Iterator
from typing import NamedTuple, NoReturn, SupportsFloat, SupportsIndex

__all__ = ["Refusal", "Road", "Answer", "Value", "Total", "Refused", "rc", "rf", "rd", "rg", "rj_positive", "rj_negative", "cel"]
__all__ += ["profile_rc", "profile_rf", "profile_rd", "profile_rg", "profile_rj"]
__all__ += ["Job", "ReadList", "read_list", "write_list", "Report", "Checked", "check_table", "swing", "steps"]
__all__ += ["Verdict", "drag", "decay", "NoNumber", "read_decimal", "write_decimal"]
__all__ += ["sqrt", "mul_add", "pow_neg_3_2", "atan", "ln", "ln_1p"]

__version__ = "0.4.0"


class Refusal(enum.Enum):
    """The numbers for no; docs/REFUSALS.md has the order in which an entry tests."""

    NAN_GIVEN = 1  # an argument is NaN
    BELOW_ZERO = 2  # an argument is below zero that must not be
    ZEROS = 3  # too many zeros
    ZERO_GIVEN = 4  # RC's y, RJ's p, or cel's kc or p is zero
    Z_NOT_ABOVE = 5  # RD's z is zero or less
    NO_RESULT = 6  # RF, RD, RJ or cel ends without a finite result
    RC_NO_RESULT = 7  # RC ends so
    RG_NO_RESULT = 8  # RG ends so
    AGM_SPENT = 9  # the cap on RD's or RG's mean is spent
    TOO_DEEP = 10  # a fifth nested RJ call would be needed
    OUT_OF_RANGE = 11  # a swing's length is not 1 to 10,000,000 or its gravity not 1 to 20,000,000
    HEIGHT = 12  # a swing's height is not 1 to 2L - 1
    SUM_TOO_LARGE = 13  # the step log's total would pass 2^64 - 1
    LIST_CUT = 14  # a work list stops inside a job
    NUMBER_BAD = 15  # a work list has a number over 64 bits or not in its shortest form
    UNKNOWN_FUNCTION = 16  # a job's function is none of those that work lists know
    NO_ROOM = 17  # a job is longer than what is left of the buffer
    TOO_MANY = 18  # more than 2^32 - 1 calls in all, in a report's list or in two reports joined
    SEVERAL_INFINITE = 19  # more than one of cel's arguments is infinite
    A_OR_B_INFINITE = 20  # cel's a or b is infinite
    WRONG_SIGN = 21  # RJ's p has the wrong sign for this entry
    NUMBERS_DIFFER = 22  # a table's claims and its work list's jobs differ in number
    OUTSIDE_PROFILE = 23  # an argument of a profile's entry is neither zero nor of size from 2^-64 to 2^64
    AMPLITUDE = 24  # a peak is not from 1 to 2^53
    TOO_LARGE = 25  # a decimal number is beyond the largest double
    NO_NUMBER = 26  # a text is no decimal number


class Road(enum.Enum):
    """Which formula gave a value. A call that rescales, or hands its whole answer to another function, has that one's road."""

    CLOSED = 1  # a formula
    INFINITE = 2  # the rule for an infinite argument gave the zero
    AGM = 3  # the arithmetic-geometric mean
    DUPLICATION = 4
    JOINT = 5  # RG's duplication of RF and RD in one loop
    TAYLOR = 6  # the expansion near RJ's zero
    REDUCTION = 7  # the reduction of RJ with p below zero
    LOOP = 8  # cel's loop

    def __repr__(self) -> str:
        return f"Road.{self.name}"


class Answer:
    """A Value, a Total or a Refused. It is compared with other answers only, and is neither true nor false."""

    __slots__ = ()

    def _parts(self) -> tuple[object, ...]:
        raise NotImplementedError

    def __setattr__(self, name: str, value: object) -> NoReturn:
        raise AttributeError("an answer does not change")

    def __bool__(self) -> NoReturn:
        raise TypeError("an answer is neither true nor false: ask whether it is a Value or a Refused")

    def __eq__(self, other: object) -> bool:
        if not isinstance(other, Answer):
            raise TypeError(f"an answer is compared with an answer, not with {other!r}")
        return type(self) is type(other) and self._parts() == other._parts()

    def __hash__(self) -> int:
        return hash((type(self), self._parts()))


class Value(Answer):
    """A finite value, with the rounds gone through, the road and the rescalings, over the call and all it calls."""

    __slots__ = ("value", "rounds", "road", "rescalings")
    __match_args__ = ("value", "rounds", "road", "rescalings")
    value: float
    rounds: int
    road: Road
    rescalings: int

    def __init__(self, value: float, rounds: int, road: Road | int, rescalings: int) -> None:
        object.__setattr__(self, "value", value)
        object.__setattr__(self, "rounds", rounds)
        object.__setattr__(self, "road", Road(road))
        object.__setattr__(self, "rescalings", rescalings)

    def _parts(self) -> tuple[object, ...]:
        return (self.value.hex(), self.rounds, self.road, self.rescalings)

    def __float__(self) -> float:
        return self.value

    def __repr__(self) -> str:
        return f"Value(value={self.value!r}, rounds={self.rounds!r}, road={self.road!r}, rescalings={self.rescalings!r})"


class Total(Answer):
    """A step log's new total."""

    __slots__ = ("steps",)
    __match_args__ = ("steps",)
    steps: int

    def __init__(self, steps: int) -> None:
        object.__setattr__(self, "steps", steps)

    def _parts(self) -> tuple[object, ...]:
        return (self.steps,)

    def __index__(self) -> int:
        return self.steps

    def __repr__(self) -> str:
        return f"Total(steps={self.steps!r})"


class Verdict(Answer):
    """A verdict on a knee. `excess` is the time less the ideal period in nanoseconds, rounded half to even, without its sign; `below`
    says that it is below zero. As text it is what ./gatewren drag prints after the name."""

    __slots__ = ("passes", "below", "excess", "period")
    __match_args__ = ("passes", "below", "excess", "period")
    passes: bool
    below: bool
    excess: int
    period: float

    def __init__(self, passes: bool, below: bool, excess: int, period: float) -> None:
        object.__setattr__(self, "passes", passes)
        object.__setattr__(self, "below", below)
        object.__setattr__(self, "excess", excess)
        object.__setattr__(self, "period", period)

    def _parts(self) -> tuple[object, ...]:
        return (self.passes, self.below, self.excess, self.period.hex())

    def __str__(self) -> str:
        seconds, rest = divmod(self.excess, 10**9)
        bits = struct.pack(">d", self.period).hex().upper()
        return f"{'pass' if self.passes else 'drags'} {'-' if self.below else '+'}{seconds}.{rest:09} {bits}"

    def __repr__(self) -> str:
        return f"Verdict(passes={self.passes!r}, below={self.below!r}, excess={self.excess!r}, period={self.period!r})"


class Refused(Answer):
    """No value, and why. It has no __float__ and no arithmetic."""

    __slots__ = ("refusal",)
    __match_args__ = ("refusal",)
    refusal: Refusal

    def __init__(self, refusal: Refusal | int) -> None:
        object.__setattr__(self, "refusal", Refusal(refusal))

    @property
    def number(self) -> int:
        return self.refusal.value

    def _parts(self) -> tuple[object, ...]:
        return (self.refusal,)

    def __repr__(self) -> str:
        return f"Refused({self.refusal})"


class NoNumber(Refused):
    """A text that is no decimal number. `place`, counted from 0, is that of the byte that makes it none, or the text's length in bytes
    where it ends too soon."""

    __slots__ = ("place",)
    __match_args__ = ("place",)
    place: int

    def __init__(self, place: int) -> None:
        super().__init__(Refusal.NO_NUMBER)
        object.__setattr__(self, "place", place)

    def _parts(self) -> tuple[object, ...]:
        return (self.refusal, self.place)

    def __repr__(self) -> str:
        return f"NoNumber(place={self.place!r})"


def _load() -> ctypes.CDLL:
    here = pathlib.Path(__file__).resolve()
    places = [here.with_name("libgatewren.so")]  # where the package was installed; in the repository, where it is built
    places += [folder / "target" / "shared" / "libgatewren.so" for folder in here.parents[3:4]]
    if "GATEWREN_SO" in os.environ:
        places = [pathlib.Path(os.environ["GATEWREN_SO"])]
    for path in places:
        if path.is_file():
            return ctypes.CDLL(str(path.resolve()))
    raise ImportError(f"there is no {places[-1]}: build it by './gatewren shared', or name another place in GATEWREN_SO")


_LIBRARY = _load()
_DOUBLE = ctypes.c_double
_PLACES = [ctypes.POINTER(ctypes.c_double)] + [ctypes.POINTER(ctypes.c_uint32)] * 3


def _symbol(name: str, arguments: list[object], result: object) -> Callable[..., int | float]:
    symbol = getattr(_LIBRARY, f"gatewren_{name}")
    symbol.argtypes, symbol.restype = arguments, result
    return symbol


def _entry(name: str, arguments: list[object]) -> Callable[..., Value | Refused]:
    symbol = _symbol(name, arguments + _PLACES, ctypes.c_uint32)

    def answer(*numbers: object) -> Value | Refused:
        places = (ctypes.c_double(), ctypes.c_uint32(), ctypes.c_uint32(), ctypes.c_uint32())
        number = symbol(*numbers, *map(ctypes.byref, places))
        return Value(*(place.value for place in places)) if number == 0 else Refused(number)

    return answer


_RC = _entry("rc", [_DOUBLE] * 2)
_RF = _entry("rf", [_DOUBLE] * 3)
_RD = _entry("rd", [_DOUBLE] * 3)
_RG = _entry("rg", [_DOUBLE] * 3)
_RJ_POSITIVE = _entry("rj_positive", [_DOUBLE] * 4)
_RJ_NEGATIVE = _entry("rj_negative", [_DOUBLE] * 4)
_CEL = _entry("cel", [_DOUBLE] * 4)
_PROFILE_RC = _entry("profile_rc", [_DOUBLE] * 2)
_PROFILE_RF = _entry("profile_rf", [_DOUBLE] * 3)
_PROFILE_RD = _entry("profile_rd", [_DOUBLE] * 3)
_PROFILE_RG = _entry("profile_rg", [_DOUBLE] * 3)
_PROFILE_RJ = _entry("profile_rj", [_DOUBLE] * 4)
_SWING = _entry("swing", [ctypes.c_uint64] * 3)
_STEPS = _symbol("steps", [ctypes.POINTER(ctypes.c_uint64), ctypes.POINTER(ctypes.c_uint16), ctypes.c_size_t], ctypes.c_uint32)
_DRAG = _symbol("drag", [ctypes.c_uint64] * 5 + [ctypes.POINTER(kind) for kind in (ctypes.c_uint32, ctypes.c_uint32, ctypes.c_uint64, _DOUBLE)],
                ctypes.c_uint32)
_DECAY = _symbol("decay", [ctypes.c_uint64, ctypes.c_uint64, ctypes.POINTER(_DOUBLE)], ctypes.c_uint32)
_JOB = ctypes.c_uint64 * 5
_SIZE = ctypes.POINTER(ctypes.c_size_t)
_WRITE_JOB = _symbol("write_job", [ctypes.c_char_p, ctypes.c_size_t, _SIZE, ctypes.POINTER(_JOB)], ctypes.c_uint32)
_READ_JOB = _symbol("read_job", [ctypes.c_char_p, ctypes.c_size_t, _SIZE, ctypes.POINTER(_JOB)], ctypes.c_uint32)
_CHECKED = [ctypes.c_char_p, ctypes.c_size_t, ctypes.POINTER(ctypes.c_uint64), ctypes.c_size_t, ctypes.c_uint64]
_CHECK_TABLE = _symbol("check_table", _CHECKED + [ctypes.POINTER(ctypes.c_uint64)], ctypes.c_uint32)
_REPORT = ctypes.c_uint64 * 384
_WORDS = ctypes.POINTER(_REPORT)
_REPORT_LIST = _symbol("report_list", [_WORDS, ctypes.c_char_p, ctypes.c_size_t], ctypes.c_uint32)
_REPORT_JOIN = _symbol("report_join", [_WORDS, _WORDS], ctypes.c_uint32)
_REPORT_CALLS = _symbol("report_calls", [_WORDS, ctypes.c_uint32], ctypes.c_uint64)
_REPORT_REFUSED = _symbol("report_refused", [_WORDS, ctypes.c_uint32, ctypes.c_uint32], ctypes.c_uint64)
_REPORT_ROUNDS = _symbol("report_rounds", [_WORDS, ctypes.c_uint32], ctypes.c_uint64)
_REPORT_MOST = _symbol("report_most", [_WORDS, ctypes.c_uint32], ctypes.c_uint32)
_REPORT_SUM = _symbol("report_sum", [_WORDS, ctypes.c_uint32], _DOUBLE)
_READ_DECIMAL = _symbol("read_decimal", [ctypes.c_char_p, ctypes.c_size_t, ctypes.POINTER(_DOUBLE), _SIZE], ctypes.c_uint32)
_WRITE_DECIMAL = _symbol("write_decimal", [_DOUBLE, ctypes.c_char_p, ctypes.c_size_t], ctypes.c_size_t)
_DECIMAL_BYTES = 24
_NOTHING_LEFT = _BAD_ROW = 2**32 - 1
_LONGEST_JOB = 41
_SQRT = _symbol("sqrt", [_DOUBLE], _DOUBLE)
_MUL_ADD = _symbol("mul_add", [_DOUBLE] * 3, _DOUBLE)
_POW_NEG_3_2 = _symbol("pow_neg_3_2", [_DOUBLE], _DOUBLE)
_ATAN = _symbol("atan", [_DOUBLE], _DOUBLE)
_LN = _symbol("ln", [_DOUBLE], _DOUBLE)
_LN_1P = _symbol("ln_1p", [_DOUBLE], _DOUBLE)


def _whole(number: SupportsIndex, bits: int) -> int:
    """A whole number of so many bits: ctypes would drop what is above them."""
    number = operator.index(number)
    if not 0 <= number < 2**bits:
        raise ValueError(f"{number} is no whole number of {bits} bits")
    return number


def _bits(value: float) -> int:
    return struct.unpack("<Q", struct.pack("<d", value))[0]


# The entries. What is no number is no argument: c_double raises a TypeError.


def rc(x: SupportsFloat, y: SupportsFloat) -> Value | Refused:
    """RC(x, y); for y below zero its Cauchy principal value.

    >>> rc(0, 1)
    Value(value=1.5707963267948966, rounds=0, road=Road.CLOSED, rescalings=0)
    >>> rc(1, 0)
    Refused(Refusal.ZERO_GIVEN)
    """
    return _RC(_DOUBLE(x), _DOUBLE(y))


def rf(x: SupportsFloat, y: SupportsFloat, z: SupportsFloat) -> Value | Refused:
    """RF(x, y, z).

    >>> rf(1, 0.5, 0.25)
    Value(value=1.370171633266872, rounds=4, road=Road.DUPLICATION, rescalings=0)
    >>> rf(-1, 0.5, 0.25)
    Refused(Refusal.BELOW_ZERO)
    """
    return _RF(_DOUBLE(x), _DOUBLE(y), _DOUBLE(z))


def rd(x: SupportsFloat, y: SupportsFloat, z: SupportsFloat) -> Value | Refused:
    """RD(x, y, z).

    >>> rd(4, 4, 4)
    Value(value=0.125, rounds=0, road=Road.CLOSED, rescalings=0)
    >>> rd(1, 0.5, 0)
    Refused(Refusal.Z_NOT_ABOVE)
    """
    return _RD(_DOUBLE(x), _DOUBLE(y), _DOUBLE(z))


def rg(x: SupportsFloat, y: SupportsFloat, z: SupportsFloat) -> Value | Refused:
    """RG(x, y, z).

    >>> rg(0, 0, 4)
    Value(value=1.0, rounds=0, road=Road.CLOSED, rescalings=0)
    """
    return _RG(_DOUBLE(x), _DOUBLE(y), _DOUBLE(z))


def rj_positive(x: SupportsFloat, y: SupportsFloat, z: SupportsFloat, p: SupportsFloat) -> Value | Refused:
    """RJ(x, y, z, p) for p above zero.

    >>> rj_positive(4, 4, 4, 4)
    Value(value=0.125, rounds=0, road=Road.CLOSED, rescalings=0)
    >>> rj_positive(3, 2, 2, -1)
    Refused(Refusal.WRONG_SIGN)
    """
    return _RJ_POSITIVE(_DOUBLE(x), _DOUBLE(y), _DOUBLE(z), _DOUBLE(p))


def rj_negative(x: SupportsFloat, y: SupportsFloat, z: SupportsFloat, p: SupportsFloat) -> Value | Refused:
    """RJ(x, y, z, p) for p below zero: its Cauchy principal value.

    >>> rj_negative(3, 2, 2, -1)
    Value(value=0.0, rounds=0, road=Road.TAYLOR, rescalings=0)
    """
    return _RJ_NEGATIVE(_DOUBLE(x), _DOUBLE(y), _DOUBLE(z), _DOUBLE(p))


def cel(kc: SupportsFloat, p: SupportsFloat, a: SupportsFloat, b: SupportsFloat) -> Value | Refused:
    """Bulirsch's cel(kc, p, a, b); for p below zero its Cauchy principal value.

    >>> cel(0.5, 1, 1, 1)
    Value(value=2.1565156474996434, rounds=5, road=Road.LOOP, rescalings=0)
    >>> cel(0, 1, 1, 1)
    Refused(Refusal.ZERO_GIVEN)
    """
    return _CEL(_DOUBLE(kc), _DOUBLE(p), _DOUBLE(a), _DOUBLE(b))


# The bench profile: arguments in any order and in any unit by powers of four, each zero or of size from 2^-64 to 2^64.


def profile_rc(x: SupportsFloat, y: SupportsFloat) -> Value | Refused:
    """RC(x, y) of the bench profile.

    >>> profile_rc(0, 1) == rc(0, 1)
    True
    >>> profile_rc(1e300, 1)
    Refused(Refusal.OUTSIDE_PROFILE)
    """
    return _PROFILE_RC(_DOUBLE(x), _DOUBLE(y))


def profile_rf(x: SupportsFloat, y: SupportsFloat, z: SupportsFloat) -> Value | Refused:
    """RF(x, y, z) of the bench profile, the same in any order.

    >>> profile_rf(1, 0.5, 0.25) == profile_rf(0.25, 1, 0.5)
    True
    >>> profile_rf(1, 0.5, float("inf"))
    Refused(Refusal.OUTSIDE_PROFILE)
    """
    return _PROFILE_RF(_DOUBLE(x), _DOUBLE(y), _DOUBLE(z))


def profile_rd(x: SupportsFloat, y: SupportsFloat, z: SupportsFloat) -> Value | Refused:
    """RD(x, y, z) of the bench profile, the same with x and y exchanged.

    >>> profile_rd(1, 0.5, 0.25) == profile_rd(0.5, 1, 0.25)
    True
    """
    return _PROFILE_RD(_DOUBLE(x), _DOUBLE(y), _DOUBLE(z))


def profile_rg(x: SupportsFloat, y: SupportsFloat, z: SupportsFloat) -> Value | Refused:
    """RG(x, y, z) of the bench profile, the same in any order, -0 being +0.

    >>> profile_rg(-0.0, 0, 0)
    Value(value=0.0, rounds=0, road=Road.CLOSED, rescalings=0)
    """
    return _PROFILE_RG(_DOUBLE(x), _DOUBLE(y), _DOUBLE(z))


def profile_rj(x: SupportsFloat, y: SupportsFloat, z: SupportsFloat, p: SupportsFloat) -> Value | Refused:
    """RJ(x, y, z, p) of the bench profile for p above zero, the same in any order of x, y and z.

    >>> profile_rj(1, 0.5, 0.25, 2) == profile_rj(0.5, 0.25, 1, 2)
    True
    >>> profile_rj(1, 0.5, 0.25, -2)
    Refused(Refusal.WRONG_SIGN)
    """
    return _PROFILE_RJ(_DOUBLE(x), _DOUBLE(y), _DOUBLE(z), _DOUBLE(p))


# The knee bench.


def swing(length: SupportsIndex, height: SupportsIndex, gravity: SupportsIndex) -> Value | Refused:
    """The period of an ideal swing in seconds, from whole micrometres and micrometres per second squared.

    >>> swing(250_000, 50_000, 9_806_650)
    Value(value=1.0298016523976394, rounds=3, road=Road.AGM, rescalings=0)
    >>> swing(250_000, 500_000, 9_806_650)
    Refused(Refusal.HEIGHT)
    """
    return _SWING(_whole(length, 64), _whole(height, 64), _whole(gravity, 64))


def drag(
    length: SupportsIndex, height: SupportsIndex, gravity: SupportsIndex, time: SupportsIndex, limit: SupportsIndex
) -> Verdict | Refused:
    """The verdict on a knee: the swing's three numbers, the time of one whole swing and the allowed excess, both in nanoseconds.

    >>> drag(250_000, 50_000, 9_806_650, 1_047_000_000, 20_000_000)
    Verdict(passes=True, below=False, excess=17198348, period=1.0298016523976394)
    >>> print(drag(250_000, 50_000, 9_806_650, 1_047_000_000, 20_000_000))
    pass +0.017198348 3FF07A114C26A24A
    >>> drag(250_000, 500_000, 9_806_650, 1, 1)
    Refused(Refusal.HEIGHT)
    """
    verdict, below, excess, period = ctypes.c_uint32(), ctypes.c_uint32(), ctypes.c_uint64(), _DOUBLE()
    places = (verdict, below, excess, period)
    number = _DRAG(*(_whole(n, 64) for n in (length, height, gravity, time, limit)), *map(ctypes.byref, places))
    return Verdict(verdict.value == 1, below.value == 1, excess.value, period.value) if number == 0 else Refused(number)


def decay(a: SupportsIndex, b: SupportsIndex) -> float | Refused:
    """The logarithmic decrement ln(a/b) of two successive peaks, each from 1 to 2^53.

    >>> decay(100, 90)
    0.10536051565782635
    >>> decay(0, 1)
    Refused(Refusal.AMPLITUDE)
    """
    decrement = _DOUBLE()
    number = _DECAY(_whole(a, 64), _whole(b, 64), ctypes.byref(decrement))
    return decrement.value if number == 0 else Refused(number)


def steps(total: SupportsIndex, readings: Iterable[SupportsIndex]) -> Total | Refused:
    """The total with the steps between successive readings of a 16-bit counter added; right if fewer than 65,536 lie between two.

    >>> steps(120_000, [65500, 65535, 12, 40])
    Total(steps=120076)
    >>> steps(2**64 - 1, [0, 1])
    Refused(Refusal.SUM_TOO_LARGE)
    """
    held = [_whole(reading, 16) for reading in readings]
    sum_of = ctypes.c_uint64(_whole(total, 64))
    number = _STEPS(ctypes.byref(sum_of), (ctypes.c_uint16 * len(held))(*held), len(held))
    return Total(sum_of.value) if number == 0 else Refused(number)


# Work lists in packed form.


class Job(NamedTuple):
    """A job: its function's number (RF 1, RC 2, RD 3, RG 4, RJ 5, cel 6) and the bits of its arguments, the unused ones 0."""

    function: int
    arguments: tuple[int, int, int, int]


class ReadList(NamedTuple):
    """The jobs of a list; where one is refused those before it, the place at which it begins, and why."""

    jobs: list[Job]
    place: int
    refused: Refused | None


def read_list(data: bytes) -> ReadList:
    """The jobs of a packed work list, up to its end or its first refusal.

    >>> read_list(bytes([2, 0, 0xAC, 2]))
    ReadList(jobs=[Job(function=2, arguments=(0, 300, 0, 0))], place=4, refused=None)
    >>> read_list(bytes([2, 0, 0xAC]))
    ReadList(jobs=[], place=0, refused=Refused(Refusal.LIST_CUT))
    """
    data = bytes(data)
    place, words, jobs = ctypes.c_size_t(0), _JOB(), []
    while (number := _READ_JOB(data, len(data), ctypes.byref(place), ctypes.byref(words))) == 0:
        jobs.append(Job(words[0], tuple(words[1:])))
    return ReadList(jobs, place.value, None if number == _NOTHING_LEFT else Refused(number))


def write_list(jobs: Iterable[Job]) -> bytes | Refused:
    """The jobs as a packed work list, or why there is none.

    >>> write_list([Job(2, (0, 300, 0, 0))]).hex()
    '0200ac02'
    >>> write_list([Job(7, (0, 0, 0, 0))])
    Refused(Refusal.UNKNOWN_FUNCTION)
    """
    held = []
    for function, arguments in jobs:
        words = _JOB(*(_whole(word, 64) for word in (function, *arguments)))
        buffer, place = ctypes.create_string_buffer(_LONGEST_JOB), ctypes.c_size_t(0)
        number = _WRITE_JOB(buffer, _LONGEST_JOB, ctypes.byref(place), ctypes.byref(words))
        if number != 0:
            return Refused(number)
        held.append(buffer.raw[: place.value])
    return b"".join(held)


# Reports of work lists.


class Report:
    """What the answers to work lists come to: for each function (RF 1, RC 2, RD 3, RG 4, RJ 5, cel 6; any other has none of it)
    the calls, how often each number for no was given, the rounds, and the exact sum of the values. The same jobs in another
    order, or in parts whose reports are joined in any order, make the same report.

    A report does not change: add and join give another one, or a Refused. Report() is that of no list.

    >>> data = write_list([Job(2, (0, 0x3FF0000000000000, 0, 0)), Job(2, (0, 0, 0, 0))])
    >>> report = Report().add(data)
    >>> report.calls(2), report.refused(2, Refusal.ZERO_GIVEN), report.sum(2)
    (2, 1, 1.5707963267948966)
    >>> report.add(data[:-1])
    Refused(Refusal.LIST_CUT)
    >>> report.join(report).sum(2)
    3.141592653589793

    Its text is that of `./gatewren report`, and parse reads it; so it is pickled.

    >>> Report.parse(str(report)) == report
    True
    """

    __slots__ = ("_words",)
    _words: bytes

    # What stands in which word is the library's own; here it is for the text and the exact sum.
    _NAMES = ("RF", "RC", "RD", "RG", "RJ", "CEL")
    _LAST, _ROUNDS, _MOST, _SUM, _SUM_WORDS, _BLOCK = 27, 28, 29, 30, 34, 64

    def __init__(self) -> None:
        object.__setattr__(self, "_words", bytes(_REPORT()))

    @classmethod
    def _of(cls, words: ctypes.Array[ctypes.c_uint64]) -> Report:
        report = cls()
        object.__setattr__(report, "_words", bytes(words))
        return report

    def _held(self) -> ctypes.Array[ctypes.c_uint64]:
        """Its words, for the library to read or to change."""
        return _REPORT.from_buffer_copy(self._words)

    def __setattr__(self, name: str, value: object) -> NoReturn:
        raise AttributeError("a report does not change: add and join give another one")

    def __eq__(self, other: object) -> bool:
        return self._words == other._words if isinstance(other, Report) else NotImplemented

    def __hash__(self) -> int:
        return hash(self._words)

    def __reduce__(self) -> tuple[object, ...]:
        return (Report.parse, (str(self),))

    def add(self, data: bytes) -> Report | Refused:
        """This report with the answers to a whole packed work list added."""
        words, data = self._held(), bytes(data)
        number = _REPORT_LIST(ctypes.byref(words), data, len(data))
        return Report._of(words) if number == 0 else Refused(number)

    def join(self, other: Report) -> Report | Refused:
        """The report of both lists."""
        if not isinstance(other, Report):
            raise TypeError(f"a report is joined with a report, not with {other!r}")
        words = self._held()
        number = _REPORT_JOIN(ctypes.byref(words), ctypes.byref(other._held()))
        return Report._of(words) if number == 0 else Refused(number)

    def calls(self, function: SupportsIndex) -> int:
        """The calls, refused ones too."""
        return _REPORT_CALLS(ctypes.byref(self._held()), _whole(function, 32))

    def refused(self, function: SupportsIndex, refusal: Refusal) -> int:
        """How many of them were refused so."""
        return _REPORT_REFUSED(ctypes.byref(self._held()), _whole(function, 32), Refusal(refusal).value)

    def rounds(self, function: SupportsIndex) -> int:
        """The rounds of its values in all."""
        return _REPORT_ROUNDS(ctypes.byref(self._held()), _whole(function, 32))

    def most(self, function: SupportsIndex) -> int:
        """The most rounds of one value."""
        return _REPORT_MOST(ctypes.byref(self._held()), _whole(function, 32))

    def sum(self, function: SupportsIndex) -> float:
        """The exact sum of its values, rounded once: an infinity where that overflows, +0 for zero."""
        return _REPORT_SUM(ctypes.byref(self._held()), _whole(function, 32))

    def exact(self, function: SupportsIndex) -> int:
        """The exact sum of its values times 2^1074, a whole number.

        >>> Report().add(write_list([Job(1, (0x4010000000000000,) * 3 + (0,))])).exact(1) == 2**1073
        True
        """
        function = _whole(function, 32)
        if not 1 <= function <= len(self._NAMES):
            return 0
        words = self._held()[(function - 1) * self._BLOCK + self._SUM : function * self._BLOCK]
        return int.from_bytes(struct.pack(f"<{len(words)}Q", *words), "little", signed=True)

    def _lines_of(self, function: int) -> Iterator[str]:
        """Its text's lines of one function."""
        name, block = self._NAMES[function - 1], self._held()[(function - 1) * self._BLOCK : function * self._BLOCK]
        yield f"{name} calls {block[0]}"
        yield from (f"{name} refused {number} {block[number]}" for number in range(1, self._LAST + 1) if block[number])
        yield f"{name} rounds {block[self._ROUNDS]}"
        yield f"{name} most {block[self._MOST]}"
        yield f"{name} exact {self.exact(function):X}"
        yield f"{name} sum {_bits(self.sum(function)):016X}"

    def __str__(self) -> str:
        lines = [line for function in range(1, len(self._NAMES) + 1) for line in self._lines_of(function)]
        return "".join(f"{line}\n" for line in ["report 1", *lines])

    def __repr__(self) -> str:
        return f"Report.parse({str(self)!r})"

    @classmethod
    def parse(cls, text: str) -> Report:
        """The report of a text, in the one form that it is written in. Any other text is a ValueError.

        >>> Report.parse("report 2\\n")
        Traceback (most recent call last):
        ValueError: line 1: bad line
        """
        lines, words = _Lines(text), _REPORT()
        lines.take("report 1")
        for first, name in zip(range(0, len(words), cls._BLOCK), cls._NAMES):
            words[first] = lines.number(f"{name} calls")
            last = 0
            while tally := lines.tally(name, range(last + 1, cls._LAST + 1)):
                last, words[first + tally[0]] = tally
            words[first + cls._ROUNDS] = lines.number(f"{name} rounds")
            words[first + cls._MOST] = lines.number(f"{name} most")
            words[first + cls._SUM : first + cls._BLOCK] = lines.exact(f"{name} exact", cls._SUM_WORDS)
            lines.take(list(cls._of(words)._lines_of(first // cls._BLOCK + 1))[-1])
        lines.end()
        return cls._of(words)


class _Lines:
    """The lines of a text, gone through as far as they are good; the first that is not is a ValueError."""

    def __init__(self, text: str) -> None:
        self.all, self.at = text.removesuffix("\n").split("\n"), 0

    def bad(self) -> ValueError:
        return ValueError(f"line {self.at + 1}: bad line")

    def end(self) -> None:
        if self.at < len(self.all):
            raise self.bad()

    def met(self, form: str) -> re.Match[str] | None:
        """The next line, if it is of this form."""
        return re.fullmatch(form, self.all[self.at]) if self.at < len(self.all) else None

    def take(self, form: str, good: Callable[[re.Match[str]], bool] = bool) -> re.Match[str]:
        line = self.met(form)
        if not line or not good(line):
            raise self.bad()
        self.at += 1
        return line

    def number(self, words: str) -> int:
        """A whole number of 64 bits, in its shortest form."""
        return int(self.take(f"{words} (0|[1-9][0-9]*)", lambda line: int(line[1]) < 2**64)[1])

    def tally(self, name: str, numbers: range) -> tuple[int, int] | None:
        """A number for no and how often it was given, if the next line has that."""
        if not self.met(f"{name} refused .*"):
            return None
        form = f"{name} refused ([1-9][0-9]?) ([1-9][0-9]*)"
        good = self.take(form, lambda line: int(line[1]) in numbers and int(line[2]) < 2**64)
        return int(good[1]), int(good[2])

    def exact(self, words: str, many: int) -> tuple[int, ...]:
        """A whole number in hex as so many words, low first, in two's complement."""
        top = 2 ** (64 * many - 1)
        number = int(self.take(f"{words} (0|-?[1-9A-F][0-9A-F]*)", lambda line: -top <= int(line[1], 16) < top)[1], 16)
        return struct.unpack(f"<{many}Q", number.to_bytes(8 * many, "little", signed=True))


# Checking the tables of other laboratories.


class Checked(NamedTuple):
    """Whether a table is accepted; where it is not its first bad row, counted from 0, or why it was not checked."""

    accepted: bool
    bad_row: int | None = None
    refused: Refused | None = None

    def __bool__(self) -> bool:
        return self.accepted


def _claim(claim: SupportsFloat | Refused) -> tuple[int, int]:
    if isinstance(claim, Refused):
        return (1, claim.number)
    return (0, _bits(float(claim)))


def check_table(data: bytes, claims: Iterable[SupportsFloat | Refused], tolerance: SupportsIndex) -> Checked:
    """Holds a claim for each job of a packed work list against our answer: the same refusal, or a finite value at most
    `tolerance` steps between neighbouring floats from ours, zeros of both signs being one.

    >>> data = write_list([Job(2, (0, 0x3FF0000000000000, 0, 0)), Job(2, (0, 0, 0, 0))])
    >>> check_table(data, [rc(0, 1), rc(0, 0)], 0)
    Checked(accepted=True, bad_row=None, refused=None)
    >>> check_table(data, [1.5707963267948968, Refused(4)], 0)
    Checked(accepted=False, bad_row=0, refused=None)
    >>> bool(check_table(data, [1.5707963267948968, Refused(4)], 1))
    True
    >>> check_table(data, [], 0)
    Checked(accepted=False, bad_row=None, refused=Refused(Refusal.NUMBERS_DIFFER))
    """
    data, words = bytes(data), [word for claim in claims for word in _claim(claim)]
    row = ctypes.c_uint64()
    held = (ctypes.c_uint64 * len(words))(*words)
    number = _CHECK_TABLE(data, len(data), held, len(words), _whole(tolerance, 64), ctypes.byref(row))
    if number == _BAD_ROW:
        return Checked(False, bad_row=row.value)
    return Checked(True) if number == 0 else Checked(False, refused=Refused(number))


# Numbers as people write them.


def read_decimal(text: str | bytes) -> float | Refused:
    """The double nearest to the decimal that the text is, ties to even: an optional minus, digits, optionally a point and digits,
    optionally e or E, an optional sign and digits; or inf, -inf or nan. At most 800 digits count, zeros in front and at the end not among
    them, and the power of ten is one of 32 bits. float() takes more: blanks, underscores, .5, 5., +1, infinity.

    >>> read_decimal("6.02e23")
    6.02e+23
    >>> read_decimal("1,5")
    NoNumber(place=1)
    >>> read_decimal("1e309")
    Refused(Refusal.TOO_LARGE)
    """
    data = text.encode("utf-8", "surrogatepass") if isinstance(text, str) else bytes(text)
    value, place = _DOUBLE(), ctypes.c_size_t()
    number = _READ_DECIMAL(data, len(data), ctypes.byref(value), ctypes.byref(place))
    if number == Refusal.NO_NUMBER.value:
        return NoNumber(place.value)
    return value.value if number == 0 else Refused(number)


def write_decimal(x: SupportsFloat) -> str:
    """The shortest decimal that read_decimal gives back as x, and of those the nearest. Up to 17 digits before the point and up to four
    zeros after it are written out, all else has a power. Of two equally near it is the upper one, where repr() has the even one.

    >>> write_decimal(250), write_decimal(0.1 + 0.2), write_decimal(6.02e23)
    ('250', '0.30000000000000004', '6.02e23')
    """
    buffer = ctypes.create_string_buffer(_DECIMAL_BYTES)
    length = _WRITE_DECIMAL(_DOUBLE(x), buffer, _DECIMAL_BYTES)
    return buffer.raw[:length].decode("ascii")


# The leaves. Which NaN a leaf gives is left open.


def sqrt(x: SupportsFloat) -> float:
    """The square root, rounded once.

    >>> sqrt(2)
    1.4142135623730951
    """
    return _SQRT(_DOUBLE(x))


def mul_add(a: SupportsFloat, b: SupportsFloat, c: SupportsFloat) -> float:
    """a times b plus c, rounded once.

    >>> mul_add(0.1, 10, -1)
    5.551115123125783e-17
    """
    return _MUL_ADD(_DOUBLE(a), _DOUBLE(b), _DOUBLE(c))


def pow_neg_3_2(a: SupportsFloat) -> float:
    """The power -3/2, rounded once.

    >>> pow_neg_3_2(4)
    0.125
    """
    return _POW_NEG_3_2(_DOUBLE(a))


def atan(x: SupportsFloat) -> float:
    """The arc tangent, within one unit; at every finite number and both infinities.

    >>> atan(1)
    0.7853981633974483
    """
    return _ATAN(_DOUBLE(x))


def ln(x: SupportsFloat) -> float:
    """The natural logarithm, within one unit; at every finite number above zero, and 1 gives +0.

    A zero of either sign gives -infinity, +infinity itself, a number below zero NaN.

    >>> ln(1.01)
    0.009950330853168092
    >>> ln(0)
    -inf
    >>> ln(-1)
    nan
    """
    return _LN(_DOUBLE(x))


def ln_1p(x: SupportsFloat) -> float:
    """The natural logarithm of 1 + x, within one unit; for x from -3/4 to 3/4, else NaN.

    >>> ln_1p(-0.5)
    -0.6931471805599453
    """
    return _LN_1P(_DOUBLE(x))
