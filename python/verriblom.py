"""R-245ca's and R-245fa's pressure, density and saturation pairs by Verriblom's C calls.

The shared library is `libverriblom.so` beside this file, or the file that the
environment variable VERRIBLOM_LIBRARY names.

>>> pressure(250.0, 0.0)
0.0
>>> round(pressure(250.0, 11.0, fluid=Fluid.R245FA))
7454017
>>> answer(b"FN" + bytes(16))
Traceback (most recent call last):
verriblom.Refused: 1, NO_READING: the record says "no reading"

A run of records, one after the other, is answered at once, in a part of the
time: each has its number, or in the number's place what it was refused with.

>>> run = record(Mark.TEMPERATURE_DENSITY, 250.0, 0.0) + b"FN" + bytes(16) + b"TD"
>>> for result in answers(run):
...     print(result)
0.0
1, NO_READING: the record says "no reading"
15, RECORD_CUT_SHORT: the record has not exactly 18 bytes

A record is written from its mark and its numbers, and read again as the same.

>>> written = record(Mark.FROM_BELOW, 300.0, 50000.0)
>>> written.hex(" ")
'54 42 00 00 00 00 00 c0 72 40 00 00 00 00 00 6a e8 40'
>>> read(written)
Record(mark=<Mark.FROM_BELOW: b'TB'>, first=300.0, second=50000.0)
>>> read(record(Mark.NO_READING))
Record(mark=<Mark.NO_READING: b'TN'>, first=None, second=None)

A saturation pair is the liquid's and the vapour's density that stand beside each
other at a temperature. One that somebody else proposes is accepted or refused.

>>> pair = saturation(Fluid.R245FA, 250.0)
>>> print(f"{pair.liquid:.6f} {pair.vapour:.8f}")
10.900568 0.00801120
>>> accept(Fluid.R245FA, 250.0, *pair)
>>> accept(Fluid.R245FA, 250.0, 10.9, 0.008)
Traceback (most recent call last):
verriblom.Refused: 19, NOT_ACCEPTED: the proposed pair is not accepted

Units: K, mol/dm³, Pa. Each fluid has its own ranges, ends included
(README.md).
"""

from __future__ import annotations

import ctypes
import enum
import os
import pathlib
import struct
import typing

__all__ = [
    "Fluid", "Mark", "Pair", "Record", "Refusal", "Refused", "accept", "answer", "answers", "density", "pressure", "read",
    "record", "saturation"
]


class Fluid(enum.Enum):
    """The fluids by the first letter of their marks, each with its number."""

    def __new__(cls, letter: bytes, number: int) -> Fluid:
        fluid = object.__new__(cls)
        fluid._value_ = letter
        fluid.number = number
        return fluid

    number: int

    R245CA = b"T", 0
    R245FA = b"F", 1


class Mark(enum.Enum):
    """The two letters at a record's front; the first five are R-245ca's.

    Each has its `fluid`, its `kind`, which is the second letter's code, and
    `has_numbers`, which is false of no reading.
    """

    def __init__(self, letters: bytes) -> None:
        self.fluid = Fluid(letters[:1])
        self.kind = letters[1]
        self.has_numbers = letters[1:] != b"N"
        # as the call that writes takes them; made once, as ctypes takes long to make them
        self._arguments = ctypes.c_uint32(self.kind), ctypes.c_uint32(self.fluid.number)

    TEMPERATURE_DENSITY = b"TD"
    FROM_BELOW = b"TB"
    FROM_ABOVE = b"TA"
    NO_SIDE = b"TP"
    NO_READING = b"TN"
    R245FA_TEMPERATURE_DENSITY = b"FD"
    R245FA_FROM_BELOW = b"FB"
    R245FA_FROM_ABOVE = b"FA"
    R245FA_NO_SIDE = b"FP"
    R245FA_NO_READING = b"FN"

    def of(self, fluid: Fluid) -> Mark:
        """The mark that asks the same of the fluid."""
        return Mark(fluid.value + self.value[1:])


class Refusal(enum.IntEnum):
    """The refusals by number and name, each with what it says."""

    def __new__(cls, number: int, meaning: str) -> Refusal:
        refusal = int.__new__(cls, number)
        refusal._value_ = number
        refusal.meaning = meaning
        return refusal

    meaning: str

    # Of each refusal: which records are tested for it, and which ones can meet it, by the mark's second
    # letter; N has no reading, and both fluids are alike in this. That 8, 9 and 12 never occur of a record,
    # nor any number that is not here, is proved (docs/NO-ANSWER.md). And of saturation pairs: "saturation" is
    # the call that finds one, "accept" the one that judges it.

    # tested: every record of 18 bytes; can occur: N
    NO_READING = 1, 'the record says "no reading"'
    # tested: D, B, A, P; saturation, accept; can occur: the same
    INPUT_NOT_FINITE = 2, "an input number is NaN or infinite"
    # tested: D, B, A, P; saturation, accept; can occur: the same
    TEMPERATURE_OUTSIDE = 3, "the temperature is outside the fluid's range"
    # tested: D; accept, of either density; can occur: the same
    DENSITY_OUTSIDE = 4, "the density is outside the fluid's range"
    # tested: B, A, P; can occur: the same
    PRESSURE_OUTSIDE = 5, "the pressure is outside the fluid's range"
    # tested: D, B, A, P, every run, and every record to write; can occur: the same, but never here, where each
    # record has eight bytes of the output, each one of a run a place for its code, one to write 18 bytes, and a
    # pair, which is tested as well, sixteen
    OUTPUT_TOO_SHORT = 7, "the output, or a run's code list, is too short"
    # tested: B, A, P; can occur: never
    NO_CELL = 8, "no cell of the search has the pressure"
    # tested: B, A, P; can occur: never
    NOT_NEIGHBOURS = 9, "23 halvings did not end at neighbours"
    # tested: D, B, A, P; saturation; can occur: never; accept: with a vapour of almost no density
    WORK_NOT_FINITE = 12, "a worked value is not finite"
    # tested: saturation; can occur: the same
    ABOVE_CRITICAL = 13, "the temperature is above the critical one"
    # tested: every record of 18 bytes, and every one to write; can occur: any other mark, but never in writing
    # here, where a Mark has a known kind
    UNKNOWN_MARK = 14, "the first two bytes are no mark"
    # tested: every record; can occur: any other length
    RECORD_CUT_SHORT = 15, "the record has not exactly 18 bytes"
    # tested: every record to write, saturation, accept; no other record, as every known mark names a fluid; can
    # occur: the same, but never here, where a Mark has a known fluid and a Fluid a known number
    UNKNOWN_FLUID = 17, "the fluid's number is unknown"
    # tested: no record; every run, after 7; can occur: a run of more than 4,096 records, but never here, where
    # it is answered piece by piece
    TOO_MANY_RECORDS = 18, "the run has more than 4,096 records"
    # tested: accept, after 4 and after 12; can occur: the same
    NOT_ACCEPTED = 19, "the proposed pair is not accepted"
    # tested: saturation; can occur: at the critical temperature, and very close below it
    GAVE_UP = 20, "no saturation pair was found"


class Refused(Exception):
    """A record, a temperature or a pair was refused; `refusal` says why. There is no number."""

    # A run may have thousands, so none takes a line of Python to be made; its text is made when it is asked for.

    @property
    def refusal(self) -> Refusal:
        return self.args[0]

    def __str__(self) -> str:
        return f"{int(self.refusal)}, {self.refusal.name}: {self.refusal.meaning}"


class Record(typing.NamedTuple):
    """What a record says; there are no numbers where it says "no reading"."""

    mark: Mark
    first: float | None
    second: float | None


class Pair(typing.NamedTuple):
    """The densities of the liquid and of the vapour that stand beside each other, in mol/dm³."""

    liquid: float
    vapour: float


def _loaded() -> ctypes.CDLL:
    beside = pathlib.Path(__file__).resolve().with_name("libverriblom.so")
    return ctypes.CDLL(os.environ.get("VERRIBLOM_LIBRARY", str(beside)))


def _declared(name: str, *arguments: type) -> ctypes._CFuncPtr:
    function = getattr(_library, name)
    function.argtypes = arguments
    function.restype = ctypes.c_uint32
    return function


_RECORD_BYTES = 18
_NUMBER_BYTES = 8
_MOST_RECORDS = 4096

# Room for the longest run, whatever the run: ctypes takes longer to make a type of another length than to
# clear this.
_Numbers = ctypes.c_char * (_NUMBER_BYTES * _MOST_RECORDS)
_Codes = ctypes.c_uint32 * _MOST_RECORDS

# Room for a record that is written, its length, and the record's place there.
_Room = ctypes.c_char * _RECORD_BYTES
_ROOM_BYTES = ctypes.c_size_t(_RECORD_BYTES)
_PLACE = ctypes.c_size_t(0)

_MARKS = {mark.value: mark for mark in Mark}
_NUMBERS = struct.Struct("<dd")
_BITS = struct.Struct("<QQ")

_library = _loaded()
_bytes = (ctypes.c_char_p, ctypes.c_size_t)
_places = (ctypes.POINTER(ctypes.c_uint32), ctypes.c_size_t)
_call = _declared("verriblom_answer", *_bytes, *_bytes)
_run_call = _declared("verriblom_answers", *_bytes, *_bytes, *_places)
_kind_and_fluid = (ctypes.c_uint32, ctypes.c_uint32)
_both_bits = (ctypes.c_uint64, ctypes.c_uint64)
_write_call = _declared("verriblom_write", *_kind_and_fluid, *_both_bits, *_bytes, ctypes.c_size_t)
_fluid_and_temperature = (ctypes.c_uint32, ctypes.c_double)
_saturation_call = _declared("verriblom_saturation", *_fluid_and_temperature, *_bytes)
_accept_call = _declared("verriblom_accept", *_fluid_and_temperature, ctypes.c_double, ctypes.c_double)


def record(mark: Mark, first: float | None = None, second: float | None = None) -> bytes:
    """The record of a mark and two numbers, bit for bit.

    Those of no reading carry none: the numbers may be left out, and sixteen zero
    bytes stand in their place whatever is given.
    """
    first_bits = second_bits = 0
    if mark.has_numbers:
        if first is None or second is None:
            raise TypeError(f"{mark} needs both numbers")
        first_bits, second_bits = _BITS.unpack(_NUMBERS.pack(first, second))
    kind, fluid = mark._arguments
    room = _Room()
    code = _write_call(kind, fluid, first_bits, second_bits, room, _ROOM_BYTES, _PLACE)
    if code != 0:
        raise Refused(Refusal(code))
    return room.raw


def answer(marked: bytes) -> float:
    """The pressure in Pa or the density in mol/dm³ that a record asks for; raises Refused."""
    out = ctypes.create_string_buffer(8)
    code = _call(bytes(marked), len(marked), out, len(out))
    if code != 0:
        raise Refused(Refusal(code))
    return struct.unpack("<d", out.raw)[0]


def _as_bytes(records: bytes) -> memoryview:
    """The bytes where they stand; only those with gaps between them are copied."""
    view = memoryview(records)
    return view.cast("B") if view.c_contiguous else memoryview(view.tobytes())


def read(marked: bytes) -> Record:
    """What a record says, the opposite of `record`; raises Refused for another length or mark.

    The sixteen bytes of no reading are not looked at. Reading is Python's own work
    here, tested and not proved; the bytes that `record` gives are the proved call's.
    """
    whole = _as_bytes(marked)
    if len(whole) != _RECORD_BYTES:
        raise Refused(Refusal.RECORD_CUT_SHORT)
    mark = _MARKS.get(bytes(whole[:2]))
    if mark is None:
        raise Refused(Refusal.UNKNOWN_MARK)
    if not mark.has_numbers:
        return Record(mark, None, None)
    return Record(mark, *_NUMBERS.unpack_from(whole, 2))


def _results(numbers: tuple[float, ...], codes: tuple[int, ...]) -> list[float | Refused]:
    """The numbers, but for those beside a refusal's code, which are none."""
    if not any(codes):
        return list(numbers)
    refusals = {code: Refusal(code) for code in set(codes) if code != 0}
    return [Refused(refusals[code]) if code != 0 else number for number, code in zip(numbers, codes)]


def _run_answers(run: bytes) -> list[float | Refused]:
    """Those of at most 4,096 records."""
    numbers, codes = _Numbers(), _Codes()
    code = _run_call(run, len(run), numbers, len(numbers), codes, len(codes))
    if code != 0:
        raise Refused(Refusal(code))
    count = -(-len(run) // _RECORD_BYTES)
    return _results(struct.unpack_from(f"<{count}d", numbers), struct.unpack_from(f"={count}I", codes))


def answers(records: bytes) -> list[float | Refused]:
    """For each record in turn the number that it asks for, or a Refused in its place.

    The records stand one after the other, as many as there are; a piece of less
    than 18 bytes at the end is a record too, and refused.
    """
    whole = _as_bytes(records)
    run_bytes = _RECORD_BYTES * _MOST_RECORDS
    results: list[float | Refused] = []
    for start in range(0, len(whole), run_bytes):
        results += _run_answers(bytes(whole[start : start + run_bytes]))
    return results


def pressure(temperature: float, density: float, *, fluid: Fluid = Fluid.R245CA) -> float:
    """The pressure in Pa at a temperature in K and a density in mol/dm³; raises Refused."""
    return answer(record(Mark.TEMPERATURE_DENSITY.of(fluid), temperature, density))


def density(
    temperature: float, pressure: float, side: Mark = Mark.NO_SIDE, *, fluid: Fluid = Fluid.R245CA
) -> float:
    """The density in mol/dm³ at a temperature in K and a pressure in Pa; raises Refused.

    `side` is FROM_BELOW (from zero up), FROM_ABOVE (from the top down), or NO_SIDE, which is
    taken from below.
    """
    if side not in (Mark.FROM_BELOW, Mark.FROM_ABOVE, Mark.NO_SIDE):
        raise ValueError(f"{side} is no side")
    return answer(record(side.of(fluid), temperature, pressure))


def saturation(fluid: Fluid, temperature: float) -> Pair:
    """The saturation pair of a fluid at a temperature in K; raises Refused.

    `accept` accepts it. The pressure is that of `pressure` at either density.
    """
    out = ctypes.create_string_buffer(_NUMBERS.size)
    code = _saturation_call(fluid.number, temperature, out, len(out))
    if code != 0:
        raise Refused(Refusal(code))
    return Pair(*_NUMBERS.unpack(out.raw))


def accept(fluid: Fluid, temperature: float, liquid: float, vapour: float) -> None:
    """Nothing where the two densities, in mol/dm³, are a saturation pair of the fluid; raises Refused where not."""
    code = _accept_call(fluid.number, temperature, liquid, vapour)
    if code != 0:
        raise Refused(Refusal(code))
