"""Tests of the Python module; ends with 'N passed, M failed'."""

import ctypes
import doctest
import itertools
import math
import pickle
import random
import struct
import sys
import unittest
import unittest.mock

import verriblom
from verriblom import Fluid, Mark, Refusal, Refused


class Answers(unittest.TestCase):
    def test_pressure_of_the_papers_tables(self):
        self.assertEqual(round(verriblom.pressure(250.0, 11.3)), 7998072)
        self.assertEqual(round(verriblom.pressure(400.0, 8.0)), 2017058)
        self.assertEqual(round(verriblom.pressure(250.0, 11.0, fluid=Fluid.R245FA)), 7454017)
        self.assertEqual(round(verriblom.pressure(400.0, 0.5, fluid=Fluid.R245FA)), 1352988)

    def test_a_fluid_that_is_not_named_is_r245ca(self):
        for fluid, same in ((Fluid.R245CA, True), (Fluid.R245FA, False)):
            pressures = verriblom.pressure(300.0, 1.0, fluid=fluid), verriblom.pressure(300.0, 1.0)
            densities = verriblom.density(300.0, 50000.0, fluid=fluid), verriblom.density(300.0, 50000.0)
            self.assertIs(pressures[0] == pressures[1], same)
            self.assertIs(densities[0] == densities[1], same)

    def test_zero_density_is_plus_zero(self):
        for fluid in Fluid:
            for zero in (0.0, -0.0):
                self.assertEqual(struct.pack("<d", verriblom.pressure(250.0, zero, fluid=fluid)), bytes(8))

    def test_density_is_the_greatest_step_at_or_below_the_pressure(self):
        for fluid in Fluid:
            for side in (Mark.FROM_BELOW, Mark.FROM_ABOVE):
                rho = verriblom.density(300.0, 50000.0, side, fluid=fluid)
                self.assertEqual(rho * 2**30, int(rho * 2**30))
                self.assertLessEqual(verriblom.pressure(300.0, rho, fluid=fluid), 50000.0)
                self.assertGreater(verriblom.pressure(300.0, rho + 2**-30, fluid=fluid), 50000.0)

    def test_no_side_is_from_below(self):
        for fluid in Fluid:
            below = verriblom.density(300.0, 50000.0, Mark.FROM_BELOW, fluid=fluid)
            self.assertEqual(verriblom.density(300.0, 50000.0, fluid=fluid), below)
            self.assertNotEqual(verriblom.density(300.0, 50000.0, Mark.FROM_ABOVE, fluid=fluid), below)

    def test_marks_of_the_fluids(self):
        self.assertEqual({mark.of(Fluid.R245CA).value for mark in Mark}, {b"TD", b"TB", b"TA", b"TP", b"TN"})
        self.assertEqual({mark.of(Fluid.R245FA).value for mark in Mark}, {b"FD", b"FB", b"FA", b"FP", b"FN"})


class Refusing(unittest.TestCase):
    def refused(self, refusal, call, *words, **named):
        with self.assertRaises(Refused) as caught:
            call(*words, **named)
        self.assertIs(caught.exception.refusal, refusal)


class Refusals(Refusing):
    def test_inputs(self):
        for bad in (math.nan, math.inf, -math.inf):
            self.refused(Refusal.INPUT_NOT_FINITE, verriblom.pressure, bad, 1.0)
            self.refused(Refusal.INPUT_NOT_FINITE, verriblom.pressure, 300.0, bad)
        self.refused(Refusal.TEMPERATURE_OUTSIDE, verriblom.pressure, 500.0, 20.0)
        self.refused(Refusal.DENSITY_OUTSIDE, verriblom.pressure, 300.0, 20.0)
        self.refused(Refusal.PRESSURE_OUTSIDE, verriblom.density, 300.0, 0.5)

    def test_each_fluid_has_its_own_ranges(self):
        self.refused(Refusal.TEMPERATURE_OUTSIDE, verriblom.pressure, 180.0, 0.0)
        self.assertEqual(verriblom.pressure(180.0, 0.0, fluid=Fluid.R245FA), 0.0)
        self.refused(Refusal.TEMPERATURE_OUTSIDE, verriblom.pressure, 445.0, 0.0, fluid=Fluid.R245FA)
        self.assertEqual(verriblom.pressure(445.0, 0.0), 0.0)
        self.refused(Refusal.DENSITY_OUTSIDE, verriblom.pressure, 300.0, 15.0)
        self.assertGreater(verriblom.pressure(300.0, 15.0, fluid=Fluid.R245FA), 0.0)
        self.refused(Refusal.PRESSURE_OUTSIDE, verriblom.density, 300.0, 5e7)
        self.assertGreater(verriblom.density(300.0, 5e7, fluid=Fluid.R245FA), 0.0)

    def test_records(self):
        whole = verriblom.record(Mark.TEMPERATURE_DENSITY, 300.0, 1.0)
        for length in range(18):
            self.refused(Refusal.RECORD_CUT_SHORT, verriblom.answer, whole[:length])
        self.refused(Refusal.RECORD_CUT_SHORT, verriblom.answer, whole + b"\0")
        self.refused(Refusal.UNKNOWN_MARK, verriblom.answer, b"td" + whole[2:])
        self.refused(Refusal.UNKNOWN_MARK, verriblom.answer, b"GD" + whole[2:])
        for mark in (Mark.NO_READING, Mark.R245FA_NO_READING):
            self.refused(Refusal.NO_READING, verriblom.answer, mark.value + b"\xff" * 16)

    def test_runs(self):
        # a record more than the module ever asks at once: first without room for it, then with room
        more = {"_MOST_RECORDS": 4097}
        room = {"_Numbers": ctypes.c_char * (8 * 4097), "_Codes": ctypes.c_uint32 * 4097}
        with unittest.mock.patch.multiple(verriblom, **more):
            self.refused(Refusal.OUTPUT_TOO_SHORT, verriblom.answers, bytes(18 * 4097))
        with unittest.mock.patch.multiple(verriblom, **more, **room):
            self.refused(Refusal.TOO_MANY_RECORDS, verriblom.answers, bytes(18 * 4097))

    def test_a_refusal_tells_its_number_and_name(self):
        told = "3, TEMPERATURE_OUTSIDE: the temperature is outside the fluid's range"
        self.assertEqual(str(Refused(Refusal(3))), told)

    def test_a_refusal_can_be_sent_to_another_process(self):
        for refusal in Refusal:
            sent = pickle.loads(pickle.dumps(Refused(refusal)))
            self.assertIs(sent.refusal, refusal)
            self.assertEqual(str(sent), str(Refused(refusal)))

    def test_a_side_is_asked_for(self):
        with self.assertRaises(ValueError):
            verriblom.density(300.0, 50000.0, Mark.NO_READING)


def singly(marked):
    """What a run has in the record's place."""
    try:
        return verriblom.answer(marked)
    except Refused as refused:
        return refused


def told(result):
    """The bits of a number, or the refusal: equal only where both are the same."""
    return result.refusal if isinstance(result, Refused) else struct.pack("<d", result)


def records_of(run):
    return [run[start : start + 18] for start in range(0, len(run), 18)]


FIRSTS = (180.0, 300.0, 445.0, 500.0, math.nan, -math.inf)
SECONDS = (0.0, -0.0, 0.5, 11.3, 15.0, 50000.0, 5e7, 3e8, -1.0, math.nan, math.inf)


def mixed():
    """Records of both fluids under all marks and some that are none, answered and refused."""
    marks = [mark.value for mark in Mark] + [b"td", b"GD", b"TX", bytes(2)]
    asked = itertools.product(marks, FIRSTS, SECONDS)
    return [mark + struct.pack("<dd", first, second) for mark, first, second in asked]


def states(count):
    """A run of records that all have different pressures."""
    densities = (13.0 * (k + 1) / count for k in range(count))
    return b"".join(verriblom.record(Mark.TEMPERATURE_DENSITY, 400.0, density) for density in densities)


class Runs(unittest.TestCase):
    def told_as_singly(self, run):
        wanted = [told(singly(marked)) for marked in records_of(bytes(run))]
        got = [told(result) for result in verriblom.answers(run)]
        self.assertEqual(len(got), len(wanted))
        # the places, as the lists are too long to be shown
        self.assertEqual([k for k in range(len(wanted)) if got[k] != wanted[k]], [])
        return wanted

    def test_no_record_has_no_answer(self):
        for empty in (b"", bytearray(), memoryview(b"")):
            self.assertEqual(verriblom.answers(empty), [])

    def test_each_record_is_answered_as_by_itself(self):
        met = set(self.told_as_singly(b"".join(mixed()) + b"T"))
        refusals = {int(each) for each in met if isinstance(each, Refusal)}
        self.assertEqual(refusals, {1, 2, 3, 4, 5, 14, 15})
        self.assertGreater(len(met), len(refusals))

    def test_written_records_are_answered_as_each_by_itself(self):
        written = [verriblom.record(*said) for said in itertools.product(Mark, FIRSTS, SECONDS)]
        self.assertEqual(records_of(b"".join(written)), written)
        met = self.told_as_singly(b"".join(written))
        self.assertEqual(len(met), len(written))
        self.assertEqual({int(each) for each in met if isinstance(each, Refusal)}, {1, 2, 3, 4, 5})

    def test_a_run_of_one_record(self):
        for marked in mixed():
            self.assertEqual(len(self.told_as_singly(marked)), 1)

    def test_the_order_is_kept(self):
        forwards = self.told_as_singly(b"".join(mixed()))
        backwards = self.told_as_singly(b"".join(reversed(mixed())))
        self.assertTrue(backwards == forwards[::-1] != forwards)

    def test_a_refused_record_has_no_number(self):
        state = verriblom.record(Mark.TEMPERATURE_DENSITY, 250.0, 0.0)
        outside = verriblom.record(Mark.R245FA_FROM_ABOVE, 500.0, 50000.0)
        unread = b"TN" + state[2:]
        meant = {state: bytes(8), outside: Refusal.TEMPERATURE_OUTSIDE, unread: Refusal.NO_READING}
        for records in itertools.product(meant, repeat=3):
            results = verriblom.answers(b"".join(records))
            self.assertEqual([told(result) for result in results], [meant[marked] for marked in records])
            for marked, result in zip(records, results):
                self.assertIs(type(result), float if marked == state else Refused)

    def test_all_refused(self):
        results = verriblom.answers((b"TN" + bytes(16)) * 4096)
        self.assertEqual({told(result) for result in results}, {Refusal.NO_READING})
        # each its own: a caller may raise one, and it then keeps what it was raised from
        self.assertEqual(len({id(result) for result in results}), 4096)

    def test_a_piece_at_the_end_is_refused(self):
        whole = verriblom.record(Mark.FROM_BELOW, 300.0, 50000.0)
        for length in range(1, 18):
            for before in (b"", whole, states(3)):
                wanted = self.told_as_singly(before + whole[:length])
                self.assertEqual(len(wanted), len(before) // 18 + 1)
                self.assertIs(wanted[-1], Refusal.RECORD_CUT_SHORT)

    def test_long_runs(self):
        longest = states(8193)
        for count, piece in ((4095, 17), (4096, 0), (4096, 1), (4097, 0), (8192, 0), (8192, 5), (8193, 0)):
            wanted = self.told_as_singly(longest[: 18 * count + piece])
            self.assertEqual(len(wanted), count + (piece > 0))
            self.assertEqual(len(set(wanted)), len(wanted))

    def test_the_last_of_several_runs_is_the_right_one(self):
        many = (b"TN" + bytes(16)) * 8192
        last = verriblom.record(Mark.R245FA_FROM_ABOVE, 300.0, 50000.0)
        results = verriblom.answers(many + last)
        self.assertEqual(told(results[-1]), told(singly(last)))
        self.assertEqual({told(result) for result in results[:-1]}, {Refusal.NO_READING})

    def test_anything_like_bytes(self):
        run = b"".join(mixed()[:200]) + b"TD"
        wanted = self.told_as_singly(run)
        gaps = memoryview(b"".join(bytes([byte, 0]) for byte in run))[::2]
        for alike in (bytearray(run), memoryview(run), memoryview(bytearray(run)), gaps):
            self.assertEqual(self.told_as_singly(alike), wanted)

    def test_a_view_of_numbers_is_its_bytes(self):
        self.told_as_singly(memoryview(states(8192)).cast("d"))

    def test_what_is_not_like_bytes(self):
        for other in (18, "TD", [bytes(18)], None):
            with self.assertRaises(TypeError):
                verriblom.answers(other)


# The marks once more, not taken from the module.
LETTERS = {
    Mark.TEMPERATURE_DENSITY: b"TD",
    Mark.FROM_BELOW: b"TB",
    Mark.FROM_ABOVE: b"TA",
    Mark.NO_SIDE: b"TP",
    Mark.NO_READING: b"TN",
    Mark.R245FA_TEMPERATURE_DENSITY: b"FD",
    Mark.R245FA_FROM_BELOW: b"FB",
    Mark.R245FA_FROM_ABOVE: b"FA",
    Mark.R245FA_NO_SIDE: b"FP",
    Mark.R245FA_NO_READING: b"FN",
}
UNREAD = (Mark.NO_READING, Mark.R245FA_NO_READING)
NUMBERED = [mark for mark in LETTERS if mark not in UNREAD]

EDGES = (
    # both zeros, subnormals and the least normal number, the greatest, infinities
    0x0000000000000000, 0x8000000000000000, 0x0000000000000001, 0x800FFFFFFFFFFFFF, 0x0010000000000000,
    0x7FEFFFFFFFFFFFFF, 0x7FF0000000000000, 0xFFF0000000000000,
    # quiet NaNs, then signalling ones
    0x7FF8000000000000, 0xFFF8000000000001, 0x7FFEDCBA98765432,
    0x7FF0000000000001, 0xFFF7FFFFFFFFFFFF, 0x7FF123456789ABCD,
    # 300.0, and eight bytes of which no two are alike
    0x4072C00000000000, 0x0123456789ABCDEF, 0xFEDCBA9876543210,
)


def bits_of(number):
    return struct.unpack("<Q", struct.pack("<d", number))[0]


def number_of(bits):
    return struct.unpack("<d", struct.pack("<Q", bits))[0]


def pairs():
    """Bits of two numbers: the edges, then any, then NaNs."""
    drawn = random.Random(245)
    nan = 0x7FF << 52
    yield from itertools.product(EDGES, repeat=2)
    yield from ((drawn.getrandbits(64), drawn.getrandbits(64)) for _ in range(500))
    yield from ((drawn.getrandbits(64) | nan, drawn.getrandbits(64) | nan) for _ in range(500))


class Names(unittest.TestCase):
    def test_public_names(self):
        given = {}
        exec("from verriblom import *", given)
        values = {"Fluid", "Mark", "Pair", "Record", "Refusal", "Refused"}
        calls = {"accept", "answer", "answers", "density", "pressure", "read", "record", "saturation"}
        self.assertEqual(given.keys() - {"__builtins__"}, values | calls)


class Marks(unittest.TestCase):
    def test_each_has_its_letters_fluid_and_kind(self):
        self.assertEqual(list(Mark), list(LETTERS))
        fluids = {b"T": Fluid.R245CA, b"F": Fluid.R245FA}
        for mark, letters in LETTERS.items():
            self.assertEqual(mark.value, letters)
            self.assertIs(mark.fluid, fluids[letters[:1]])
            self.assertEqual(mark.kind, ord(letters[1:]))
            self.assertIs(mark.has_numbers, mark in NUMBERED)

    def test_the_numbers_of_the_fluids(self):
        self.assertEqual({fluid: fluid.number for fluid in Fluid}, {Fluid.R245CA: 0, Fluid.R245FA: 1})

    def test_they_can_be_sent_to_another_process(self):
        for each in (*Mark, *Fluid):
            self.assertIs(pickle.loads(pickle.dumps(each)), each)
        said = verriblom.Record(Mark.NO_SIDE, 300.0, 50000.0)
        sent = pickle.loads(pickle.dumps(said))
        self.assertEqual((type(sent), sent), (verriblom.Record, said))


class Written(Refusing):
    def test_bytes_of_a_record(self):
        numbers = number_of(0x0102030405060708), number_of(0x1112131415161718)
        wanted = b"FP" + bytes.fromhex("08 07 06 05 04 03 02 01 18 17 16 15 14 13 12 11")
        self.assertEqual(verriblom.record(Mark.R245FA_NO_SIDE, *numbers), wanted)

    def test_every_mark_with_any_numbers(self):
        for mark, (first, second) in itertools.product(NUMBERED, pairs()):
            written = verriblom.record(mark, number_of(first), number_of(second))
            self.assertEqual(written, struct.pack("<2sQQ", LETTERS[mark], first, second))
            self.assertIs(type(written), bytes)

    def test_no_reading_has_zeros(self):
        given = ((), (300.0,), (300.0, 1.0), (None, 1.0), (None, None), (math.nan, -math.inf))
        for mark, numbers in itertools.product(UNREAD, given):
            self.assertEqual(verriblom.record(mark, *numbers), LETTERS[mark] + bytes(16))

    def test_other_marks_need_both_numbers(self):
        for mark in NUMBERED:
            for numbers in ({}, {"first": 300.0}, {"second": 1.0}, {"first": None, "second": None}):
                with self.assertRaisesRegex(TypeError, f"{mark} needs both numbers"):
                    verriblom.record(mark, **numbers)

    def test_whole_numbers_and_names(self):
        written = verriblom.record(Mark.FROM_ABOVE, 300.0, 50000.0)
        self.assertEqual(verriblom.record(Mark.FROM_ABOVE, 300, 50000), written)
        self.assertEqual(verriblom.record(second=50000.0, first=300.0, mark=Mark.FROM_ABOVE), written)

    def test_another_is_written_before_the_first_is_taken(self):
        # as by another thread, between the call and its bytes' taking
        call, others = verriblom._write_call, []

        def interrupted(*words):
            code = call(*words)
            with unittest.mock.patch.object(verriblom, "_write_call", call):
                others.append(verriblom.record(Mark.R245FA_FROM_ABOVE, 400.0, 2.0))
            return code

        with unittest.mock.patch.object(verriblom, "_write_call", interrupted):
            written = verriblom.record(Mark.FROM_BELOW, 300.0, 1.0)
        self.assertEqual(written, struct.pack("<2sdd", b"TB", 300.0, 1.0))
        self.assertEqual(others, [struct.pack("<2sdd", b"FA", 400.0, 2.0)])

    def test_what_the_call_refuses_is_raised(self):
        # none of it comes from a Mark and room for 18 bytes
        for refusal, of, name, wrong in (
            (Refusal.UNKNOWN_MARK, Mark.NO_SIDE, "_arguments", (ord("X"), 0)),
            (Refusal.UNKNOWN_FLUID, Mark.NO_SIDE, "_arguments", (ord("P"), 2)),
            (Refusal.OUTPUT_TOO_SHORT, verriblom, "_ROOM_BYTES", 17),
            (Refusal.OUTPUT_TOO_SHORT, verriblom, "_PLACE", 1),
        ):
            with unittest.mock.patch.object(of, name, wrong):
                self.refused(refusal, verriblom.record, Mark.NO_SIDE, 300.0, 1.0)


class Read(Refusing):
    def test_every_mark_with_any_numbers(self):
        for mark, (first, second) in itertools.product(NUMBERED, pairs()):
            marked = struct.pack("<2sQQ", LETTERS[mark], first, second)
            said = verriblom.read(marked)
            self.assertIs(said.mark, mark)
            self.assertEqual((bits_of(said.first), bits_of(said.second)), (first, second))
            self.assertEqual(verriblom.record(*said), marked)

    def test_what_was_written(self):
        for mark in NUMBERED:
            said = verriblom.read(verriblom.record(mark, 300.0, -0.5))
            self.assertEqual(said, (mark, 300.0, -0.5))
            self.assertIs(type(said), verriblom.Record)

    def test_no_reading_has_no_numbers(self):
        sixteens = (bytes(16), b"\xff" * 16, struct.pack("<dd", 300.0, 1.0))
        for mark, sixteen in itertools.product(UNREAD, sixteens):
            said = verriblom.read(LETTERS[mark] + sixteen)
            self.assertEqual(said, (mark, None, None))
            self.assertIs(type(said), verriblom.Record)
            self.assertEqual(verriblom.record(*said), LETTERS[mark] + bytes(16))

    def test_other_lengths(self):
        for letters, length in itertools.product((b"TD", b"FN", b"td"), (*range(18), 19, 36)):
            self.refused(Refusal.RECORD_CUT_SHORT, verriblom.read, (letters + bytes(34))[:length])

    def test_all_marks(self):
        known = {}
        for letters in map(bytes, itertools.product(range(256), repeat=2)):
            try:
                known[letters] = verriblom.read(letters + bytes(16)).mark
            except Refused as refused:
                self.assertIs(refused.refusal, Refusal.UNKNOWN_MARK)
        self.assertEqual(known, {letters: mark for mark, letters in LETTERS.items()})

    def test_anything_like_bytes(self):
        marked = struct.pack("<2sdd", b"FA", 300.0, 50000.0)
        gaps = memoryview(b"".join(bytes([byte, 0]) for byte in marked))[::2]
        twos = memoryview(marked).cast("H")
        for alike in (bytearray(marked), memoryview(marked), memoryview(bytearray(marked)), gaps, twos):
            self.assertEqual(verriblom.read(alike), (Mark.R245FA_FROM_ABOVE, 300.0, 50000.0))
        self.refused(Refusal.RECORD_CUT_SHORT, verriblom.read, gaps[:17])
        self.refused(Refusal.RECORD_CUT_SHORT, verriblom.read, memoryview(bytes(36)).cast("H"))

    def test_what_is_not_like_bytes(self):
        for other in (18, "TD" * 9, [bytes(18)], None, list(bytes(18))):
            with self.assertRaises(TypeError):
                verriblom.read(other)


# A buffer's bytes before the call, no two alike, and bits that leave none of them as it was.
BEFORE = bytes(range(128, 192))
FIRST, SECOND = 0x0102030405060708, 0x1112131415161718


def called(kind, fluid, room, place):
    """The call's code, and the buffer afterwards, of which so many bytes were lent."""
    buffer = ctypes.create_string_buffer(BEFORE, len(BEFORE))
    return verriblom._write_call(kind, fluid, FIRST, SECOND, buffer, room, place), buffer.raw


class WritingCall(unittest.TestCase):
    def test_the_bytes_around_the_record_stay(self):
        for mark, place in itertools.product(Mark, range(len(BEFORE) - 17)):
            numbers = bytes(16) if mark in UNREAD else struct.pack("<QQ", FIRST, SECOND)
            wanted = BEFORE[:place] + LETTERS[mark] + numbers + BEFORE[place + 18 :]
            self.assertEqual(called(mark.kind, mark.fluid.number, len(BEFORE), place), (0, wanted))

    def written_or(self, refusal, fits, kind, fluid, room, place):
        code, after = called(kind, fluid, room, place)
        self.assertEqual(code, 0 if fits else refusal)
        self.assertIs(after == BEFORE, not fits)

    def test_kinds(self):
        kinds = (*range(256), 256 + ord("D"), 2**16 + ord("B"), 2**31 + ord("N"), 2**32 - 1)
        for kind, fluid in itertools.product(kinds, (0, 1)):
            self.written_or(14, kind in (68, 66, 65, 80, 78), kind, fluid, len(BEFORE), 0)

    def test_fluids(self):
        fluids = (*range(256), 256, 257, 2**16 + 1, 2**31, 2**32 - 1)
        for kind, fluid in itertools.product(b"DBAPN", fluids):
            self.written_or(17, fluid in (0, 1), kind, fluid, len(BEFORE), 0)

    def test_room(self):
        # the last places are those from which 18 bytes would be carried over the end of all
        places = (*range(len(BEFORE) + 2), 2**32, 2**63, *range(2**64 - 20, 2**64))
        for kind, room, place in itertools.product(b"DN", range(len(BEFORE) + 1), places):
            self.written_or(7, place + 18 <= room, kind, 1, room, place)

    def test_which_refusal_comes_first(self):
        for kind, fluid, room, wanted in (
            ("X", 2, 17, 14),
            ("X", 2, 18, 14),
            ("X", 0, 17, 14),
            ("X", 0, 18, 14),
            ("D", 2, 17, 17),
            ("N", 2, 17, 17),
            ("D", 2, 18, 17),
            ("D", 1, 17, 7),
            ("N", 1, 17, 7),
        ):
            self.assertEqual(called(ord(kind), fluid, room, 0), (wanted, BEFORE))


# An output's bytes before a call, no two alike.
OUTPUT = bytes(range(64, 104))
CRITICAL = {Fluid.R245CA: (447.57, 3.92, 13.0), Fluid.R245FA: (427.01, 3.875, 16.0)}


def paired(fluid, temperature, room):
    """The call's code, and the output afterwards, of which so many bytes were lent."""
    out = ctypes.create_string_buffer(OUTPUT, len(OUTPUT))
    return verriblom._saturation_call(fluid, temperature, out, room), out.raw


class Saturation(unittest.TestCase):
    def refused(self, refusal, function, *arguments):
        with self.assertRaises(Refused) as caught:
            function(*arguments)
        self.assertEqual(caught.exception.refusal, refusal)

    def test_a_pair_is_accepted_and_is_one_pressure(self):
        for fluid, (critical, density, _) in CRITICAL.items():
            for temperature in (200.0, 250.0, 300.5, 400.0, critical - 1.0):
                liquid, vapour = verriblom.saturation(fluid, temperature)
                self.assertTrue(0.0 < vapour < density < liquid)
                self.assertIsNone(verriblom.accept(fluid, temperature, liquid, vapour))
                pressures = [verriblom.pressure(temperature, rho, fluid=fluid) for rho in (liquid, vapour)]
                self.assertLessEqual(abs(pressures[0] - pressures[1]), 0.01)

    def test_the_sixteen_bytes_and_no_other(self):
        for fluid in Fluid:
            pair = struct.pack("<dd", *verriblom.saturation(fluid, 300.0))
            for room in range(len(OUTPUT) + 1):
                wanted = (0, pair + OUTPUT[16:]) if room >= 16 else (7, OUTPUT)
                self.assertEqual(paired(fluid.number, 300.0, room), wanted)

    def test_refused_temperatures(self):
        for fluid, (critical, _, _) in CRITICAL.items():
            self.refused(Refusal.INPUT_NOT_FINITE, verriblom.saturation, fluid, math.nan)
            self.refused(Refusal.INPUT_NOT_FINITE, verriblom.saturation, fluid, -math.inf)
            self.refused(Refusal.TEMPERATURE_OUTSIDE, verriblom.saturation, fluid, 100.0)
            self.refused(Refusal.ABOVE_CRITICAL, verriblom.saturation, fluid, math.nextafter(critical, 500.0))
            self.refused(Refusal.GAVE_UP, verriblom.saturation, fluid, critical)

    def test_which_refusal_of_saturation_comes_first(self):
        for fluid, temperature, room, wanted in (
            (2, math.nan, 0, 17),
            (0, math.nan, 0, 2),
            (1, 100.0, 0, 3),
            (0, 449.0, 15, 7),
            (0, 449.0, 16, 13),
            (0, 447.57, 15, 7),
            (0, 447.57, 16, 20),
        ):
            self.assertEqual(paired(fluid, temperature, room), (wanted, OUTPUT))

    def test_proposed_pairs(self):
        for fluid, (critical, density, greatest) in CRITICAL.items():
            liquid, vapour = verriblom.saturation(fluid, 300.0)
            for temperature, proposed, refusal in (
                (300.0, (math.inf, vapour), 2),
                (300.0, (liquid, math.nan), 2),
                (math.nan, (liquid, vapour), 2),
                (100.0, (liquid, -1.0), 3),
                (300.0, (liquid, -1.0), 4),
                (300.0, (math.nextafter(greatest, 20.0), vapour), 4),
                (300.0, (greatest, vapour), 19),
                (critical, (liquid, vapour), 19),
                (300.0, (vapour, liquid), 19),
                (300.0, (density, vapour), 19),
                (300.0, (liquid, density), 19),
                (300.0, (liquid, 0.0), 19),
                (300.0, (liquid, -0.0), 19),
                (300.0, (liquid, 1e-300), 12),
                (300.0, (liquid, vapour * 1.000001), 19),
            ):
                self.refused(refusal, verriblom.accept, fluid, temperature, *proposed)
            self.assertEqual(verriblom._accept_call(2, math.nan, liquid, vapour), 17)


def load_tests(loader, tests, pattern):
    examples = doctest.DocTestSuite(verriblom)
    if examples.countTestCases() == 0:
        raise AssertionError("the module has no examples")
    tests.addTests(examples)
    return tests


if __name__ == "__main__":
    program = unittest.main(exit=False, verbosity=0)
    failed = len(program.result.failures) + len(program.result.errors)
    print(f"{program.result.testsRun - failed} passed, {failed} failed")
    sys.exit(failed != 0)
