"""Document 01's settled and printed examples through the binding, and what a refused answer does not let one do."""

import ctypes
import doctest
import fractions
import functools
import inspect
import itertools
import math
import operator
import os
import pathlib
import pickle
import struct
import subprocess
import sys
import unittest

import gatewren
from gatewren import Refusal, Refused, Report, Road, Value, cel, rc, rd, rf, rg, rj_negative, rj_positive
from gatewren import profile_rc, profile_rd, profile_rf, profile_rg, profile_rj

INF, NAN = math.inf, math.nan
PARTED = (1, 2, 5)  # RF of these differs in the last place between the orders x, y, z and z, y, x


def of_bits(bits):
    return struct.unpack("<d", struct.pack("<Q", bits))[0]


def to_bits(value):
    return struct.unpack("<Q", struct.pack("<d", value))[0]


class Examples(unittest.TestCase):
    def test_the_sixteen_settled(self):
        def value(bits, road=Road.CLOSED):
            return Value(of_bits(bits), 0, road, 0)

        settled = [
            (rf(4, 4, 4), value(0x3FE0000000000000)),
            (rf(4, 0, 4), value(0x3FE921FB54442D18)),
            (rf(INF, 0, 0), Refused(3)),
            (rf(INF, 0, 1), value(0, Road.INFINITE)),
            (rf(NAN, -1, 1), Refused(1)),
            (rc(0, -4), value(0)),
            (rc(NAN, 0), Refused(4)),
            (rc(-1, 0), Refused(2)),
            (rd(4, 4, 4), value(0x3FC0000000000000)),
            (rd(NAN, -1, 1), Refused(2)),
            (rd(0, 0, -1), Refused(3)),
            (rg(0, 0, 4), value(0x3FF0000000000000)),
            (rg(INF, 0, 0), Refused(8)),
            (rj_positive(4, 4, 4, 4), value(0x3FC0000000000000)),
            (rj_negative(3, 2, 2, -1), value(0, Road.TAYLOR)),
            (rj_negative(1, 1, 1, -INF), value(0, Road.INFINITE)),
            (rj_negative(-1, 1, 1, -INF), Refused(2)),
            (rj_negative(1, 1, 1, -1.7976931348623157e308), Refused(6)),
        ]
        for came_out, wanted in settled:
            self.assertEqual(came_out, wanted)

    def test_the_printed(self):
        printed = [
            (rc(1, 0.5), 1.2464504802804608),
            (rf(1, 0.5, 0.25), 1.370171633266872),
            (rd(1, 0.5, 0.25), 4.022594757168912),
            (rg(1, 0.5, 0.25), 0.7526721491833781),
            (rj_positive(1, 0.5, 0.25, 0.125), 5.680557292035963),
            (rg(0, 25, 9), 25.526998863398124 / 8),
        ]
        for answer, near in printed:
            self.assertLessEqual(abs(float(answer) - near), 1e-15 * near)
        self.assertEqual(rd(1e-308, 1e-308, 1e-308), Refused(Refusal.NO_RESULT))

    def test_rounds_are_counted(self):
        self.assertEqual(rf(1, 0.5, 0.25), Value(of_bits(0x3FF5EC39172C9C25), 4, Road.DUPLICATION, 0))

    def test_roads_and_rescalings(self):
        thirteen = of_bits(13)
        bits = (0x7FE555555562B9D6, 0x7FE5555555555559, 0x7FEFFFFFFFFFFFFF, 0xFFD5555555555559)
        told = [
            (rc(1, INF), Road.CLOSED, 0),
            (rf(1e300, 2e300, 3e300), Road.DUPLICATION, 1),
            (rf(0, 1, 2), Road.AGM, 0),
            (rd(0, 1, 2), Road.AGM, 0),
            (rg(1, 0.5, 0.25), Road.JOINT, 0),
            (rj_negative(1, 2, 3, -4), Road.REDUCTION, 0),
            (rj_positive(0, thirteen, thirteen, of_bits(0x37E0000000000000)), Road.CLOSED, 2),
            (rj_negative(*map(of_bits, bits)), Road.TAYLOR, 1),
            (gatewren.swing(250_000, 50_000, 9_806_650), Road.AGM, 0),
        ]
        for answer, road, rescalings in told:
            self.assertEqual((answer.road, answer.rescalings), (road, rescalings))

    def test_rj_in_two(self):
        for x, p, number in [(NAN, -1, 1), (1, NAN, 1), (-1, -0.0, 4), (-1, -1, 21), (1, -INF, 21)]:
            self.assertEqual(rj_positive(x, 1, 1, p), Refused(number))
        for x, p, number in [(NAN, 1, 1), (1, NAN, 1), (-1, 0.0, 4), (-1, 1, 21), (1, INF, 21), (-1, -1, 2)]:
            self.assertEqual(rj_negative(x, 1, 1, p), Refused(number))

    def test_cel_in_its_order(self):
        told = [
            (cel(0, NAN, 1, 1), 4),
            (cel(1, -0.0, 1, 1), 4),
            (cel(NAN, 1, INF, INF), 1),
            (cel(INF, 1, INF, 1), 19),
            (cel(0.5, 1, INF, -INF), 19),
            (cel(0.5, 1, -INF, 1), 20),
            (cel(0.5, 1, 1, INF), 20),
            (cel(2.0**509, 1, 1, 1), 6),
        ]
        for answer, number in told:
            self.assertEqual(answer, Refused(number))
        for answer in (cel(-INF, 1, 1, 1), cel(0.5, -INF, 1, 1)):
            self.assertEqual(answer, Value(0.0, 0, Road.INFINITE, 0))
        self.assertEqual(cel(0.5, INF, -1, 1).value.hex(), (-0.0).hex())

    def test_the_bench_profile(self):
        """Request 2026-14: one answer in any order and for either zero, in any unit; 1 to 5, then 23, then 21."""
        x, y, z = PARTED
        self.assertNotEqual(rf(x, y, z), rf(z, y, x))
        for order in itertools.permutations((x, y, z)):
            self.assertEqual(profile_rf(*order), profile_rf(x, y, z))
            self.assertEqual(profile_rg(*order), profile_rg(x, y, z))
            self.assertEqual(profile_rj(*order, 3), profile_rj(x, y, z, 3))
        self.assertEqual(profile_rd(y, x, z), profile_rd(x, y, z))
        self.assertEqual(profile_rg(-0.0, 0, 0), Value(0.0, 0, Road.CLOSED, 0))
        self.assertEqual(float(profile_rd(4 * x, 4 * y, 4 * z)), float(profile_rd(x, y, z)) / 8)
        least, most = 2.0**-64, 2.0**64
        self.assertIsInstance(profile_rf(least, most, 0), Value)
        told = [
            (profile_rf(math.nextafter(least, 0), most, 0), 23),
            (profile_rf(1, 1, INF), 23),
            (profile_rf(INF, 0, 0), 3),
            (profile_rc(NAN, -0.0), 4),
            (profile_rc(NAN, 1e300), 1),
            (profile_rd(1e300, 1, 0), 5),
            (profile_rj(1, 1, 1, -0.0), 4),
            (profile_rj(1, 1, 1, -INF), 23),
            (profile_rj(1, 1, 1, -1), 21),
        ]
        for answer, number in told:
            self.assertEqual(answer, Refused(number))

    def test_no_10(self):
        tiny = of_bits(1)
        self.assertEqual(rj_negative(0, tiny, 0.25, -tiny), Refused(Refusal.TOO_DEEP))

    def test_work_lists(self):
        top = 2**64 - 1
        jobs = [gatewren.Job(1, (0x3FF0000000000000, 127, 128, 0)), gatewren.Job(5, (top, 2**63, 2**63 - 1, 0))]
        data = gatewren.write_list(jobs)
        self.assertEqual(gatewren.read_list(data), (jobs, len(data), None))
        for cut in range(1, len(data)):
            read = gatewren.read_list(data[:cut])
            whole = gatewren.write_list(read.jobs)
            self.assertEqual(len(whole), read.place)
            self.assertEqual(read.refused, None if read.place == cut else Refused(14))
        self.assertEqual(gatewren.read_list(bytes([2, 0, 0, 0x81, 0])).refused, Refused(15))
        self.assertEqual(gatewren.read_list(bytes([2, 0, 0, 0x81, 0])).place, 3)
        self.assertEqual(gatewren.read_list(bytes([7])), ([], 0, Refused(16)))
        self.assertEqual(gatewren.read_list(b""), ([], 0, None))

    def test_reports(self):
        def cel(a):
            return gatewren.Job(6, tuple(map(to_bits, (1, 1, a, a))))

        one = to_bits(1)
        jobs = [cel((1.5 if k % 2 else -1.25) * 2.0**k) for k in range(-1074, 1023, 7)]
        jobs += [gatewren.Job(2, (x, y, 0, 0)) for x, y in [(0, one), (one, 0), (to_bits(-1), one), (0, one), (one, to_bits(2))]]
        jobs += [gatewren.Job(1, tuple(map(to_bits, (x, 0.5, 0.25, 0)))) for x in (1, 2, 5)]
        data = gatewren.write_list(jobs)
        report = Report().add(data)
        self.assertEqual([report.calls(function) for function in range(8)], [0, 3, 5, 0, 0, 0, len(jobs) - 8, 0])
        self.assertEqual((report.refused(2, Refusal.ZERO_GIVEN), report.refused(2, Refusal.BELOW_ZERO)), (1, 1))
        rounds = [rf(x, 0.5, 0.25).rounds for x in (1, 2, 5)]
        self.assertEqual((report.rounds(1), report.most(1)), (sum(rounds), max(rounds)))
        # the exact sum by whole numbers, and rounded once by Python's division of them
        cels = [gatewren.cel(*map(of_bits, job.arguments)) for job in jobs[:-8]]
        for function, values in [(2, [rc(0, 1), rc(0, 1), rc(1, 2)]), (6, cels)]:
            exact = sum(int(fractions.Fraction(float(value)) * 2**1074) for value in values)
            self.assertEqual(report.exact(function), exact)
            self.assertEqual(report.sum(function), exact / 2**1074)
        self.assertEqual((report.exact(7), report.sum(0), report.refused(9, Refusal.NAN_GIVEN)), (0, 0, 0))
        for parts in (1, 2, 3, 50):
            size = -(-len(jobs) // parts)
            each = [Report().add(gatewren.write_list(reversed(jobs[at : at + size]))) for at in range(0, len(jobs), size)]
            self.assertEqual(functools.reduce(Report.join, reversed(each)), report)
        self.assertEqual(functools.reduce(Report.join, [Report()] * 3), Report())
        for bad, number in [(data[:-1], 14), (data + bytes([2, 0x81, 0]), 15), (data + bytes([7]), 16)]:
            self.assertEqual(report.add(bad), Refused(number))
        self.assertEqual(report.add(b""), report)
        self.assertEqual(pickle.loads(pickle.dumps(report)), report)
        self.assertNotEqual(report, Report())
        with self.assertRaises(AttributeError):
            report._words = b""
        for bad in (-1, 2**32, 1.0):
            self.assertRaises((TypeError, ValueError), report.calls, bad)
        self.assertRaises(TypeError, report.join, b"")

    def test_too_many_calls(self):
        def with_calls(calls):
            return Report.parse(str(Report()).replace("RD calls 0", f"RD calls {calls}"))

        jobs = [gatewren.Job(2, (0, to_bits(1), 0, 0))] * 6
        nearly = with_calls(2**32 - 6)
        self.assertEqual(nearly.add(gatewren.write_list(jobs)), Refused(Refusal.TOO_MANY))
        self.assertEqual(nearly.join(with_calls(6)), Refused(Refusal.TOO_MANY))
        full = nearly.add(gatewren.write_list(jobs[:2])).join(with_calls(3))
        self.assertEqual((full.calls(2), full.calls(3)), (2, 2**32 - 3))
        self.assertEqual(full.join(with_calls(1)), Refused(Refusal.TOO_MANY))

    def test_texts_of_reports(self):
        names = ("RF", "RC", "RD", "RG", "RJ", "CEL")
        zeros = "{0} calls 0\n{0} rounds 0\n{0} most 0\n{0} exact 0\n{0} sum 0000000000000000\n"
        none = [zeros.format(name) for name in names]
        self.assertEqual(str(Report()), "report 1\n" + "".join(none))
        data = gatewren.write_list([gatewren.Job(2, (0, to_bits(1), 0, 0)), gatewren.Job(2, (0, 0, 0, 0))])
        report = Report().add(data)
        # pi / 2 is 3FF921FB54442D18: its digits times 2^1022, in units of 2^-1074
        exact = f"{0x1921FB54442D18 << 1022:X}"
        ours = f"RC calls 2\nRC refused 4 1\nRC rounds 0\nRC most 0\nRC exact {exact}\nRC sum 3FF921FB54442D18\n"
        text = str(report)
        self.assertEqual(text, "report 1\n" + none[0] + ours + "".join(none[2:]))
        self.assertEqual(Report.parse(text.removesuffix("\n")), report)
        below = Report().add(gatewren.write_list([gatewren.Job(6, tuple(map(to_bits, (1, 1, -(2.0**-1070), -(2.0**-1070)))))]))
        self.assertIn("CEL exact -19\nCEL sum 8000000000000019\n", str(below))
        self.assertEqual(Report.parse(str(below)), below)
        lines = text.count("\n")
        for old, new, line in [
            ("report 1", "report 2", 1),
            ("RF calls 0", "RF calls 00", 2),
            ("RF calls 0", "RF calls +0", 2),
            ("RF calls 0", "RF calls 0 ", 2),
            ("RF calls 0", f"RF calls {2**64}", 2),
            ("RC refused 4 1", "RC refused 4 0", 8),
            ("RC refused 4 1", "RC refused 28 1", 8),
            ("RC refused 4 1", "RC refused 4 1\nRC refused 4 1", 9),
            ("RC most 0", f"RC most {2**64}", 10),
            ("RC exact ", "RC exact 0", 11),
            ("RC exact ", "RC exact -", 12),
            ("RD exact 0", "RD exact -0", 16),
            ("RD exact 0", f"RD exact {2**2175:X}", 16),
            ("CEL sum 0000000000000000\n", "", lines),
            ("CEL sum 0000000000000000\n", "CEL sum 0000000000000000\n\n", lines + 1),
        ]:
            with self.assertRaisesRegex(ValueError, f"^line {line}: bad line$", msg=(old, new)):
                Report.parse(text.replace(old, new, 1))
        with self.assertRaisesRegex(ValueError, "^line 1: bad line$"):
            Report.parse("")

    def test_tables(self):
        one, minus_four = 0x3FF0000000000000, 0xC010000000000000
        data = gatewren.write_list(gatewren.Job(2, (x, y, 0, 0)) for x, y in [(0, minus_four), (one, 0), (0, one)])
        ours = [rc(0, -4), rc(1, 0), rc(0, 1)]
        table = gatewren.check_table
        self.assertTrue(table(data, ours, 0))
        self.assertTrue(table(data, [-0.0, *ours[1:]], 0))
        for bits in (1, 2**63 + 1):
            self.assertEqual(table(data, [of_bits(bits), *ours[1:]], 0), (False, 0, None))
            self.assertTrue(table(data, [of_bits(bits), *ours[1:]], 1))
        for claim in (Refused(3), 4, 0.0):
            self.assertEqual(table(data, [ours[0], claim, ours[2]], 2**64 - 1), (False, 1, None))
        for claim in (NAN, INF, -INF, Refused(1)):
            self.assertEqual(table(data, [*ours[:2], claim], 2**64 - 1), (False, 2, None))
        self.assertEqual(table(data, ours[:2], 0).refused, Refused(22))
        self.assertEqual(table(data[:-1], [], 0).refused, Refused(14))
        self.assertRaises(ValueError, table, data, ours, 2**64)
        self.assertRaises(ValueError, table, data, ours, -1)

    def test_leaves(self):
        self.assertEqual(gatewren.sqrt(2), math.sqrt(2))
        self.assertTrue(math.isnan(gatewren.sqrt(-1)))
        self.assertEqual(gatewren.mul_add(0.1, 10, -1), 2.0**-54)
        self.assertEqual(gatewren.pow_neg_3_2(4), 0.125)
        self.assertEqual(gatewren.atan(INF), math.pi / 2)
        self.assertLess(abs(gatewren.ln_1p(-0.5) + math.log(2)), 1e-15)

    def test_logarithms(self):
        """Request 2026-02: at every number above zero, near the C library's."""
        for x in (2, 1.5, 1.01, 0.5, 0.25, 2.0**-1022, of_bits(1), of_bits(0x7FEFFFFFFFFFFFFF)):
            self.assertLessEqual(abs(gatewren.ln(x) - math.log(x)), 1e-15 * abs(math.log(x)))
        self.assertEqual(math.copysign(1, gatewren.ln(1)), 1)
        self.assertEqual(gatewren.ln(1), 0)
        self.assertEqual(gatewren.ln(1 + 2.0**-52), 2.0**-52 - 2.0**-105)
        for zero in (0.0, -0.0):
            self.assertEqual(gatewren.ln(zero), -INF)
        self.assertEqual(gatewren.ln(INF), INF)
        for none in (-1, -of_bits(1), -INF, NAN):
            self.assertTrue(math.isnan(gatewren.ln(none)))

    def test_the_swing_time(self):
        self.assertEqual(float(gatewren.swing(250_000, 50_000, 9_806_650)), of_bits(0x3FF07A114C26A24A))
        self.assertEqual(gatewren.swing(0, 0, 0), Refused(Refusal.OUT_OF_RANGE))
        self.assertEqual(gatewren.swing(1, 2, 1), Refused(Refusal.HEIGHT))
        for bad in (-1, 2**64):
            with self.assertRaises(ValueError):
                gatewren.swing(bad, 1, 1)
        with self.assertRaises(TypeError):
            gatewren.swing(1.5, 1, 1)

    def test_the_verdict_and_the_decrement(self):
        period = of_bits(0x3FF07A114C26A24A)
        def knee(time, limit):
            return gatewren.drag(250_000, 50_000, 9_806_650, time, limit)
        self.assertEqual(knee(1_047_000_000, 20_000_000), gatewren.Verdict(True, False, 17_198_348, period))
        self.assertEqual(knee(1_029_801_652, 0), gatewren.Verdict(True, True, 0, period))
        self.assertEqual(knee(1_029_801_653, 0), gatewren.Verdict(False, False, 1, period))
        self.assertTrue(knee(1_029_801_653, 1).passes)
        self.assertEqual(gatewren.drag(0, 1, 1, 1, 1), Refused(Refusal.OUT_OF_RANGE))
        self.assertEqual(gatewren.drag(250_000, 500_000, 9_806_650, 1, 1), Refused(Refusal.HEIGHT))
        self.assertEqual(gatewren.decay(7, 7).hex(), (0.0).hex())
        self.assertEqual(gatewren.decay(90, 100), of_bits(0xBFBAF8E8210A415C))
        self.assertEqual(gatewren.decay(1, 2**53 + 1), Refused(Refusal.AMPLITUDE))
        for bad in (-1, 2**64):
            with self.assertRaises(ValueError):
                knee(bad, 1)
            with self.assertRaises(ValueError):
                gatewren.decay(bad, 1)

    def test_decimals_are_read(self):
        read = gatewren.read_decimal
        for text in ("0", "-0", "1.5", "-1e-3", "6.02E+23", "1e23", "000.1000", "5e-324", "-1e-400", "9007199254740993", "0e2147483647"):
            self.assertEqual(read(text).hex(), float(text).hex(), text)
        self.assertEqual((read("inf"), read(b"-inf")), (INF, -INF))
        self.assertTrue(math.isnan(read("nan")))
        # the middle between the largest double and 2^1024, and the last whole number below it
        middle = 2**1024 - 2**970
        self.assertEqual(read(str(middle)), Refused(Refusal.TOO_LARGE))
        self.assertEqual(read(str(middle - 1)), of_bits(0x7FEFFFFFFFFFFFFF))
        places = {"": 0, "-": 1, "+1": 0, ".5": 0, "5.": 2, "1,5": 1, " 1": 0, "1 ": 1, "1e": 2, "1e+": 3, "1_000": 1, "infinity": 0}
        places |= {"-nan": 1, "1e2147483648": 11, "1e-2147483649": 12, "1\0": 1, "1\u0661": 1, "9" * 801: 800}
        for text, place in places.items():
            self.assertEqual(read(text), gatewren.NoNumber(place), text)
            self.assertEqual(read(text).number, 26)
        self.assertNotEqual(read("1,5"), Refused(26))
        self.assertEqual(read("9" * 800 + "000e-803"), 1.0)
        for wrong in (1.5, None):
            with self.assertRaises(TypeError):
                read(wrong)

    def test_decimals_are_written(self):
        texts = {0.0: "0", 250.0: "250", 0.00001: "0.00001", 0.000001: "1e-6", 1e16: "10000000000000000", 1e17: "1e17", 5e-324: "5e-324"}
        texts |= {1.370171633266872: "1.370171633266872", -2.2250738585072014e-308: "-2.2250738585072014e-308", INF: "inf", -INF: "-inf"}
        for x, text in texts.items():
            self.assertEqual(gatewren.write_decimal(x), text)
        self.assertEqual((gatewren.write_decimal(-0.0), gatewren.write_decimal(NAN)), ("-0", "nan"))
        # equally near: repr has the even one
        self.assertEqual((gatewren.write_decimal(1125899906842624.25), repr(1125899906842624.25)), ("1125899906842624.3", "1125899906842624.2"))
        word = 1
        for _ in range(5000):
            word = (word * 6364136223846793005 + 1442695040888963407) % 2**64
            x = of_bits(word)
            if not math.isnan(x):
                text = gatewren.write_decimal(x)
                self.assertEqual((gatewren.read_decimal(text).hex(), float(text).hex()), (x.hex(), x.hex()))
                self.assertLessEqual(len(text), 24)
        with self.assertRaises(TypeError):
            gatewren.write_decimal("1")

    def test_the_days_file(self):
        examples = pathlib.Path(__file__).resolve().parents[2] / "examples"
        answered = ""
        for line in (examples / "knees.txt").read_text().splitlines():
            name, *numbers = line.split(" ")
            if len(numbers) != 5 or not all(number.isdecimal() for number in numbers):
                answered += "bad line\n"
                continue
            told = gatewren.drag(*map(int, numbers))
            answered += f"{name} refused {told.refusal.value}\n" if isinstance(told, Refused) else f"{name} {told}\n"
        self.assertEqual(answered, (examples / "knees.expected").read_text().split("knees ")[0])

    def test_the_step_log(self):
        self.assertEqual(gatewren.steps(7, []), gatewren.Total(7))
        self.assertEqual(gatewren.steps(7, [65535, 0]), gatewren.Total(8))
        self.assertEqual(int(gatewren.steps(7, [9, 9, 9])), 7)
        self.assertEqual(gatewren.steps(2**64 - 1, [3, 4]), Refused(Refusal.SUM_TOO_LARGE))
        for bad in ([-1], [65536]):
            with self.assertRaises(ValueError):
                gatewren.steps(0, bad)

    def test_the_number_of_arguments(self):
        for call in (rc, rf, rd, rg, rj_positive, rj_negative, gatewren.sqrt, gatewren.mul_add):
            with self.assertRaises(TypeError, msg=call.__name__):
                call()
            with self.assertRaises(TypeError, msg=call.__name__):
                call(1, 1, 1, 1, 1)

    def test_what_the_comments_show(self):
        shown = doctest.testmod(gatewren)
        self.assertEqual(shown.failed, 0)
        self.assertGreater(shown.attempted, 20)

    def test_what_help_shows(self):
        number, whole = "SupportsFloat", "SupportsIndex"
        wanted = {
            rf: f"(x: '{number}', y: '{number}', z: '{number}') -> 'Value | Refused'",
            rj_positive: f"(x: '{number}', y: '{number}', z: '{number}', p: '{number}') -> 'Value | Refused'",
            gatewren.swing: f"(length: '{whole}', height: '{whole}', gravity: '{whole}') -> 'Value | Refused'",
            gatewren.steps: f"(total: '{whole}', readings: 'Iterable[{whole}]') -> 'Total | Refused'",
            gatewren.mul_add: f"(a: '{number}', b: '{number}', c: '{number}') -> 'float'",
        }
        for call, signature in wanted.items():
            self.assertEqual(str(inspect.signature(call)), signature)
        functions = [getattr(gatewren, name) for name in gatewren.__all__]
        for call in filter(inspect.isfunction, functions):
            self.assertIn(">>>", call.__doc__, call.__name__)
        self.assertEqual(rf(z=0.25, y=0.5, x=1), rf(1, 0.5, 0.25))


class Answers(unittest.TestCase):
    """A refused answer is never taken for a number, and no answer for a truth."""

    def test_refused_is_no_number(self):
        refused = rf(-1, 1, 1)
        for convert in (float, int, complex, bool, math.sqrt, round, abs, operator.neg, operator.index):
            with self.assertRaises(TypeError, msg=convert):
                convert(refused)

    def test_refused_has_no_arithmetic_and_no_order(self):
        refused = rf(-1, 1, 1)
        names = "add sub mul truediv floordiv mod pow lt le gt ge eq ne"
        for name in names.split():
            does = getattr(operator, name)
            with self.assertRaises(TypeError, msg=name):
                does(refused, 1.0)
            with self.assertRaises(TypeError, msg=name):
                does(1.0, refused)

    def test_what_is_no_number_is_no_argument(self):
        for argument in (rf(-1, 1, 1), "4", None):
            with self.assertRaises(TypeError, msg=argument):
                rf(argument, 1, 1)

    def test_a_refused_answer_has_no_value(self):
        self.assertFalse(hasattr(rf(-1, 1, 1), "value"))
        self.assertEqual(rf(-1, 1, 1).number, 2)

    def test_answers_compare_with_answers(self):
        self.assertEqual(rf(-1, 1, 1), Refused(2))
        self.assertNotEqual(rf(-1, 1, 1), Refused(1))
        self.assertNotEqual(rf(4, 4, 4), Refused(1))
        self.assertNotEqual(Value(0.0, 0, Road.CLOSED, 0), Value(-0.0, 0, Road.CLOSED, 0))
        self.assertEqual(len({rf(4, 4, 4), rf(4, 4, 4), Refused(1)}), 2)
        with self.assertRaises(TypeError):
            rf(4, 4, 4) == 0.5
        with self.assertRaises(TypeError):
            bool(rf(INF, 0, 1))

    def test_answers_do_not_change(self):
        with self.assertRaises(AttributeError):
            rf(4, 4, 4).value = 1.0
        with self.assertRaises(AttributeError):
            rf(-1, 1, 1).value = 1.0

    def test_every_number_has_a_meaning(self):
        self.assertEqual([refusal.value for refusal in Refusal], list(range(1, 27)))
        for number in (0, 27):
            with self.assertRaises(ValueError):
                Refused(number)


class Interface(unittest.TestCase):
    """The C interface as include/gatewren.h has it."""

    ENTRIES = [("rc", (-1.0, 1.0)), ("rf", (-1.0, 1.0, 1.0)), ("rd", (-1.0, 1.0, 1.0)), ("rg", (-1.0, 1.0, 1.0))]
    ENTRIES += [("rj_positive", (-1.0, 1.0, 1.0, 1.0)), ("rj_negative", (-1.0, 1.0, 1.0, -1.0))]
    ENTRIES += [(f"profile_{name}", arguments) for name, arguments in ENTRIES[:4]] + [("profile_rj", (-1.0, 1.0, 1.0, 1.0))]

    def test_a_refusal_touches_no_place(self):
        for name, arguments in self.ENTRIES:
            places = (ctypes.c_double(-77.5), ctypes.c_uint32(4242), ctypes.c_uint32(4243), ctypes.c_uint32(4244))
            symbol = getattr(gatewren._LIBRARY, f"gatewren_{name}")
            self.assertEqual(symbol(*arguments, *map(ctypes.byref, places)), 2)
            self.assertEqual(tuple(place.value for place in places), (-77.5, 4242, 4243, 4244))

    def test_what_decimals_touch(self):
        library = gatewren._LIBRARY
        value, place = ctypes.c_double(-77.5), ctypes.c_size_t(4242)
        for text, number in ((b"1e309", 25), (b"1e", 26)):
            self.assertEqual(library.gatewren_read_decimal(text, len(text), ctypes.byref(value), ctypes.byref(place)), number)
            self.assertEqual((value.value, place.value), (-77.5, 4242 if number == 25 else 2))
        self.assertEqual(library.gatewren_read_decimal(b"1.5", 3, ctypes.byref(value), ctypes.byref(place)), 0)
        self.assertEqual((value.value, place.value), (1.5, 2))
        room = ctypes.create_string_buffer(b"\xee" * 40, 40)
        self.assertEqual(library.gatewren_write_decimal(ctypes.c_double(1.5), room, 23), 0)
        self.assertEqual(room.raw, b"\xee" * 40)
        self.assertEqual(library.gatewren_write_decimal(ctypes.c_double(1.5), room, 40), 3)
        self.assertEqual(room.raw, b"1.5" + b"\xee" * 37)

    def test_the_header_names_every_function_that_is_called(self):
        header = pathlib.Path(__file__).resolve().parents[2] / "include" / "gatewren.h"
        text = header.read_text()
        names = ["rc", "rf", "rd", "rg", "rj_positive", "rj_negative", "sqrt", "mul_add", "pow_neg_3_2", "atan", "ln", "ln_1p", "swing", "steps"]
        names += ["drag", "decay", "read_decimal", "write_decimal"]
        names += [f"profile_{name}" for name in ("rc", "rf", "rd", "rg", "rj")]
        names += [f"report_{name}" for name in ("list", "join", "calls", "refused", "rounds", "most", "sum")]
        for name in names:
            self.assertIn(f"gatewren_{name}(", text)
        for refusal in Refusal:
            self.assertRegex(text, rf"GATEWREN_{refusal.name} = {refusal.value}\b")

    def test_a_missing_library_is_named(self):
        environment = dict(os.environ, GATEWREN_SO="nowhere/libgatewren.so")
        run = subprocess.run([sys.executable, "-c", "import gatewren"], cwd=pathlib.Path(__file__).parent,
                             env=environment, capture_output=True, text=True)
        self.assertNotEqual(run.returncode, 0)
        self.assertIn("./gatewren shared", run.stderr)


if __name__ == "__main__":
    unittest.main()
