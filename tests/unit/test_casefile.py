"""tools/casefile beside the reference: its refusals, files there and back, and its command line."""

import os
import random
import struct
import subprocess
import sys
import tempfile
import tomllib
import unittest
from collections import Counter
from dataclasses import replace
from importlib.machinery import SourceFileLoader
from importlib.util import module_from_spec, spec_from_loader
from pathlib import Path
from unittest import mock

from tests import ROOT
from tests.inputs import examples
from tests.reference import reference
from tests.unit.reference_shared import FAULTS, FULL_FILE

HERE = Path(__file__).resolve().parent
TOOL = ROOT / "tools" / "casefile"
sys.path[:0] = [str(ROOT / "tools")]
from casetext import Case, Fault, Reader, explain, from_toml, months, read, refusal, template, to_toml, warnings_of, write
from casetext.fields import DAYS_FIELDS, Forward, forwards_out_of_limits
from ginghamowl._plausible import RULES

C1 = reference.encode(examples.c1(), False, False, True)
UP = reference.encode(examples.up(), True, True, True)
FUND = (ROOT / "cases" / "fund.case").read_bytes()
STEEP = C1[:121] + b"\x01\x00" + C1[123:]  # rate 256 at term 60, behind zeros: refused with 6
TWO, FOUR = DAYS_FIELDS[2], DAYS_FIELDS[4]


def in_four_bytes(data, more=lambda place: 0):
    """A file of two-byte rates with each rate in four bytes instead: 100 times the rate, and some hundredths of a step more."""
    at = 5 if data[1] & 1 else 3
    end, behind = at + 120 * data[at - 1], len(data) - 2 * (data[0] & 1)
    rates = struct.unpack(f">{60 * data[at - 1]}h", data[at:end])
    finer = [100 * rate + more(place) for place, rate in enumerate(rates)]
    return (bytes([data[0], data[1] ^ 0x82]) + data[2:at - 1] + data[end:behind] + data[at - 1:at]
            + struct.pack(f">{len(rates)}i", *finer) + data[behind:])


def with_correlation(data, thousandths):
    """A file with this correlation between the equity classes, as its last field."""
    return bytes([data[0] | 1]) + data[1:len(data) - 2 * (data[0] & 1)] + struct.pack(">H", thousandths)


def with_rates(data, rates):
    """A file of one day in four bytes with other rates."""
    return data[:-240] + struct.pack(">60i", *rates)


C1_FOUR, UP_FOUR, FUND_FOUR = in_four_bytes(C1), in_four_bytes(UP, lambda place: 37 * place % 100), in_four_bytes(FUND)


def accepted(seed, count):
    rng = random.Random(seed)
    for _ in range(count):
        case = examples.random_case(rng)
        yield case, reference.encode(case, *examples.presence(rng, case))


def number_of(data):
    answer = reference.read(data)
    return answer.number if isinstance(answer, reference.Refusal) else 0


class Files(unittest.TestCase):
    def test_damaged_files(self):
        rng = random.Random(17)
        good = [C1, UP, *(data for _, data in accepted(18, 6))]
        good += [in_four_bytes(data) for data in good]
        good += [with_correlation(data, 250 * place % 1_250) for place, data in enumerate(good)]
        seen = Counter()
        for _ in range(6_000):
            data = bytearray(rng.choice(good))
            for _ in range(rng.randint(0, 2)):
                at = rng.choice([rng.randrange(len(data)), rng.randrange(-40, 0), rng.randrange(5)])
                data[at] = rng.choice([0, 1, 0x7F, 0x80, 0xFF, rng.randrange(256)])
            if rng.random() < 0.2:
                del data[rng.randrange(len(data)):]
            elif rng.random() < 0.1:
                data += bytes(rng.randint(1, 3))
            data = bytes(data)
            number = number_of(data)
            seen[number] += 1
            seen["four bytes"] += number == 0 and data[1] >= 0x80
            seen["correlation"] += number == 0 and data[0] == 1
            self.assertEqual(refusal(data), number, data.hex())
            if number:
                with self.assertRaises(Fault) as caught:
                    read(data)
                self.assertLessEqual(caught.exception.byte, len(data))
            else:
                self.assertEqual(write(read(data)), data)
        self.assertEqual(set(seen), {*range(13), "four bytes", "correlation"})
        self.assertGreater(min(seen[0], seen["four bytes"], seen["correlation"]), 100)

    def test_accepted_files(self):
        for case, data in accepted(19, 60):
            held = read(data)
            self.assertEqual((held.rate_bytes, held.days), (2, case.days))
            self.assertEqual((held.pension, held.bonds or []), (case.pension, case.bonds))
            self.assertEqual(held.amounts or dict.fromkeys(reference.AMOUNTS, 0), case.amounts)
            correlation = {"equity_correlation": 1_000 if held.equity_correlation is None else held.equity_correlation}
            self.assertEqual((4_200 if held.ufr is None else held.ufr, held.shocks | correlation),
                             (case.ufr, {"equity_correlation": 1_000} | case.shocks))
            self.assertEqual(list(held.people.values()), [case.heads, case.pension_age, case.mean_age])
            self.assertEqual(from_toml(to_toml(held)), held)
            self.assertEqual(write(from_toml(to_toml(held))), data)
            self.assertNotIn("rate_bytes", to_toml(held))
            self.assertIn("\n# rates to 0.001 %, in the days field of bit 1\n", to_toml(held))

    def test_accepted_files_of_four_bytes(self):
        """All of a file but the days as in two bytes; every hundredth of a step of the days there and back."""
        rng, finest = random.Random(23), set()
        for case, data in accepted(24, 60):
            whole, finer = in_four_bytes(data), in_four_bytes(data, lambda place: rng.randint(-99, 99))
            self.assertEqual(read(whole), replace(read(data), rate_bytes=4, days=[[100 * rate for rate in day] for day in case.days]))
            for file in (whole, *([finer] if refusal(finer) == 0 else [])):
                held = read(file)
                finest |= {rate % 100 for day in held.days for rate in day}
                self.assertEqual(write(held), file)
                self.assertEqual(from_toml(to_toml(held)), held)
                self.assertIn("\nrate_bytes = 4  # rates to 0.00001 %, in the days field of bit 7\n", to_toml(held))
        self.assertEqual(finest, set(range(100)))

    def test_longest_file(self):
        largest = read((ROOT / "cases" / "largest.case").read_bytes())
        for rate_bytes, length in ((2, 9_225), (4, 17_625)):
            case = replace(largest, rate_bytes=rate_bytes, equity_correlation=1_000)
            data = write(case)
            self.assertEqual((len(data), refusal(data + b"\0"), refusal(data[:-1])), (length, 2, 1))
            self.assertEqual(write(from_toml(to_toml(read(data)))), data)

    def test_shortest_file_of_four_bytes(self):
        case = replace(read(C1_FOUR), amounts=None)
        self.assertEqual((len(write(case)), write(case)[:2], read(write(case))), (280, b"\x00\xe4", case))

    def test_decode_of_every_value(self):
        """Each value of a share, of either correlation, of an age and of a duration, and values of rates, there and back."""
        case = read(UP)
        for value in range(1_001):
            shocks = {name: min(value, 500) if name == "duration" else value for name in case.shocks}
            people = {"heads": 1 + value, "pension_age": value, "mean_age": 1_200 - value}
            for rate_bytes, days in ((2, [[(7 * value + 11 * term) % 10_001 - 1_000 for term in range(60)]]),
                                     (4, [[(7_919 * value + term) % 1_000_001 - 100_000 for term in range(60)]])):
                if value % 20 or forwards_out_of_limits(days, DAYS_FIELDS[rate_bytes]):
                    days = [[value] * 60]
                changed = Case(rate_bytes, value, days, [value], None, None, shocks, people, 1_000 - value)
                self.assertEqual(from_toml(to_toml(changed)), changed)

    def test_which_byte(self):
        for number, at, wrong, _ in FAULTS:
            if wrong is None:
                continue
            data = bytearray(FULL_FILE)
            data[at:at + len(wrong)] = wrong
            with self.assertRaises(Fault) as caught:
                read(bytes(data))
            self.assertEqual((caught.exception.number, caught.exception.byte), (number, at))
        for data, number, byte in ((b"", 1, 0), (UP[:-1], 1, 494), (UP + b"ab", 2, 495), (b"\x40\x76" + C1[2:], 3, 0),
                                   (b"\x00\x74" + C1[2:], 3, 1), (C1[:2] + b"\x47" + C1[3:], 4, 2),
                                   (C1[:119] + b"\xfc\x17" + C1[121:], 5, 119), (STEEP, 6, 121)):
            with self.assertRaises(Fault) as caught:
                read(data)
            self.assertEqual((caught.exception.number, caught.exception.byte), (number, byte))

    def test_which_byte_in_four(self):
        """The days come behind the people; then 2, then 6."""
        count, first = len(UP_FOUR) - 721, len(UP_FOUR) - 720
        people = count - 8
        put = lambda data, at, new: data[:at] + new + data[at + len(new):]
        low, high = struct.pack(">i", -100_001), struct.pack(">i", 1_000_001)
        steep = struct.pack(">i", 900_000)  # at term 1 of one of three days, before rates near 0.2 %
        no_heads = put(UP_FOUR, people, bytes(4))
        for data, number, byte in (
                (put(UP_FOUR, 1, b"\xff"), 3, 1), (put(UP_FOUR, 1, b"\x7d"), 3, 1), (put(UP_FOUR, 0, b"\x02"), 3, 0),
                (UP_FOUR[:count], 1, count), (put(UP_FOUR, count, b"\0"), 4, count), (put(UP_FOUR, count, b"\x47"), 4, count),
                (put(UP_FOUR, count, b"\x04"), 1, len(UP_FOUR)), (put(UP_FOUR, count, b"\x02"), 2, count + 481),
                (put(UP_FOUR, first, low), 5, first), (put(UP_FOUR, first + 716, high), 5, first + 716),
                (put(UP_FOUR, first + 4, b"\x80\0\0\0"), 5, first + 4), (put(UP_FOUR, first, low) + b"\0", 5, first),
                (put(UP_FOUR, first, low)[:-1], 1, len(UP_FOUR) - 1), (put(no_heads, first, low), 12, people),
                (no_heads[:count], 12, people), (put(no_heads, count, b"\0"), 12, people),
                (put(UP_FOUR, 2, b"\xff") + b"\0", 9, 2), (put(UP_FOUR, first, steep * 60), 0, None),
                (put(UP_FOUR, first, steep), 6, first + 4), (put(UP_FOUR, first, steep) + b"\0", 2, len(UP_FOUR))):
            with self.subTest(number=number, byte=byte):
                self.assertEqual(refusal(data), number)
                if number:
                    with self.assertRaises(Fault) as caught:
                        read(data)
                    self.assertEqual(caught.exception.byte, byte)
        for cut in range(len(C1_FOUR)):
            self.assertEqual(refusal(C1_FOUR[:cut]), 1)

    def test_which_byte_of_the_correlation(self):
        """It comes behind the people, and behind the four-byte days; then 2, then 6."""
        for data, people in ((C1, len(C1) - 8), (C1_FOUR, len(C1_FOUR) - 249)):
            at, above = len(data), with_correlation(data, 1_001)
            no_heads = above[:people] + bytes(4) + above[people + 4:]
            for wrong, number, byte in (
                    (above, 11, at), (with_correlation(data, 65_535), 11, at), (with_correlation(data, 1_000)[:-1], 1, at + 1),
                    (above[:-1], 1, at + 1), (above[:-2], 1, at), (with_correlation(data, 1_000) + b"\0", 2, at + 2),
                    (above + b"\0", 11, at), (no_heads, 12, people), (b"\3" + above[1:], 3, 0), (b"\x81" + above[1:], 3, 0),
                    (b"\0" + above[1:], 2, at)):
                with self.subTest(number=number, byte=byte), self.assertRaises(Fault) as caught:
                    read(wrong)
                self.assertEqual((caught.exception.number, caught.exception.byte), (number, byte))
        steep = with_rates(C1_FOUR, [0] + [600_001] * 59)
        high = with_rates(C1_FOUR, [1_000_001] * 60)
        for data, correlation, number in ((STEEP, 1_001, 11), (STEEP, 1_000, 6), (steep, 1_001, 11), (steep, 0, 6), (high, 1_001, 5)):
            self.assertEqual(refusal(with_correlation(data, correlation)), number)

    def test_every_correlation(self):
        """Each within its limits, as the last field of either form; a file that holds 1,000 keeps it."""
        for data in (C1, C1_FOUR):
            for correlation in range(1_001):
                file = with_correlation(data, correlation)
                case = replace(read(data), equity_correlation=correlation)
                self.assertEqual((read(file), write(case)), (case, file))
            self.assertIsNone(read(data).equity_correlation)

    def test_limits_in_four_bytes(self):
        for rates, number in (([-100_000] * 60, 0), ([1_000_000] * 60, 0), ([-100_001] * 60, 5), ([1_000_001] * 60, 5),
                              ([0] + [600_000] * 59, 0), ([-1] + [600_000] * 59, 6), ([0] + [-100_000] * 59, 0),
                              ([1] + [-100_000] * 59, 6)):
            self.assertEqual(refusal(with_rates(C1_FOUR, rates)), number, rates[:2])

    def test_forward_rates(self):
        """The shown rate is exact, or never looks like a limit that it exceeds."""
        for days in ([[0] + [6_000] * 59], [[0] + [-1_000] * 59]):  # exactly 12 % and -2 %
            self.assertEqual(forwards_out_of_limits(days, TWO), [])
        [found] = forwards_out_of_limits([[1] + [-1_000] * 59], TWO)
        self.assertIn("from year 1 to year 2 is -2.001 %; it must be -2 % to 12 %", str(found))
        [found] = forwards_out_of_limits([[0] + [6_001] * 59], TWO)
        self.assertIn("from year 1 to year 2 is 12.002 %; it must be -2 % to 12 %", str(found))
        [found] = forwards_out_of_limits([[-1] + [600_000] * 59] * 7, FOUR)
        self.assertIn("from year 1 to year 2 is 12.00001 %; it must be -2 % to 12 %", str(found))
        self.assertIn("2 × s(2) - 1 × s(1) is 8,400,007 hundredths of a step; it must be -1,400,000 to 8,400,000, for n = 7", str(found))
        for n in range(1, 71):
            for growth in (12_000 * n + 1, 12_000 * n + n // 2 + 1, -2_000 * n - 1):
                shown = self.shown(Forward(7, growth, n, TWO))
                self.assertFalse(-2 <= float(shown.removeprefix("about ")) <= 12, (n, growth, shown))
                self.assertEqual(shown.startswith("about "), 1_000 * growth % n != 0)
            for growth in (1_200_000 * n + 1, 1_200_000 * n + 101, -200_000 * n - 1):
                shown = self.shown(Forward(7, growth, n, FOUR))
                self.assertFalse(-2 <= float(shown.removeprefix("about ")) <= 12, (n, growth, shown))

    def shown(self, forward):
        return str(forward).split(" is ")[1].split(" %")[0]


class Explained(unittest.TestCase):
    def test_every_byte_once(self):
        for data in (C1, UP, C1_FOUR, UP_FOUR, with_correlation(C1, 0), with_correlation(UP_FOUR, 1_000),
                     *(data for _, data in accepted(20, 10))):
            text, good = explain(data)
            self.assertTrue(good and text.endswith(f"\naccepted: {len(data):,} bytes\n"))
            reader = Reader(data)
            reader.whole_case()
            at = 0
            for part in reader.parts:
                self.assertEqual(part.byte, at)
                at += part.length
            self.assertEqual(at, len(data))

    def test_words(self):
        text = explain(UP)[0]
        for words in ("map 0x007f: UFR, days, pension flows, bond flows, amounts, shocks, people\n", "       1  days: 3\n",
                      "     120  day 1, in steps: 206 225 ", "heads: 1,237", "ufr: 4,321 steps, 4.321 %",
                      "mature_fall: 251 thousandths, 25.1 %",
                      "duration: 73 tenths of a year, 7.3 years", "mean_age: 541 months, 45 years 1 month"):
            self.assertIn(words, text)
        self.assertIn("UFR absent: 4.2 %", explain(C1)[0])
        text, good = explain(STEEP)
        self.assertFalse(good)
        self.assertIn("refused, 6, at byte 121: the one-year forward rate from year 59 to year 60 is 15.36 %; "
                      "it must be -2 % to 12 %: ", text)
        self.assertIn("60 × s(60) - 59 × s(59) is 15,360 steps; it must be -2,000 to 12,000, for n = 1", text)

    def test_words_of_four_bytes(self):
        text = explain(UP_FOUR)[0]
        for words in ("map 0x00fd: UFR, pension flows, bond flows, amounts, shocks, people, days in four bytes\n",
                      "       1  days in four bytes: 3\n", "     240  day 1, in hundredths of a step: 20600 22537 ",
                      "ufr: 4,321 steps, 4.321 %"):
            self.assertIn(words, text)
        for data, sentence in (
                (with_rates(C1_FOUR, [1_000_001] * 60), "refused, 5, at byte 104: the rate of term 1 of day 1 is 1,000,001 hundredths of "
                                                        "a step, 10.00001 %; it must be -100,000 to 1,000,000 hundredths of a step"),
                (b"\x00\xf6" + C1[2:], "refused, 3, at byte 1: bits 1 and 7 of the map, days and days in four bytes, both stand; "
                                       "exactly one of them must stand"),
                (b"\x00\x74" + C1[2:], "are both missing; exactly one of them must stand"),
                (b"\x00\x72" + C1[2:], "bit 2 of the map, pension flows, is missing; bits 2, 5 and 6 must stand"),
                (b"\x02\x76" + C1[2:], "refused, 3, at byte 0: bit 9 of the map stands; bits 9 to 15 must not")):
            text, good = explain(data)
            self.assertFalse(good)
            self.assertIn(sentence, text)

    def test_words_of_the_correlation(self):
        """Its place, its two bytes, thousandths and percent; S2 of the fund, as worked by hand, with and without it."""
        absent = "                equity correlation absent: 100 %, so that S2 is the sum of its losses\n"
        self.assertIn(absent, explain(C1)[0])
        for data, form in ((FUND, "people"), (FUND_FOUR, "people, days in four bytes")):
            text = explain(with_correlation(data, 500))[0]
            self.assertIn(f"shocks, {form}, equity correlation\n", text.replace("\n" + " " * 18, " "))
            self.assertIn(f"\n{len(data):6}       2  equity_correlation: 500 thousandths, 50 %\n", text)
            self.assertNotIn(absent, text)
            self.assertTrue(text.endswith("                S2 without relief, the sum of its losses: 25,640,000.00 euros\n"
                                          "                S2 with it: 21,382,004.70 to 21,382,004.71 euros\n\n"
                                          f"accepted: {len(data) + 2:,} bytes\n"), text[-400:])
            self.assertNotIn("relief", explain(with_correlation(data, 1_000))[0] + explain(data)[0])
        self.assertTrue(explain(with_correlation(C1, 999))[0].endswith(" losses: 0.00 euros\n                S2 with it: 0.00 euros\n\n"
                                                                       "accepted: 226 bytes\n"))
        for data, sentence in ((with_correlation(C1, 1_001), "refused, 11, at byte 224: equity_correlation is 1,001 thousandths, 100.1 %; "
                                                             "it must be 0 to 1,000 thousandths"),
                               (with_correlation(C1, 1_000)[:-1], "refused, 1, at byte 225: the file ends here, but its equity correlation "
                                                                  "would end with byte 225; ")):
            text, good = explain(data)
            self.assertFalse(good)
            self.assertIn(sentence, text)

    def test_general_sentences(self):
        """Each refusal has its specific sentence and then the general one of hosts/words.toml."""
        words = tomllib.loads((ROOT / "hosts" / "words.toml").read_text("utf-8"))
        sentences = {row["number"]: row["sentence"] for row in words["refusal"]}
        for number in range(1, 13):
            data = (ROOT / "cases" / f"refused_{number:02}.case").read_bytes()
            text, good = explain(data)
            *_, specific, general = text.splitlines()
            self.assertFalse(good)
            self.assertTrue(specific.startswith(f"refused, {number}, at byte "))
            self.assertEqual(general, f"refusal {number}: {sentences[number]}")


class CommandLine(unittest.TestCase):
    def run_tool(self, *words, given=b"", **more):
        run = subprocess.run([sys.executable, str(TOOL), *words], input=given, capture_output=True, **more)
        self.assertNotIn(b"Traceback", run.stderr)
        self.assertNotIn(b"Exception ignored", run.stderr)
        return run.returncode, run.stdout, run.stderr.decode()

    def shell(self, line, *words):
        """Runs the tool as "$@" in a line of shell; its status and standard error."""
        run = subprocess.run(["bash", "-c", line, "bash", sys.executable, str(TOOL), *map(str, words)],
                             capture_output=True)
        self.assertNotIn(b"Traceback", run.stderr)
        self.assertNotIn(b"Exception ignored", run.stderr)
        return run.returncode, run.stderr.decode()

    def test_there_and_back(self):
        status, text, said = self.run_tool("decode", "-", given=FUND)
        self.assertEqual((status, text.decode(), said), (0, to_toml(read(FUND)), ""))
        self.assertEqual(text.count(b"\n# rates to 0.001 %, in the days field of bit 1\n"), 1)
        self.assertEqual(self.run_tool("encode", "-", given=b"\xef\xbb\xbf" + text), (0, FUND, ""))
        self.assertEqual(self.run_tool("encode", "-", given=text.decode().encode("utf-16")), (0, FUND, ""))

    def test_four_bytes_there_and_back(self):
        """Only the key asks for four bytes, and without it no rate is rounded."""
        finer = in_four_bytes(FUND, lambda place: place % 100)
        status, text, said = self.run_tool("decode", "-", given=finer)
        self.assertEqual((status, said), (0, ""))
        self.assertEqual(self.run_tool("encode", "-", given=text), (0, finer, ""))
        form = b"rate_bytes = 4  # rates to 0.00001 %, in the days field of bit 7\n"
        self.assertEqual(text.count(form), 1)
        self.assertEqual(self.run_tool("encode", "-", given=text.replace(form, b"")), (1, b"", (
            "-: days.rates, term 2 of day 1, is 0.42901, which is no whole number of steps; the nearest are 0.429 % and 0.43 %; "
            "1,187 other rates have such decimals too; for rates to 0.00001 % write rate_bytes = 4 in [days], and the rates in % or bp\n")))

    def test_the_same_rates_in_either_form(self):
        """A text says the form: the same rates with and without the key are two files."""
        text = self.run_tool("decode", "-", given=FUND)[1]
        self.assertEqual(self.run_tool("encode", "-", given=text.replace(b"[days]", b"[days]\nrate_bytes = 2"))[:2], (0, FUND))
        status, data, said = self.run_tool("encode", "-", given=text.replace(b"[days]", b"[days]\nrate_bytes = 4"))
        self.assertEqual((status, data), (0, FUND_FOUR))
        self.assertEqual(said, "warning: the share of rates in days with a seventh decimal (0.00001 %) is 0 % of all on day 1, "
                               "below 50 % of all; did a spreadsheet cut off the decimals?\n")

    def test_the_seen_defect(self):
        """A fall as an actuary says it: bare it is refused, and in thousandths it is warned of."""
        text = to_toml(read(FUND))
        for fall, status, said in (('25', 1, '-: shocks.mature_fall is 25 without a unit; '
                                             'write it in % or thousandths, such as "25 %"\n'),
                                   ('"25 thousandths"', 0, "warning: shocks.mature_fall is 2.5 %, below 5 %; "
                                                           "was a percentage typed in thousandths?\n"),
                                   ('"25 %"', 0, "")):
            given = text.replace('mature_fall = "25 %"', f"mature_fall = {fall}")
            found = self.run_tool("encode", "-", given=given.encode())
            self.assertEqual((found[0], bool(found[1]), found[2]), (status, status == 0, said))

    def test_warnings_of_each_command(self):
        said = "".join(f"warning: {warning}\n" for warning in warnings_of(read(C1)))
        self.assertEqual(self.run_tool("decode", "-", given=C1), (0, to_toml(read(C1)).encode(), said))
        self.assertEqual(self.run_tool("explain", "-", given=C1), (0, explain(C1)[0].encode(), said))
        self.assertEqual(self.run_tool("encode", str(ROOT / "cases" / "c1.toml")), (0, C1, said))

    def test_months_there_and_back(self):
        rates = [5_400 - 25 * month for month in range(120)]
        text = months.to_csv(rates).encode()
        self.assertEqual(self.run_tool("encode-months", "-", given=text), (0, months.write(rates, 0), ""))
        for start in (0, 37, 119):
            data = months.write(rates, start)
            self.assertEqual(self.run_tool("encode-months", "-", "--start", str(start), given=text), (0, data, ""))
            self.assertEqual(self.run_tool("decode-months", "-", "--start", str(start), given=data), (0, text, ""))

    def test_months_of_one_unit(self):
        rates = [5_400 - 25 * month for month in range(120)]
        data, bare = months.write(rates, 0), "".join(f"{rate / 100_000:.5f}\n" for rate in rates).encode()
        self.assertEqual(self.run_tool("encode-months", "-", "--unit", "fraction", given=bare), (0, data, ""))
        self.assertEqual(self.run_tool("encode-months", "-", given=b"rate (fraction)\n" + bare), (0, data, ""))
        self.assertEqual(self.run_tool("encode-months", "-", "--unit", "%", given=b"rate (fraction)\n" + bare),
                         (1, b"", "-: line 1, cell 1, names the unit fraction, but --unit is %\n"))
        status, out, said = self.run_tool("encode-months", "-", given=bare)
        self.assertEqual((status, out, said.endswith('in the header over them, as in "rate (%)", or by --unit\n')), (1, b"", True))

    def test_a_refused_text(self):
        """A text that only refusal 6 is wrong with is refused as any other, and nothing is written."""
        text = to_toml(read(C1)).replace("0, 0,", "0, 9.9,", 1)
        status, out, said = self.run_tool("encode", "-", given=text.encode())
        self.assertEqual((status, out), (1, b""))
        self.assertTrue(said.startswith("-: days: refused, 6: the one-year forward rate from year "), said)

    def test_months_warned_of_or_refused(self):
        level = months.write([4_200] * 120, 0)
        said = "warning: the number of different months is 1, below 20; was one rate copied to all, or were decimals cut off?\n"
        self.assertEqual(self.run_tool("decode-months", "-", "--start", "5", given=level)[::2], (0, said))
        self.assertEqual(self.run_tool("encode-months", "-", given=b"4.2 %\n" * 120), (0, level, said))
        for words, given, said in ((["encode-months", "-"], b"4.2 %\n" * 119,
                                    "-: this has 119 months; it must have 120, a line a month\n"),
                                   (["encode-months", "-", "--start", "120"], b"4.2 %\n" * 120,
                                    "-: refused, 17: the start index is 120; it must be 0 to 119\n"),
                                   (["decode-months", "-", "--start", "-1"], level,
                                    "-: refused, 17: the start index is -1; it must be 0 to 119\n")):
            self.assertEqual(self.run_tool(*words, given=given), (1, b"", said))
        with tempfile.TemporaryDirectory() as folder:
            path = Path(folder, "a.months")
            path.write_bytes(level)
            found = self.run_tool("decode-months", str(path), "--start", "0", "-o", str(path))
            self.assertEqual((found[0], path.read_bytes()), (2, level))

    def test_refused(self):
        status, out, _ = self.run_tool("explain", os.devnull)
        self.assertEqual(status, 1)
        self.assertIn(b"refused, 1, at byte 0", out)
        status, out, said = self.run_tool("decode", os.devnull)
        self.assertEqual((status, out), (1, b""))
        self.assertIn("refused, 1", said)
        status, out, said = self.run_tool("encode", "-", given=b"\x80\x00garbage")
        self.assertEqual((status, out, said), (1, b"", "-: this is no TOML: it is no text in UTF-8 from byte 0 on\n"))

    def test_unreadable(self):
        for name in ("no such file", str(HERE), "/dev/zero"):
            for command in ("encode", "shorten"):
                self.assertEqual(self.run_tool(command, name)[:2], (2, b""), name)
        self.assertEqual(self.run_tool()[0], 2)
        self.assertEqual(self.shell('"$@" decode - <&-')[0], 2)

    def test_shorten_without_the_library(self):
        """hosts/python/tests has the tests with it."""
        environment = os.environ | {"GINGHAMOWL_LIBRARY": "/no/such/library.so"}
        with tempfile.TemporaryDirectory() as folder:
            status, out, said = self.run_tool("shorten", "-", "-o", str(Path(folder, "a.case")), given=FUND, env=environment)
            self.assertEqual((status, out, said.count("\n"), os.listdir(folder)), (2, b"", 1, []))
        self.assertRegex(said, r"^-: the engine's shared library can't be loaded \(.*\); hosts/build makes it")
        self.assertEqual(self.run_tool("encode", "-", given=to_toml(read(FUND)).encode(), env=environment), (0, FUND, ""))

    def test_wrong_calls(self):
        self.assertIn("a command is needed, one of encode, decode, explain, shorten, encode-months, decode-months\n",
                      self.run_tool()[2])
        for words in ((), ("shorten",), ("shorten", "a", "b"), ("lengthen", "a"), ("explain", "a", "-o", "b"),
                      ("encode", "a", "--start", "1"), ("encode-months", "a", "--start", "x"), ("decode-months", "a"),
                      ("decode-months", "a", "--start", "1.5"), ("decode-months", "a", "--start", "1", "--unit", "%"),
                      ("encode", "a", "--unit", "%")):
            status, out, said = self.run_tool(*words)
            self.assertEqual((status, out, said.startswith("usage: casefile")), (2, b"", True), words)

    def test_template_and_version(self):
        self.assertEqual(self.run_tool("--version"), (0, (ROOT / "VERSION").read_bytes(), ""))
        self.assertEqual(self.run_tool("--template"), (0, template().encode(), ""))

    def test_rules(self):
        """Every rule with what it measures, its thresholds and its question."""
        status, out, said = self.run_tool("--rules")
        lines = out.decode().splitlines()
        self.assertEqual((status, said, len(lines)), (0, "", 2 * len(RULES)))
        self.assertEqual(lines[::2], [rule.key for rule in RULES])
        self.assertIn("    below 10,000 euros a head or above 2,000,000 euros a head: were thousands of euros typed for euros?", lines)

    def test_explain_a_file_of_another_kind(self):
        status, out, said = self.run_tool("explain", ROOT / "cases" / "fund-days.csv")
        self.assertEqual((status, b"refusal 3: " in out), (1, True))
        self.assertIn("this looks like a CSV file, not like a case file", said)
        self.assertEqual(self.run_tool("explain", ROOT / "cases" / "refused_03.case")[::2], (1, ""))

    def test_lost_output(self):
        """Output that is lost is 2, and so are warnings that are lost."""
        sample = ROOT / "cases" / "fund.case"
        for line in ('"$@" >/dev/full', '"$@" >&-', '"$@" -o /dev/full'):
            self.assertEqual(self.shell(line, "decode", sample)[0], 2, line)
        nobody, pipe = os.pipe()
        os.close(nobody)  # as behind head, once it has its line
        run = subprocess.run([sys.executable, str(TOOL), "decode", str(sample)], stdout=pipe, stderr=subprocess.PIPE)
        os.close(pipe)
        self.assertEqual((run.returncode, run.stderr.count(b"\n")), (2, 1), run.stderr)
        self.assertEqual(self.shell('"$@" >/dev/full', "--help")[0], 2)
        self.assertEqual(self.shell('"$@" >/dev/null 2>&-', "decode", ROOT / "cases" / "c1.case")[0], 2)

    def test_output_that_is_an_input(self):
        """Neither the text nor a sheet that it names is written over, under no name."""
        with tempfile.TemporaryDirectory() as folder:
            for name in ("fund.toml", "fund-days.csv"):
                Path(folder, name).write_bytes((ROOT / "cases" / name).read_bytes())
                os.link(Path(folder, name), Path(folder, name + ".link"))
            before = {path.name: path.read_bytes() for path in Path(folder).iterdir()}
            for name in before:
                found = self.run_tool("encode", str(Path(folder, "fund.toml")), "-o", str(Path(folder, name)))
                self.assertEqual(found[:2], (2, b""), name)
                self.assertIn("is read for this, so it cannot be written too", found[2])
            self.assertEqual({path.name: path.read_bytes() for path in Path(folder).iterdir()}, before)

    def test_output_whole_or_not_at_all(self):
        with tempfile.TemporaryDirectory() as folder:
            text, out, link = Path(folder, "a.toml"), Path(folder, "a.case"), Path(folder, "link")
            text.write_text(template())
            self.assertEqual(self.run_tool("encode", str(text), "-o", str(out))[:2], (1, b""))
            self.assertEqual(os.listdir(folder), ["a.toml"])
            text.write_text(to_toml(read(FUND)))
            self.assertEqual(self.run_tool("encode", str(text), "-o", str(out)), (0, b"", ""))
            self.assertEqual(out.read_bytes(), FUND)
            out.chmod(0o640)
            link.symlink_to("a.case")
            text.write_text(to_toml(read(UP)))
            self.assertEqual(self.run_tool("encode", str(text), "-o", str(link))[0], 0)
            self.assertEqual((out.read_bytes(), out.stat().st_mode & 0o777, link.is_symlink()), (UP, 0o640, True))
            text.write_text("ufr = 1")
            self.assertEqual(self.run_tool("encode", str(text), "-o", str(out))[0], 1)
            self.assertEqual(out.read_bytes(), UP)
            self.assertEqual(self.run_tool("decode", str(out), "-o", str(out))[0], 2)
            self.assertEqual(self.run_tool("decode", str(out), "-o", folder)[0], 2)
            self.assertEqual(self.run_tool("decode", str(out), "-o", str(Path(folder, "none", "b")))[0], 2)
            self.assertEqual(self.run_tool("decode", str(out), "-o", str(text)), (0, b"", ""))
            self.assertEqual(text.read_text("utf-8"), to_toml(read(UP)))
            self.assertEqual(sorted(os.listdir(folder)), ["a.case", "a.toml", "link"])

    def test_failed_replacement(self):
        """A result that cannot take its place leaves the old one, and no temporary file."""
        loader = SourceFileLoader("casefile", str(TOOL))  # the tool is a command without a suffix
        casefile = module_from_spec(spec_from_loader("casefile", loader))
        loader.exec_module(casefile)
        with tempfile.TemporaryDirectory() as folder:
            out = Path(folder, "a.case")
            out.write_bytes(UP)
            for step in ("os.replace", "os.fchmod"):
                with mock.patch(step, side_effect=OSError("no")), self.assertRaises(casefile.Unusable):
                    casefile.write_output(str(out), FUND)
                self.assertEqual((os.listdir(folder), out.read_bytes()), (["a.case"], UP))


if __name__ == "__main__":
    unittest.main()
