"""The package osek on document 01's listing, on every refusal, and on drawn cases with the answers of the Rust version.

OSEK_CASES names the file of drawn cases that tests/tests/python.rs writes, a line each: configuration, trace, result and
output of the run, count and list of the misses, all but the numbers in hexadecimal, - for nothing.
"""

import os
import re
import subprocess
import sys
import unittest
from pathlib import Path

import osek

CONFIG = bytes.fromhex("0103 000201 000500 010900 01 03 01 0402 0001 0200")
TRACE = bytes.fromhex("080001 0400 06 0702 0301 02 02 0500 06 06 02 02 06 06 0900 02 02")

LISTING = """\
0 8 0 0 2 0
1 4 0 0 5 0
2 6 0 0 5 0
3 7 0 2 9 1
4 3 2 2 9 0
5 2 0 0 5 0
6 2 6 0 5 0
7 5 0 1 5 1
8 6 0 1 5 0
9 6 0 1 5 0
10 2 0 0 2 0
11 2 0 - 0 0
12 6 0 - 0 0
13 6 0 1 5 1
14 9 0 1 5 0
15 2 0 - 0 0
16 2 2 - 0 0
"""


# Task 0 (priority 1) runs; time-triggered tasks 1 and 2, at offsets 0 and 1 of a table of period 5.
ROUND = bytes.fromhex("0103 000101 030200 030300 00 01 0502 0001 0102")


# CONFIG in version 3: task 0 has the deadline 2, task 1 the deadline 1.
DEADLINES = bytes.fromhex("0303 00020102 00050001 01090000 01 03 01 0402 0001 0200")


def config_with(place, byte, config=CONFIG):
    changed = bytearray(config)
    changed[place] = byte
    return bytes(changed)


# Five tables of 16 entries: the fifth takes the total over 64.
MANY = bytes([1, 1, 0, 1, 1, 0, 5]) + 5 * (bytes([16, 16]) + bytes(b for offset in range(16) for b in (offset, 0)))

REFUSED = [
    (b"", b"", 1, 0),
    (b"\x81\x00", b"", 2, 1),
    (config_with(0, 4), b"", 3, 0),
    (config_with(1, 33), b"", 4, 1),
    (config_with(2, 4), b"", 5, 2),
    (config_with(6, 2), b"", 6, 6),
    (config_with(18, 0), b"", 7, 19),
    (MANY, b"", 8, 144),
    (CONFIG + b"\x00", b"", 9, 20),
    (4097 * b"\x01", b"", 10, 0),
    (config_with(17, 0, ROUND), b"", 13, 18),
    (config_with(18, 0, ROUND), b"", 14, 18),
    (CONFIG, 8193 * b"\x06", 20, 0),
    (CONFIG, b"\x06\x01", 21, 2),
    (CONFIG, b"\x06\x01\x80\x00", 22, 3),
    (CONFIG, b"\x06\x0d", 23, 1),
]

# OIL texts with their refusal, line and column.
REFUSED_TEXTS = [
    (b"", 4, 0, 0),
    (b"TASK a { PRIORITY = 201; };", 5, 0, 0),
    (b"TASK a { PRIORITY = 1; }; ISR b { PRIORITY = 1; };", 6, 0, 0),
    (b"TASK a {\n  PRIORITY # 1; };", 60, 2, 12),
    (b"TASK a { };", 61, 1, 10),
    (b"TASK a { SPEED = 1; };", 62, 1, 10),
    (b"TASK a { PRIORITY = 1; };\nRESOURCE a { };", 63, 2, 10),
    (b"TASK a { PRIORITY = 1; RESOURCE = r; };", 64, 1, 35),
]

# Task 0 runs; it takes the resource and makes task 1 ready; a configuration with time-triggered tasks.
REFUSED_WAITS = [
    (CONFIG, b"", 0, 31),
    (CONFIG, b"\x04\x00\x01\x01", 1, 32),
    (CONFIG, b"", 3, 34),
    (ROUND, b"", 9, 35),
]


# Start value, weights, limits, count, and the refusal.
REFUSED_DRAWS = [
    (0, [1] * 12, [1] * 4, 1, 50),
    (1, [0] * 12, [1] * 4, 1, 51),
    (1, [1] * 12, [1, 1, 1, 0], 1, 51),
    (1, [1] * 12, [1] * 4, 2**32 - 1, 20),
]


class OsekTest(unittest.TestCase):
    def test_the_listing(self):
        answers, losses = osek.run(CONFIG, TRACE)
        rows = [row.split()[2:] for row in LISTING.splitlines()]
        shown = [[str(a.status), "-" if a.runner is None else str(a.runner), str(a.level), str(int(a.begun))] for a in answers]
        self.assertEqual(shown, rows)
        self.assertEqual(losses, [1, 0, 0])

    def test_lost_lines_are_counted_from_version_2_on(self):
        # ISR 2 begins, one request more waits, two are refused.
        for config, lost in ((CONFIG, 0), (config_with(0, 2), 2), (DEADLINES, 2)):
            answers, losses = osek.run(config, b"\x07\x02\x07\x02\x07\x02\x07\x02")
            self.assertEqual([answer.status for answer in answers], [0, 0, 4, 4])
            self.assertEqual(losses, [0, 0, lost])

    def test_a_task_waits_until_its_bit_is_set(self):
        # Extended task 0 (priority 2) waits for bit 7; ISR 1 (5) sets it and ends.
        answers, _ = osek.run(bytes.fromhex("0102 020201 010500 00 00"), bytes.fromhex("0a8001 0701 0b008001 02"))
        self.assertEqual(answers, [(0, None, 0, False), (0, 1, 5, True), (0, 1, 5, False), (0, 0, 2, False)])

    def test_time_triggered_tasks_preempt_in_the_order_of_their_starts(self):
        # Start 0, 1; two ticks; Activate 0, which task 2 may not call; two ends.
        answers, losses = osek.run(ROUND, bytes.fromhex("080001 06 06 0100 02 02"))
        expected = [(0, 0, 1, False), (0, 1, 201, True), (0, 2, 201, True), (2, 2, 201, False), (0, 1, 201, False), (0, 0, 1, False)]
        self.assertEqual(answers, expected)
        self.assertEqual(losses, [0, 0, 0])

    def test_an_empty_trace_has_no_answers(self):
        self.assertEqual(osek.run(CONFIG, b""), ([], [0, 0, 0]))

    def test_every_refusal_with_its_place_and_words(self):
        for config, trace, code, place in REFUSED:
            with self.subTest(code=code), self.assertRaises(osek.Refused) as raised:
                osek.run(config, trace)
            refused = raised.exception
            self.assertEqual((refused.code, refused.place, refused.words), (code, place, osek.REFUSALS[code]))
        out = bytearray(73)
        self.assertEqual(osek.osek_run(CONFIG, TRACE, out), 30 << 32 | 74)
        self.assertEqual(out, bytes(73))
        texts = {code for _, code, _, _ in REFUSED_TEXTS}
        draws = {code for *_, code in REFUSED_DRAWS}
        waits = {code for _, _, _, code in REFUSED_WAITS}
        self.assertEqual({code for _, _, code, _ in REFUSED} | {30, 70} | texts | draws | waits, set(osek.REFUSALS))

    def test_how_long_a_body_waits_to_begin(self):
        # ISR 2 runs, is requested again, and goes before task 1, twice.
        self.assertEqual(osek.wait(CONFIG, b"\x07\x02\x07\x02", 2), 1)
        self.assertEqual(osek.wait(CONFIG, bytes.fromhex("0702 0101 0702"), 1), 2)
        for config, trace, body, code in REFUSED_WAITS:
            with self.subTest(code=code), self.assertRaises(osek.Refused) as raised:
                osek.wait(config, trace, body)
            refused = raised.exception
            self.assertEqual((refused.code, refused.place, refused.words), (code, 0, osek.REFUSALS[code]))
        with self.assertRaises(osek.Refused) as raised:
            osek.wait(CONFIG, b"\x06\x0d", 9)
        self.assertEqual((raised.exception.code, raised.exception.place), (23, 1))
        for wrong in (-1, 1 << 32):
            self.assertRaises(ValueError, osek.wait, CONFIG, b"", wrong)

    def test_the_first_64_misses_and_the_count_of_all(self):
        # Task 0 runs and is due at tick 2; an entry makes task 1 ready at tick 1, due at tick 2.
        self.assertEqual(osek.misses(DEADLINES, bytes.fromhex("080001 06 06")), (2, [(2, 0), (2, 1)]))
        # Task 1 ends in time.
        self.assertEqual(osek.misses(DEADLINES, bytes.fromhex("080001 06 02 06 06")), (1, [(2, 0)]))
        # A task with the deadline 1 misses at every tick, and chains to itself.
        one = bytes.fromhex("0301 00010101 00 00")
        for times in (64, 65, 300):
            expected = [(tick, 0) for tick in range(1, 65)]
            self.assertEqual(osek.misses(one, times * b"\x06\x03\x00"), (times, expected))
        # Tick 300 is two bytes.
        late = bytes.fromhex("0301 000101ac02 00 00")
        self.assertEqual(osek.misses(late, 300 * b"\x06"), (1, [(300, 0)]))
        # Versions 1 and 2 have no deadlines.
        for version in (1, 2):
            self.assertEqual(osek.misses(config_with(0, version), TRACE), (0, []))

    def test_misses_are_refused_as_the_run_is_then_with_the_bytes_needed(self):
        for config, trace, code, place in REFUSED:
            with self.subTest(code=code), self.assertRaises(osek.Refused) as raised:
                osek.misses(config, trace)
            self.assertEqual((raised.exception.code, raised.exception.place), (code, place))
        first = bytearray(b"\x4d" * 5)
        self.assertEqual(osek.osek_misses(DEADLINES, bytes.fromhex("080001 06 06"), first), 30 << 32 | 6)
        self.assertEqual(first, b"\x4d" * 5)

    def test_an_oil_text_is_read_or_refused_at_its_place(self):
        text = b"ISR wake { PRIORITY = 9; }; // first\nTASK log { AUTOSTART = TRUE; PRIORITY = 2; RESOURCE = r; }; RESOURCE r { };"
        self.assertEqual(osek.oil(text), bytes.fromhex("0102 010900 000201 01 02 00"))
        for text, code, line, column in REFUSED_TEXTS:
            with self.subTest(text=text), self.assertRaises(osek.RefusedText) as raised:
                osek.oil(text)
            refused = raised.exception
            self.assertEqual((refused.code, refused.line, refused.column), (code, line, column))
            self.assertEqual(refused.words, osek.REFUSALS[code])

    def test_a_damaged_trace_is_salvaged(self):
        # Get 0; FF; 200 times 00; Tick; Start 0 without its delay.
        damaged = b"\x04\x00\xff" + bytes(200) + b"\x06\x08\x00"
        self.assertEqual(osek.salvage(damaged), (b"\x04\x00\x06", [(2, 201), (204, 2)]))
        self.assertEqual(osek.salvage(TRACE), (TRACE, []))
        with self.assertRaises(osek.Refused) as raised:
            osek.salvage(bytes(8193))
        self.assertEqual((raised.exception.code, raised.exception.place), (20, 0))

    def test_a_trace_is_drawn(self):
        trace = bytes.fromhex("080000 0704 0304 06 0cb9fcbcf109 06 0aa6f9a7e10a 0101")
        self.assertEqual(osek.draw(2463534242, [1] * 12, [5, 3, 2, 100], 8), trace)
        self.assertEqual(osek.draw(1, [1] * 12, [1] * 4, 0), b"")
        for start, weights, limits, count, code in REFUSED_DRAWS:
            with self.subTest(code=code), self.assertRaises(osek.Refused) as raised:
                osek.draw(start, weights, limits, count)
            self.assertEqual((raised.exception.code, raised.exception.place), (code, 0))
            self.assertEqual(raised.exception.words, osek.REFUSALS[code])
        for wrong in ((1, [65536] * 12, [1] * 4, 1), (1, [1] * 11, [1] * 4, 1), (1, [1] * 12, [-1] * 4, 1), (2**32, [1] * 12, [1] * 4, 1)):
            with self.subTest(wrong=wrong), self.assertRaises(ValueError):
                osek.draw(*wrong)


    def test_a_record_passes_fails_at_an_event_or_is_refused(self):
        rows = [row.split()[2:] for row in LISTING.splitlines()]
        record = bytes(255 if field == "-" else int(field) for row in rows for field in row)
        self.assertIsNone(osek.verdict(CONFIG, TRACE, record))
        for at in range(len(record)):
            wrong = record[:at] + bytes([record[at] ^ 1]) + record[at + 1 :]
            self.assertEqual(osek.verdict(CONFIG, TRACE, wrong), at // 4)
        self.assertEqual(osek.verdict(CONFIG, TRACE, record[:-4]), 16)
        for config, recorded, code in ((CONFIG, record[:-1], 70), (CONFIG, record + bytes(4), 70), (b"", b"", 1)):
            with self.assertRaises(osek.Refused) as raised:
                osek.verdict(config, TRACE, recorded)
            refused = raised.exception
            self.assertEqual((refused.code, refused.place, refused.words), (code, 0, osek.REFUSALS[code]))

    def test_only_bytes_are_taken(self):
        for wrong in (7, "text", None):
            self.assertRaises(TypeError, osek.run, CONFIG, wrong)
            self.assertRaises(TypeError, osek.salvage, wrong)
            self.assertRaises(TypeError, osek.oil, wrong)
            self.assertRaises(TypeError, osek.wait, CONFIG, wrong, 0)
            self.assertRaises(TypeError, osek.misses, CONFIG, wrong)
            self.assertRaises(TypeError, osek.verdict, CONFIG, TRACE, wrong)
        self.assertEqual(osek.run(bytearray(CONFIG), memoryview(TRACE)), osek.run(CONFIG, TRACE))

    @unittest.skipUnless("OSEK_CASES" in os.environ, "OSEK_CASES names no file")
    def test_drawn_cases_give_the_answers_of_the_rust_version(self):
        with open(os.environ["OSEK_CASES"], encoding="ascii") as lines:
            cases = [line.split() for line in lines]
        self.assertGreaterEqual(len(cases), 1000)
        for config, trace, result, expected, *_ in cases:
            config, trace, expected = ["" if word == "-" else word for word in (config, trace, expected)]
            code, low = divmod(int(result), 1 << 32)
            try:
                run = osek.run(bytes.fromhex(config), bytes.fromhex(trace))
            except osek.Refused as refused:
                self.assertEqual((refused.code, refused.place), (code, low))
                continue
            self.assertEqual((0, len(run.answers)), (code, low))
            shown = bytes(b for a in run.answers for b in (a.status, 255 if a.runner is None else a.runner, a.level, a.begun))
            shown += b"".join(loss.to_bytes(2, "little") for loss in run.losses)
            self.assertEqual(shown.hex(), expected)


    @unittest.skipUnless("OSEK_CASES" in os.environ, "OSEK_CASES names no file")
    def test_drawn_cases_give_the_misses_of_the_rust_version(self):
        missed = 0
        for line in open(os.environ["OSEK_CASES"], encoding="ascii"):
            config, trace, count, expected = ["" if word == "-" else word for word in (*line.split()[:2], *line.split()[4:])]
            code, low = divmod(int(count), 1 << 32)
            try:
                misses = osek.misses(bytes.fromhex(config), bytes.fromhex(trace))
            except osek.Refused as refused:
                self.assertEqual((refused.code, refused.place), (code, low))
                continue
            self.assertEqual((0, misses.count), (code, low))
            shown = b"".join(miss.tick.to_bytes(2, "little") + bytes([miss.task]) for miss in misses.first)
            self.assertEqual(shown.hex(), expected)
            missed += bool(misses.count)
        self.assertGreater(missed, 20)


HEADER = Path(__file__).resolve().parent.parent / "include" / "osek.h"


class Names(unittest.TestCase):
    """The numbers with their names are the header's."""

    def test_every_number_of_the_header_has_its_name(self):
        text = HEADER.read_text()
        known = {"EVENT_": osek.EventCode, "E_": osek.Status}
        known.update({prefix: osek.Refusal for prefix in ("CONFIG_", "TRACE_", "OUTPUT_", "WAIT_", "DRAW_", "OIL_", "RECORD_")})
        found = 0
        for name, value in re.findall(r"^ +OSEK_(\w+) = (\d+)", text, re.MULTILINE):
            prefix = max((p for p in known if name.startswith(p)), key=len, default=None)
            if prefix is None:
                continue
            members = known[prefix]
            name = name[len(prefix) :] if members is osek.EventCode else name
            self.assertEqual(members[name], int(value), name)
            found += 1
        self.assertGreaterEqual(found, 51)
        self.assertEqual(set(osek.ARGUMENTS), set(osek.EventCode))

    def test_every_refusal_has_words(self):
        self.assertLessEqual({int(code) for code in osek.Refusal}, set(osek.REFUSALS))

    def test_the_version_is_the_header_s(self):
        self.assertIn(f'#define OSEK_VERSION "{osek.__version__}"', HEADER.read_text())

    def test_a_missing_library_names_what_to_do(self):
        environment = {**os.environ, "OSEK_LIBRARY": "/no/such/libosek.so"}
        done = subprocess.run([sys.executable, "-c", "import osek"], env=environment, capture_output=True, text=True)
        self.assertIn("ImportError: the library /no/such/libosek.so can't be loaded", done.stderr)
        self.assertIn("run `make lib` in the clone, or name it in OSEK_LIBRARY", done.stderr)


class Values(unittest.TestCase):
    """Configurations and traces as values."""

    def test_document_01_as_values(self):
        config = osek.Configuration(
            bodies=[osek.Body(osek.Kind.TASK, 2, 1), osek.Body(osek.Kind.TASK, 5), osek.Body(osek.Kind.ISR, 9)],
            resources=[{0, 1}],
            tables=[osek.Table(4, [osek.Entry(0, 1), osek.Entry(2, 0)])],
        )
        self.assertEqual(config.encode(), CONFIG)
        code = osek.EventCode
        events = [osek.Event(code.START, (0, 1)), osek.Event(code.GET, (0,)), osek.Event(code.TICK)]
        self.assertEqual(osek.encode_trace(events), TRACE[:6])
        self.assertEqual(osek.decode_trace(TRACE)[:3], events)
        self.assertEqual(str(events[0]), "Start 0 1")
        self.assertEqual(osek.Configuration.decode(CONFIG).tables[0].entries, ((0, 1), (2, 0)))
        self.assertEqual(osek.run(CONFIG, TRACE).answers[4].status, osek.Status.E_OS_CALLEVEL)

    def test_deadlines_as_values(self):
        bodies = [osek.Body(osek.Kind.TASK, 2, 1, 2), osek.Body(osek.Kind.TASK, 5, deadline=1), osek.Body(osek.Kind.ISR, 9)]
        tables = [osek.Table(4, [osek.Entry(0, 1), osek.Entry(2, 0)])]
        self.assertEqual(osek.Configuration(bodies, [{0, 1}], tables, version=3).encode(), DEADLINES)
        self.assertEqual([body.deadline for body in osek.Configuration.decode(DEADLINES).bodies], [2, 1, 0])
        self.assertEqual([body.deadline for body in osek.Configuration.decode(CONFIG).bodies], [0, 0, 0])
        for version in (1, 2):
            self.assertRaises(ValueError, osek.Configuration(bodies, version=version).encode)

    def test_numbers_have_their_shortest_form(self):
        for value, data in ((0, "00"), (127, "7f"), (128, "8001"), (4_294_967_295, "ffffffff0f")):
            self.assertEqual(osek.encode_number(value).hex(), data)
            self.assertEqual(list(osek.decode_numbers(bytes.fromhex(data))), [value])
        for value in (-1, 4_294_967_296):
            self.assertRaises(ValueError, osek.encode_number, value)

    def test_what_can_not_be_read_is_refused(self):
        self.assertRaises(osek.Refused, osek.Configuration.decode, b"\x07")
        self.assertRaises(osek.Refused, osek.decode_trace, b"\x08")
        self.assertRaises(ValueError, osek.encode_trace, [osek.Event(osek.EventCode.TICK, (1,))])

    @unittest.skipUnless("OSEK_CASES" in os.environ, "OSEK_CASES names no file of drawn cases")
    def test_drawn_files_that_are_accepted_come_back(self):
        seen = 0
        for line in open(os.environ["OSEK_CASES"]):
            config, trace = (bytes.fromhex("" if word == "-" else word) for word in line.split()[:2])
            try:
                values, events = osek.Configuration.decode(config), osek.decode_trace(trace)
            except osek.Refused:
                continue
            self.assertEqual((values.encode(), osek.encode_trace(events)), (config, trace))
            seen += 1
        self.assertGreater(seen, 300)


if __name__ == "__main__":
    unittest.main()
