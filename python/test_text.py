"""The text form from Python, by the bench tool, which OSEK_TOOL names."""

import unittest

from osek import text

TEXT = "version 1\ntask low priority 2 autostart\nisr door priority 9\n"
TRACE = "trace\nline door\nfinish\n"


class Text(unittest.TestCase):
    def test_a_text_gives_its_parts(self):
        config, trace = bytes.fromhex("0102 000201 010900 00 00"), bytes.fromhex("0701 02")
        self.assertEqual(text.assemble(TEXT), (config, None))
        self.assertEqual(text.assemble(TEXT + TRACE), (config, trace))
        self.assertEqual(text.assemble(TRACE, names_of=TEXT), (None, trace))

    def test_a_dump_reads_back(self):
        parts = text.assemble(TEXT + TRACE)
        shown = text.dump(*parts)
        self.assertIn("line isr1", shown)
        self.assertEqual(text.assemble(shown), parts)

    def test_a_wrong_text_says_where(self):
        with self.assertRaises(text.TextError) as wrong:
            text.assemble("version 1\ntask low priority fast\n")
        self.assertIn("text:2:19: expected the priority, a number, found `fast`", str(wrong.exception))


if __name__ == "__main__":
    unittest.main()
