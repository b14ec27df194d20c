"""Names as they are shown to people."""
import unittest

from pbaudit.shown import MOST, is_hidden, shown, visible

HIDDEN = ("\0\t\n\r\x1b\x7f\x85\x9b\xa0\xad\u034f\u061c\u115f\u1160\u17b4\u180b\u180c\u180d\u180e\u200b\u200c"
          "\u200d\u200e\u2028\u2029\u202a\u202e\u202f\u2060\u2066\u2069\u2800\u3000\u3164\ufe00\ufe0f\ufeff\uffa0\ufff9\ufffb\ue000\uffff"
          "\ud800\U0001d173\U0001d17a\U000e0001\U000e0020\U000e01ef\U00100000")
SEEN = "a Z0-_~'\"\\{}\u00fc\u0142\u00df\u0301\u4e2d\u05d0\U0001f600\u20ac\u2026"


class Names(unittest.TestCase):
    def test_what_is_hidden(self):
        self.assertEqual([letter for letter in HIDDEN if not is_hidden(letter)], [])
        self.assertEqual([letter for letter in SEEN if is_hidden(letter)], [])

    def test_how_it_is_shown(self):
        self.assertEqual(visible("a\u202edetroppus\u2028b \u00fc"), "a\\u{202e}detroppus\\u{2028}b \u00fc")
        self.assertEqual(visible("a\nb\tc\rd\ve\\n"), "a\\nb\\tc\\rd\\u{b}e\\n")
        self.assertEqual(visible("x" * 3 * MOST), "x" * 3 * MOST)
        self.assertEqual((shown("x" * MOST), shown("x" * MOST + "y")), ("x" * MOST, "x" * MOST + "\u2026"))
