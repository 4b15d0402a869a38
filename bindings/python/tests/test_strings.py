"""Strings of the line protocol: the expected texts follow docs/PROTOCOL.md, 'Lines'."""
import unittest

from owlantimony import quote, unquote
from owlantimony.strings import pieces_of, slice_of, units


class Quoting(unittest.TestCase):
    PAIRS = [
        ("", '""'),
        ("plain text ~ !", '"plain text ~ !"'),
        ('say "so" \\ ', r'"say \"so\" \\ "'),
        ("\u00e9", r'"\u00e9"'),
        ("\n\t\x00\x7f", r'"\u000a\u0009\u0000\u007f"'),
        ("\U0001f600", r'"\ud83d\ude00"'),
        ("\ud800", r'"\ud800"'),
        ("\udc00\ud800x", r'"\udc00\ud800x"'),
    ]

    def test_strings_are_quoted_and_come_back(self):
        for text, quoted in self.PAIRS:
            with self.subTest(quoted):
                self.assertEqual(quote(text), quoted)
                self.assertEqual(unquote(quoted), text)

    def test_upper_case_digits_and_escapes_that_need_not_be_are_read(self):
        self.assertEqual(unquote(r'"\u00E9\u0041"'), "\u00e9A")

    def test_two_surrogates_that_make_a_pair_are_joined(self):
        self.assertEqual(unquote(quote("\ud83d" + "\ude00")), "\U0001f600")

    def test_what_is_no_string_is_refused(self):
        for text in ("", '"', "a", '"a', '"a"b"', r'"\x"', r'"\u12"', '"\u00e9"', r'"\u00"'):
            self.assertRaises(ValueError, unquote, text)


class Units(unittest.TestCase):
    def test_lengths_count_code_units(self):
        self.assertEqual(units("a\U0001f600"), 3)
        self.assertEqual(units("abc"), 3)

    def test_a_pair_that_is_cut_leaves_lone_surrogates(self):
        self.assertEqual(slice_of("a\U0001f600b", 0, 2), "a\ud83d")
        self.assertEqual(slice_of("a\U0001f600b", 2, 4), "\ude00b")

    def test_pieces_have_ten_thousand_code_units_and_follow_one_another(self):
        text = "x\U0001f600\\\"\u00e9" * 5001
        pieces = [unquote(piece) for piece in pieces_of(text)]
        self.assertEqual([units(piece) for piece in pieces], [10_000, 10_000, 10_000, 6])
        joined = "".join(pieces).encode("utf-16-le", "surrogatepass").decode("utf-16-le")
        self.assertEqual(joined, text)
