"""The page that draws a journal: what is on it, that it is whole, and that it loads nothing."""
import os
import re
import unittest
import xml.etree.ElementTree

from tests import program
import journal as journals
import page


def example(name):
    return os.path.join(program.EXAMPLES, name)


def drawn(name):
    return page.page(journals.read_journal(example(f"{name}.journal.jsonl")), example(f"{name}.jsonl"))


class Drawn(unittest.TestCase):
    def test_each_turn_seat_and_brand_stands_there(self):
        text = drawn("english-auction")
        self.assertEqual(re.findall(r'id="t(\d+)"', text), [str(number) for number in range(1, 59)])
        self.assertEqual(text.count('<g class="seat">'), 6)
        for words in (
            ">sue<",
            ">instance0<",
            ">timer<",
            ">art<",
            ">dollar<",
            "150: seat4.Bid → seat0.Ask",
            "-4 exit, -0 exit",
            "seat1.Bid",
            "threw {least: 115}",
            "minted 1000, burned 0, purses 0, payments 900, slots 100",
        ):
            self.assertTrue(words in text, words)

    def test_it_loads_nothing(self):
        text = drawn("swap")
        self.assertEqual(re.findall(r'(?:src|href)="(?!#)[^"]*"', text), [])
        for word in ("url(", "@import", "http:", "https:", "<link", "<iframe"):
            self.assertNotIn(word, text)

    def test_the_pictures_are_well_formed(self):
        for name in ("swap", "hostile", "router", "kinds"):
            for picture in re.findall(r"<svg.*?</svg>", drawn(name), re.S):
                xml.etree.ElementTree.fromstring(picture)

    def test_what_parties_write_is_text(self):
        with open(example("first.journal.jsonl"), "rb") as file:
            data = file.read().replace(b'"moola"', b'"<b>&x"')
        text = page.page(journals.journal_of("j", data))
        self.assertNotIn("<b>&x", text)
        self.assertIn("&lt;b&gt;&amp;x", text)

    def test_seats_over_several_pieces(self):
        was, page.TURNS_IN_A_PIECE = page.TURNS_IN_A_PIECE, 10
        self.addCleanup(setattr, page, "TURNS_IN_A_PIECE", was)
        text = drawn("swap")
        self.assertEqual(text.count('<div class="piece"'), 4)
        self.assertEqual(text.count('<g class="seat">'), 5)  # of four seats, one stands in two pieces


class BadInput(unittest.TestCase):
    def test_a_journal_that_was_cut_is_drawn_as_far_as_it_goes(self):
        with open(example("swap.journal.jsonl"), "rb") as file:
            data = file.read()
        status, out, err = program.call_tool("page.py", "-", given=data[:6000])
        self.assertEqual((status, err.count("\n")), (2, 1))
        self.assertIn("isn't whole: it was cut within row", out)
        self.assertIn("</html>", out)

    def test_what_is_no_journal(self):
        for data in (b"", b"\0\1", b'{"a":1}\n'):
            status, out, err = program.call_tool("page.py", "-", given=data)
            self.assertEqual((status, out, err.count("\n")), (2, "", 1))


if __name__ == "__main__":
    unittest.main()
