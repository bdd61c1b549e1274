"""The teller of journals: what it tells, and how it ends on whatever it is given."""
import io
import json
import os
import random
import unittest

from tests import program
import journal as journals
import page
import tell


def example(name):
    return os.path.join(program.EXAMPLES, name)


SWAP = (example("swap.journal.jsonl"), example("swap.jsonl"))
REFUSED = (example("refused.journal.jsonl"), example("refused.jsonl"))


class Told(unittest.TestCase):
    def test_a_turn_has_its_line_and_labels(self):
        status, out, _ = program.call_tool("tell.py", *SWAP)
        self.assertEqual(status, 1)  # one handler threw
        self.assertIn("    8 line 8    alice issuer1=alice.moola.issuer.split(payment0=alice.six, 3 moola)\n", out)
        self.assertIn("                > 7 simoleans: seat1=bob.seat.Price -> hand\n", out)
        self.assertIn("                - seat0 is left: exit\n", out)
        self.assertTrue(out.endswith("open seats: none\n36 turns, 1 not ok, 0 left\n"))

    def test_all_ok_ends_with_0(self):
        status, out, _ = program.call_tool("tell.py", example("first.journal.jsonl"))
        self.assertEqual(status, 0)
        self.assertIn("  payment1                                 30 moola\n", out)

    def test_a_refusal_has_a_hint_and_its_line(self):
        _, out, _ = program.call_tool("tell.py", *REFUSED)
        self.assertIn(
            "! refused RepeatedPayment 0\n                  (one payment stands there twice: split it)\n", out
        )

    def test_turns_after_a_number_alone(self):
        out = io.StringIO()
        tell.tell(journals.read_journal(SWAP[0]), SWAP[1], after=35, out=out, ending=False)
        self.assertEqual(out.getvalue().splitlines()[0][:17], "   36 line 36   a")

    def test_hints_by_arguments(self):
        for code, shown, args, words in (
            ("BadArgs", [1], [5], "an amount names its brand too"),
            ("BadArgs", [1], ["p"], 'what stands at a path is {"@":"p"}'),
            ("BadArgs", [2], [5], "no argument is given there"),
            ("WrongObject", [1], [{"brand": {}, "issuer": {}, "mint": {}}], "whole kit"),
            ("BadArgs", [1], [{"brand": "m.brand", "value": 5}], "the brand is a text"),
            ("BadArgs", [1], [{"brand": {"brand": {}}, "value": 5}], "add .brand"),
            ("Pending", [], [], "by when(..)"),
            ("TextRefused", [38, "Syntax"], ["const start = (zcf, priv) => { return 1 + 2n; };"], "line 1, column 39"),
        ):
            self.assertIn(words, tell.hint_for(code, shown, args, None), (code, args))
        self.assertIn("=== of a record", tell.hint_of_a_throw("BadStep", ["type"]))


class BadInput(unittest.TestCase):
    def tell(self, data, *more):
        return program.call_tool_on("tell.py", "j", data, behind=more)

    def whole(self):
        with open(SWAP[0], "rb") as file:
            return file.read()

    def test_no_file_and_no_journal(self):
        self.assertEqual(program.call_tool("tell.py", "/none")[::2], (2, "tell.py: /none: No such file or directory\n"))
        for data in (b"", b"\x7fELF\x00\x01", b"{}\n", b"[1]\n", b'{"row":5}\n', b'{"row":"turn"}\n', b"hello\n"):
            status, out, err = self.tell(data)
            self.assertEqual((status, out, err.count("\n")), (2, "", 1), data)
            self.assertIn("j: no journal: ", err)

    def test_one_that_was_cut_is_told_as_far_as_it_goes(self):
        whole = self.whole()
        for cut, words in (
            (len(whole) - 1, "cut within row"),
            (len(whole) - 30, "cut within row"),
            (5000, "cut within row"),
        ):
            status, out, err = self.tell(whole[:cut])
            self.assertEqual((status, err.count("\n")), (2, 1))
            self.assertIn(words, err)
            self.assertIn("held at the end", out)
        lines = whole.splitlines(keepends=True)
        self.assertIn("it was cut after row 20: it has no close row", self.tell(b"".join(lines[:20]))[2])

    def test_at_every_byte_it_ends_well(self):
        with open(example("first.journal.jsonl"), "rb") as file:
            whole = file.read()
        for cut in range(1, len(whole), 7):
            try:
                journal = journals.journal_of("j", whole[:cut])
            except journals.BadInput:
                continue
            self.assertIsNotNone(journal.fault)
            tell.tell(journal, out=io.StringIO())

    def test_a_later_version(self):
        lines = self.whole().splitlines(keepends=True)
        self.assertEqual(lines[0], b'{"row":"version","version":2}\n')
        self.assertIn("of a later version: 3", self.tell(lines[0].replace(b"2", b"3") + b"".join(lines[1:]))[2])
        self.assertIn("row 3 is a version row behind", self.tell(b"".join(lines[:2] + lines))[2])
        later = b"".join(lines[:9] + [b'{"row":"packet","seq":0}\n'] + lines[9:])
        status, out, err = self.tell(later)
        self.assertEqual((status, err), (2, "tell.py: j: row 10 is of a later version: it is a row `packet`\n"))
        self.assertIn("held at the end", out)

    def test_version_1(self):
        lines = self.whole().splitlines(keepends=True)[1:]
        rows = [json.loads(line) for line in lines]
        first = [json.dumps({field: row[field] for field in row if field != "supply"}) for row in rows]
        self.assertEqual(self.tell("\n".join(first).encode() + b"\n")[:2], program.call_tool("tell.py", SWAP[0])[:2])

    def test_another_script(self):
        status, out, err = program.call_tool("tell.py", SWAP[0], example("offer.jsonl"))
        self.assertEqual((status, err.count("\n")), (2, 1))
        self.assertIn("not the script of this journal: line 2 isn't turn 2", err)


class WhateverTheRowsHold(unittest.TestCase):
    """Rows with one part changed: each tool works them, or says that they are none."""

    PARTS = (
        None,
        True,
        5,
        -1,
        "x",
        "",
        [],
        {},
        [5],
        {"a": 1},
        {"@": "x"},
        {"@": 5},
        {"#": "z"},
        "instance",
        "brandx",
        "seat9.",
        {"brand": {"@": "b"}, "value": [[1, 2]]},
        [["a"]],
        [["a", {"#": "q"}]],
        1.5,
        {"ok": 5},
        {"refused": 5},
        {"refused": {"code": 5, "shown": 5}},
        {"refused": {"code": "TextRefused", "shown": ["a"]}},
        {"spent": "x"},
    )

    def places_in(self, data, path=()):
        if path:
            yield path
        parts = data.items() if isinstance(data, dict) else enumerate(data) if isinstance(data, list) else ()
        for name, part in parts:
            yield from self.places_in(part, path + (name,))

    def test_no_tool_breaks(self):
        chance = random.Random(5)
        for name in ("swap", "hostile", "kinds", "powers") * 60:
            with open(example(f"{name}.journal.jsonl"), encoding="utf-8") as file:
                lines = file.read().splitlines()
            number = chance.randrange(len(lines))
            row = holder = json.loads(lines[number])
            path = chance.choice(list(self.places_in(row)))
            for step in path[:-1]:
                holder = holder[step]
            holder[path[-1]] = chance.choice(self.PARTS)
            lines[number] = json.dumps(row)
            try:
                journal = journals.journal_of("j", ("\n".join(lines) + "\n").encode())
            except journals.BadInput:
                continue
            tell.tell(journal, out=io.StringIO())
            page.page(journal)


class EachExample(unittest.TestCase):
    def test_it_is_told_and_drawn(self):
        for path in program.journals_of_examples():
            if not os.path.getsize(path):
                continue
            journal = journals.read_journal(path)
            tell.tell(journal, program.script_of(path), out=io.StringIO())
            self.assertIn("</html>", page.page(journal, program.script_of(path)), path)


if __name__ == "__main__":
    unittest.main()
