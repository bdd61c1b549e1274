"""The readable script language: what it writes, and what it says of faults."""
import json
import os
import random
import tempfile
import unittest

from tests import program
import say
import tool


class Lines(unittest.TestCase):
    STATEMENTS = (
        (
            'alice: moola = ertp.makeIssuerKit("moola", "nat")',
            {"by": "alice", "on": "ertp", "do": "makeIssuerKit", "args": ["moola", "nat"], "as": "moola"},
        ),
        ("alice: purse.deposit(p)", {"by": "alice", "on": "purse", "do": "deposit", "args": [{"@": "p"}]}),
        ("a: t.tryExit()", {"by": "a", "on": "t", "do": "tryExit"}),
        (
            "a: m.mintPayment(-5 of k.brand)",
            {"by": "a", "on": "m", "do": "mintPayment", "args": [{"brand": {"@": "k.brand"}, "value": -5}]},
        ),
        (
            'a: m.mintPayment(["x", "y"] of b)',
            {"by": "a", "on": "m", "do": "mintPayment", "args": [{"brand": {"@": "b"}, "value": ["x", "y"]}]},
        ),
        (
            'a: x.0.m([true, null, {k: 1, "odd": []}])',
            {"by": "a", "on": "x.0", "do": "m", "args": [[True, None, {"k": 1, "odd": []}]]},
        ),
        (
            "a: x.m(170141183460469231731687303715884105727)",
            {"by": "a", "on": "x", "do": "m", "args": [{"#": "170141183460469231731687303715884105727"}]},
        ),
        (
            "alice gives moola.issuer to bob as moola",
            {"by": "alice", "give": "moola.issuer", "to": "bob", "as": "moola"},
        ),
        ("run 100", {"run": 100}),
        ("tick 5", {"tick": 5}),
    )

    def test_statements(self):
        for statement, wanted in self.STATEMENTS:
            self.assertEqual(say.line_of(statement, "."), wanted)

    def test_comments_and_several_lines(self):
        with tempfile.TemporaryDirectory() as room:
            path = os.path.join(room, "s.say")
            with open(path, "w", encoding="utf-8") as file:
                file.write('# one\na: x.m(  # two\n  "a # b", # three\n  "(")\n\nrun 1\n')
            self.assertEqual(
                [json.loads(line) for line in say.lines_of(path)],
                [{"by": "a", "on": "x", "do": "m", "args": ["a # b", "("]}, {"run": 1}],
            )


class BadInput(unittest.TestCase):
    def say(self, data, more=None):
        with tempfile.TemporaryDirectory() as room:
            for name, content in {"s.say": data, **(more or {})}.items():
                with open(os.path.join(room, name), "wb") as file:
                    file.write(content)
            status, out, err = program.call_tool("say.py", os.path.join(room, "s.say"))
            self.assertEqual((status, out, err.count("\n")), (2, "", 1), data)
            return err.replace(room + "/", "")

    def test_faults_have_their_line(self):
        for data, words in (
            (b"run 5\nwhat\n", "s.say:2: this is no call"),
            (b"a: x.m(1 2)\n", "s.say:1: `,` is wanted in place of 2"),
            (b"a: x.m(\n1,\n", "s.say:1: a bracket is open to the end"),
            (b"a: x.m(=)\n", "s.say:1: no value begins with ="),
            (b"a: x.m(5 of 6)\n", "a brand's path is wanted"),
            (b"a: x.m({5: 6})\n", "a field's name is wanted"),
            (b"\xff\n", "s.say: no script: byte 0 is no UTF-8"),
            (b'a: z.install(file("none.js"))\n', "none.js: No such file"),
        ):
            self.assertIn(words, self.say(data))

    def test_whatever_is_written(self):
        chance = random.Random(5)
        with open(os.path.join(program.EXAMPLES, "option-desk.say"), encoding="utf-8") as file:
            statements = [statement for statement in file.read().splitlines() if statement and statement[0] != "#"]
        for _ in range(2000):
            statement = chance.choice(statements)
            at, to = chance.randrange(len(statement)), chance.randrange(len(statement))
            statement = (
                statement[:at]
                + chance.choice(['"', "{", "]", "(", " of ", "5", ",", "\\", ":", "é", "\n", ""])
                + statement[to:]
            )
            try:
                say.line_of(statement, program.EXAMPLES)
            except (say.NotRead, tool.BadInput):
                pass

    def test_a_text_that_no_line_can_have(self):
        self.assertIn("the text has 65,537 bytes", self.say(b'a: z.install(file("c.js"))\n', {"c.js": b" " * 65537}))
        self.assertIn("c.js: no text: byte 0 is no UTF-8", self.say(b'a: z.install(file("c.js"))\n', {"c.js": b"\xff"}))

    def test_no_file(self):
        self.assertEqual(program.call_tool("say.py", "/none")[0], 2)


if __name__ == "__main__":
    unittest.main()
