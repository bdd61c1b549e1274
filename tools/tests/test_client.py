"""The client module and the prompt, run on the program."""
import io
import os
import tempfile
import unittest

from tests import program
import talk
from tool import BadInput
from vuhklane import Script, amount, at, number


class Lines(unittest.TestCase):
    def test_numbers_and_amounts(self):
        self.assertEqual(number(5), 5)
        self.assertEqual(number(2**64), {"#": "18446744073709551616"})
        self.assertEqual(amount("m.brand", 2**120 - 1)["value"], {"#": "1329227995784915872903807060280344575"})
        self.assertEqual(amount("m.brand", ["a"]), {"brand": at("m.brand"), "value": ["a"]})


@unittest.skipUnless(program.program(), "no program is here")
class Client(unittest.TestCase):
    def test_a_purse(self):
        script = Script()
        script.call("alice", "ertp", "makeIssuerKit", "moola", "nat", label="moola")
        script.call("alice", "moola.mint", "mintPayment", amount("moola.brand", 100), label="p")
        script.call("alice", "moola.issuer", "makeEmptyPurse", label="purse")
        script.give("alice", "p", "bob", "q")
        script.let_run()
        script.call("alice", "purse", "deposit", at("p"))
        script.call("alice", "purse", "deposit", at("p"))
        script.tick(5)
        told = script.run(program.program())
        self.assertEqual(told.balance("alice", "purse", "brand1"), 100)
        self.assertEqual(told.labels["bob", "q"], {"@": "payment0"})
        self.assertEqual([(bad.turn["n"], bad.line["do"]) for bad in told.not_ok], [(6, "deposit")])
        self.assertEqual((len(told.turns), told.left), (7, 0))

    def test_a_large_amount(self):
        script = Script()
        script.call("alice", "ertp", "makeIssuerKit", "moola", "nat", label="moola")
        script.call("alice", "moola.mint", "mintPayment", amount("moola.brand", 2**120 - 1), label="p")
        script.call("alice", "moola.mint", "mintPayment", amount("moola.brand", 1))
        told = script.run(program.program())
        self.assertEqual(told.balance("alice", "p", "brand1"), 2**120 - 1)
        self.assertEqual(told.not_ok[0].turn["answer"]["refused"]["shown"], [number(2**120), number(2**120 - 1)])

    def test_a_program_that_fails(self):
        with self.assertRaises(BadInput):
            Script().run("false")


@unittest.skipUnless(program.program(), "no program is here")
class Prompt(unittest.TestCase):
    def test_lines_are_told_taken_back_and_saved(self):
        out = io.StringIO()
        talking = talk.Talk(program.program(), out)
        self.assertTrue(talking.answer('alice: moola = ertp.makeIssuerKit("moola")'))
        self.assertTrue(talking.answer("alice: p = moola.mint.mintPayment(5 of moola.brand)"))
        self.assertIn("> 5 moola: outside -> payment0=alice.p", out.getvalue())
        talking.answer(":undo")
        self.assertTrue(out.getvalue().endswith("1 turns\n"))
        with tempfile.TemporaryDirectory() as room:
            path = os.path.join(room, "s.jsonl")
            talking.answer(f":save {path}")
            with open(path, encoding="utf-8") as file:
                self.assertEqual(len(file.read().splitlines()), 2)
        talking.answer(":held")
        self.assertIn("open seats: none", out.getvalue())
        self.assertFalse(talking.answer(":quit"))


if __name__ == "__main__":
    unittest.main()
