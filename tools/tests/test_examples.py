"""The examples: their journals keep to the rules, and their scripts are what the readable ones say."""
import copy
import glob
import os
import unittest

from tests import program, rules
import journal as journals
import say


def example(name):
    return journals.read_journal(os.path.join(program.EXAMPLES, f"{name}.journal.jsonl"))


class Journals(unittest.TestCase):
    def test_each_keeps_to_the_rules(self):
        for path in program.journals_of_examples():
            if os.path.getsize(path):
                journal = journals.read_journal(path)
                self.assertIsNone(journal.fault, path)
                self.assertEqual(rules.broken_in(journal), [], path)
                self.assertEqual([row["row"] for row in journal.rows].index("version"), 0, path)
                self.assertTrue(all("supply" in row for row in journal.rows if row["row"] == "sum"), path)

    def test_a_journal_that_breaks_one_is_told(self):
        swap = example("swap")
        for place, row, field, value, told in (
            (7, "move", "value", 4, "turn 8: payment0 hasn't so much"),
            (13, "open", "seat", 3, "turn 14: seat3 is opened"),
            (18, "move", "value", 2, "turn 19: "),
            (34, "exit", "cause", "exit", "turn 35: seat2 is left without"),
            (9, "sums", "payments", "12", "turn 10: the sum of brand2"),
            (9, "sums", "supply", "12", "turn 10: the sum of brand2"),
        ):
            rows = copy.deepcopy(swap.turns[place])
            found = rows.sums[0] if row == "sums" else next(event for event in rows.events if event["row"] == row)
            found[field] = value
            changed = swap._replace(turns=swap.turns[:place] + [rows] + swap.turns[place + 1 :])
            self.assertIn(told, " ".join(rules.broken_in(changed)), (place, row))


    def test_so_is_one_that_passes_a_bound(self):
        for name, place, value, told in (
            ("large-amounts", 1, 2**120, "turn 2: of brand1 too much is out"),
            ("large-amounts", 130, 64, "turn 131: of brand1 too much was minted"),
            ("kinds", 17, [["rye", 2**63]], "turn 18: of brand3 too much is out"),
            ("kinds", 17, ["rye"], "turn 35: brand3 has values of two kinds"),
        ):
            changed = copy.deepcopy(example(name))
            next(event for event in changed.turns[place].events if event["row"] == "move")["value"] = value
            self.assertIn(told, " ".join(rules.broken_in(changed)), (name, place))


class Scripts(unittest.TestCase):
    def test_each_readable_script_says_its_lines(self):
        scripts = glob.glob(os.path.join(program.EXAMPLES, "*.say"))
        self.assertGreater(len(scripts), 7)
        for path in scripts:
            with open(path[: -len(".say")] + ".jsonl", encoding="utf-8") as file:
                self.assertEqual(say.lines_of(path), file.read().splitlines(), path)


if __name__ == "__main__":
    unittest.main()
