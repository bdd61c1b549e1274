#!/usr/bin/env python3
"""A client for programs that trade: writes the lines of a script, runs them, reads the journal.

    import sys; sys.path.insert(0, "tools")
    from vuhklane import Script, amount, at

    script = Script()
    script.call("alice", "ertp", "makeIssuerKit", "moola", "nat", label="moola")
    script.call("alice", "moola.mint", "mintPayment", amount("moola.brand", 100), label="p")
    script.call("alice", "moola.issuer", "makeEmptyPurse", label="purse")
    script.call("alice", "purse", "deposit", at("p"))
    journal = script.run("./vuhklane")
    journal.balance("alice", "purse", "brand1")      # 100

`python3 tools/vuhklane.py --help` shows this page."""
import argparse
import json
import os
import subprocess
import sys
from typing import NamedTuple

sys.path.insert(0, os.path.dirname(os.path.realpath(__file__)))
import journal as journals  # noqa: E402
from tool import BadInput  # noqa: E402

WHOLE_IN_JSON = range(-(2**63), 2**64)
MOST_DELIVERIES = 4294967295


def at(path):
    """What stands at a path when the line is worked: at("moola.brand")."""
    return {"@": path}


def amount(brand_path, value):
    """So much of a brand: a number, the keys of a set, the pairs of a bag."""
    return {"brand": at(brand_path), "value": number(value) if isinstance(value, int) else value}


def number(value):
    """A whole number within 128 bits, as a line writes it."""
    return value if value in WHOLE_IN_JSON else {"#": str(value)}


class Script:
    """Lines in order. Each method adds one."""

    def __init__(self):
        self.lines = []

    def call(self, by, on, do, *args, label=None):
        line = {"by": by, "on": on, "do": do}
        if args:
            line["args"] = list(args)
        if label is not None:
            line["as"] = label
        self.lines.append(line)

    def give(self, by, path, to, label):
        self.lines.append({"by": by, "give": path, "to": to, "as": label})

    def let_run(self, deliveries=MOST_DELIVERIES):
        self.lines.append({"run": deliveries})

    def tick(self, time):
        self.lines.append({"tick": time})

    def text(self):
        """The script's bytes."""
        return "".join(json.dumps(line, separators=(",", ":")) + "\n" for line in self.lines).encode()

    def run(self, program, *words):
        """Runs the script anew: nothing is kept between runs, and the same script gives the same journal."""
        done = subprocess.run([program, "run", *words], input=self.text(), stdout=subprocess.PIPE, check=False)
        if done.returncode != 0:
            raise BadInput(f"{program} ended with status {done.returncode}")
        return Told(journals.journal_of(program, done.stdout), self.lines)


class NotOk(NamedTuple):
    """A turn that was refused, threw or was spent, and its line (None where a turn brought it)."""

    turn: dict
    line: dict


class Told:
    """A journal with its script: what labels stand for, what was refused, who holds what."""

    def __init__(self, journal, lines):
        self.journal = journal
        self.turns = [turn.row for turn in journal.turns]
        self.not_ok = []
        self.labels = {}
        self.holdings = journals.Holdings()
        self.left = journal.close["left"] if journal.close else None
        waiting = iter([line for line in lines if "run" not in line])
        for turn in journal.turns:
            line = next(waiting, None) if journals.comes_from_a_line(turn) else None
            self._read(turn, line)

    def _read(self, turn, line):
        for event in turn.events:
            if event["row"] == "move":
                self.holdings.move(event)
        if "ok" not in turn.row["answer"]:
            self.not_ok.append(NotOk(turn.row, line))
        elif line and "give" in line:
            self.labels[line["to"], line["as"]] = turn.row["args"][0]
        elif line and "as" in line:
            self.labels[line["by"], line["as"]] = turn.row["answer"]["ok"]

    def balance(self, party, label, brand):
        """How many units of a brand the purse or payment has that stands under a party's label."""
        holder = self.labels[party, label]["@"]
        return self.holdings.of(holder).get(brand, {}).get("", 0)

    def settled(self, promise):
        """What a promise was settled with: {"ok": data} or {"broken": data}; None where it is pending."""
        name = promise["@"] if isinstance(promise, dict) else promise
        for row in self.journal.rows:
            if row["row"] == "settle" and f"promise{row['promise']}" == name:
                return row["to"]
        return None


if __name__ == "__main__":
    argparse.ArgumentParser(
        prog="tools/vuhklane.py", description=__doc__, formatter_class=argparse.RawDescriptionHelpFormatter
    ).parse_args()
