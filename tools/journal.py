"""Reads journals: rows, turns, which line each turn came from, names of objects, and who holds what.

A journal is read as far as it goes. Where it ends early, or a row of it can't be read, `fault` says so in
one line, and `rows` has all that stands before. docs/JOURNAL.md has the rows."""
import argparse
import json
import re
from typing import NamedTuple, Optional

from tool import BadInput, read_file, script_lines

NEWEST_VERSION = 2
ANSWERS = ("ok", "refused", "threw", "spent")


def _is_text(part):
    return isinstance(part, str)


def _is_number(part):
    return isinstance(part, int) and not isinstance(part, bool)


def _is_list(part):
    return isinstance(part, list)


def _has_form(pattern):
    form = re.compile(pattern, re.A)
    return lambda part: isinstance(part, str) and form.fullmatch(part) is not None


_is_brand = _has_form(r"brand\d+")
_is_instance = _has_form(r"instance\d+")
_is_payment = _has_form(r"payment\d+")
_is_holder = _has_form(r"(purse|payment)\d+|seat\d+\.[A-Z]\w*|hand|outside")
_is_sum = _has_form(r"\d+")


def _is_supply(part):
    """What version 1 has not."""
    return part is None or _is_sum(part)


def _is_count(part):
    """A whole number, plainly or as {"#": "decimal"}."""
    if isinstance(part, dict):
        return set(part) == {"#"} and _is_sum(part["#"])
    return _is_number(part) and part >= 0


def _is_value(part):
    """Units, keys, or pairs of a key and a count."""
    if not isinstance(part, list):
        return _is_count(part)
    return all(
        _is_text(key) or _is_list(key) and len(key) == 2 and _is_text(key[0]) and _is_count(key[1]) for key in part
    )


def _is_amount(part):
    if not isinstance(part, dict) or set(part) != {"brand", "value"} or not isinstance(part["brand"], dict):
        return False
    return _is_brand(part["brand"].get("@")) and _is_value(part["value"])


def _are_amounts(part):
    return isinstance(part, dict) and all(map(_is_amount, part.values()))


def _are_payouts(part):
    return isinstance(part, dict) and all(map(_is_payment, part.values()))


def _is_exit(part):
    return isinstance(part, str) or isinstance(part, dict) and set(part) == {"afterDeadline"}


def _is_end(part):
    return isinstance(part, dict) and len(part) == 1 and next(iter(part)) in ("ok", "broken")


def _is_answer(part):
    if not isinstance(part, dict) or len(part) != 1:
        return False
    how, what = next(iter(part.items()))
    if how == "refused":
        return (
            isinstance(what, dict)
            and set(what) == {"code", "shown"}
            and _is_text(what["code"])
            and _is_list(what["shown"])
        )
    return how in ANSWERS


FIELDS = {  # of each row, its fields and what they have to be
    "turn": {
        "answer": _is_answer,
        "args": _is_list,
        "by": _is_text,
        "do": _is_text,
        "kind": _is_text,
        "n": _is_number,
        "on": _is_text,
    },
    "call": {"answer": _is_answer, "args": _is_list, "do": _is_text, "how": _is_text, "on": _is_text},
    "open": {
        "exit": _is_exit,
        "give": _are_amounts,
        "instance": _is_instance,
        "seat": _is_number,
        "want": _are_amounts,
    },
    "move": {"brand": _is_brand, "from": _is_holder, "to": _is_holder, "value": _is_value},
    "exit": {"cause": _is_text, "payouts": _are_payouts, "seat": _is_number},
    "settle": {"promise": _is_number, "to": _is_end},
    "sum": {
        "brand": _is_brand,
        "burned": _is_sum,
        "minted": _is_sum,
        "payments": _is_sum,
        "purses": _is_sum,
        "slots": _is_sum,
        "supply": _is_supply,
    },
    "close": {"left": _is_number, "turns": _is_number},
    "version": {"version": _is_number},
}


class Turn(NamedTuple):
    row: dict
    events: list  # call, open, move, exit and settle rows, in order
    sums: list


class Journal(NamedTuple):
    path: str
    rows: list
    turns: list
    close: Optional[dict]
    fault: Optional[str]


def read_journal(path):
    return journal_of(path, read_file(path))


def journal_and_script(tool, text, words):
    """What the words of a tool of journals give it: the journal, and the path of its script, or None."""
    parser = argparse.ArgumentParser(
        prog=f"tools/{tool}", description=text, formatter_class=argparse.RawDescriptionHelpFormatter
    )
    parser.add_argument("journal", help="a journal, or - for standard input")
    parser.add_argument("script", nargs="?", help="the lines that it was written of")
    chosen = parser.parse_args(words)
    return read_journal(chosen.journal), chosen.script


def journal_of(path, data):
    """The journal in these bytes. BadInput where they begin with no row of one."""
    rows, fault = [], None
    if not data:
        raise BadInput(f"{path}: no journal: it is empty")
    lines = data.split(b"\n")
    is_whole_line = len(lines) - 1  # the last piece has no line feed behind it
    for index, raw in enumerate(lines):
        if index == is_whole_line and raw == b"":
            break
        row = _row(raw)
        if index == is_whole_line and rows:
            fault = f"it was cut within row {index + 1}"
            break
        if row is None:
            if not rows:
                raise BadInput(f"{path}: no journal: its first line is no row of one")
            fault = f"row {index + 1} is no row of a journal"
            break
        fault = _later(row, index + 1)
        if fault is None and rows and row["row"] == "version":
            fault = f"row {index + 1} is a version row behind the first row"
        if fault is None and rows and rows[-1]["row"] == "close":
            fault = f"row {index + 1} stands behind the close row"
        if fault:
            break
        rows.append(row)
    if fault is None and not (rows and rows[-1]["row"] == "close"):
        fault = f"it was cut after row {len(rows)}: it has no close row"
    close = rows[-1] if rows and rows[-1]["row"] == "close" else None
    return Journal(path, rows, _turns(rows), close, fault)


def _row(raw):
    """The row in a line, or None where it is none; of a row that isn't known the kind alone is looked at."""
    try:
        row = json.loads(raw)
    except (ValueError, RecursionError):
        return None
    if not isinstance(row, dict) or not isinstance(row.get("row"), str):
        return None
    for field, is_so in FIELDS.get(row["row"], {}).items():
        if not is_so(row.get(field)):
            return None
    return row


def _later(row, number):
    """What is said of a row that a later version of the program has written, else None."""
    if row["row"] not in FIELDS:
        return f"row {number} is of a later version: it is a row `{row['row']}`"
    if row["row"] == "version" and row["version"] > NEWEST_VERSION:
        return f"row {number} is of a later version: {row['version']}, and versions up to {NEWEST_VERSION} are read"
    return None


def _turns(rows):
    turns = []
    for row in rows:
        if row["row"] == "turn":
            turns.append(Turn(row, [], []))
        elif turns and row["row"] == "sum":
            turns[-1].sums.append(row)
        elif turns and row["row"] not in ("close", "version"):
            turns[-1].events.append(row)
    return turns


# Which line a turn came from.


def comes_from_a_line(turn):
    """Whether it is the turn of a line; all others are brought by turns."""
    row = turn.row
    return row["kind"] in ("bad", "tick") or (row["by"] != "" and not row["by"].startswith("instance"))


def lines_of_turns(journal, script):
    """For each turn its line of the script, or None; BadInput where it isn't this journal's script.

    The script is a path, or a pair of what to call it and its bytes."""
    if script is None:
        return [None] * len(journal.turns)
    script, data = script if isinstance(script, tuple) else (script, read_file(script))
    lines = iter(script_lines(script, data))
    found = []
    for turn in journal.turns:
        line = None
        if comes_from_a_line(turn):
            line = next(lines, None)
            if line is None:
                raise BadInput(f"{script}: not the script of this journal: no line is left for turn {turn.row['n']}")
            if not _fits(turn, line):
                raise BadInput(
                    f"{script}: not the script of this journal: line {line.number} isn't turn {turn.row['n']}"
                )
        found.append(line)
    return found


def _fits(turn, line):
    if turn.row["kind"] == "bad":
        return True
    given = line.object or {}
    if turn.row["kind"] == "tick":
        return turn.row["args"] == [given.get("tick")]
    said = given.get("as") if "give" in given else given.get("do")
    return turn.row["by"] == given.get("by") and turn.row["do"] == said


# What is told of data.


def number_of(value):
    """A whole number as the journal prints it: plainly, or as {"#": "decimal"}."""
    return int(value["#"]) if isinstance(value, dict) else value


def counts_of(value):
    """A movement's value as counts by key; of plain units the key is empty."""
    if isinstance(value, list):
        return {item: 1 for item in value if isinstance(item, str)} | {
            item[0]: number_of(item[1]) for item in value if not isinstance(item, str)
        }
    return {"": number_of(value)}


def value_of(counts):
    """Counts as words: `70`, or `rye, oats x 2`."""
    if set(counts) <= {""}:
        return str(counts.get("", 0))
    return ", ".join(key if count == 1 else f"{key} x {count}" for key, count in sorted(counts.items()))


class Holdings:
    """Who holds what, by the movements so far."""

    def __init__(self):
        self.held = {}  # holder: {brand: {key: count}}

    def move(self, row):
        for key, count in counts_of(row["value"]).items():
            self._change(row["from"], row["brand"], key, -count)
            self._change(row["to"], row["brand"], key, count)

    def _change(self, holder, brand, key, count):
        if holder in ("outside", "hand"):
            return
        kept = self.held.setdefault(holder, {}).setdefault(brand, {})
        kept[key] = kept.get(key, 0) + count
        if kept[key] == 0:
            del kept[key]

    def of(self, holder):
        """{brand: {key: count}} of a holder, without what is nothing."""
        return {brand: counts for brand, counts in self.held.get(holder, {}).items() if counts}


class Names:
    """What objects are called: by the labels that parties gave them, brands by their alleged names.

    `payment0=alice.p` tells both the journal's name and the label; where `brief`, the label alone."""

    def __init__(self, brief=False):
        self.brief = brief
        self.labels = {}
        self.settled = {}  # promise: what it was fulfilled with
        self.brands = {"brand0": "invitation"}

    def of_object(self, name):
        if name in self.brands:
            return self.brands[name]
        if name not in self.labels:
            return name
        return self.labels[name] if self.brief else f"{name}={self.labels[name]}"

    def of_holder(self, holder):
        """Also of slots, as seat0.Asset."""
        seat, dot, keyword = holder.partition(".")
        return self.of_object(seat) + dot + keyword

    def read(self, turn, line):
        """Takes the names that a turn brings: a new brand's, and what its line's label stands for."""
        answer = turn.row["answer"]
        for event in turn.events:
            if event["row"] == "call" and event["do"] == "makeZCFMint" and "ok" in event["answer"]:
                self._own_brand(event)
            if event["row"] == "exit":
                for keyword, payment in event["payouts"].items():
                    self.labels.setdefault(payment, f"payout {keyword} of seat{event['seat']}")
            if event["row"] == "settle" and "ok" in event["to"]:
                self._settle(f"promise{event['promise']}", event["to"]["ok"])
        if "ok" not in answer:
            return
        if turn.row["do"] == "makeIssuerKit" and turn.row["on"] == "ertp":
            self._brand(answer["ok"], turn.row["args"])
        given = line.object if line and line.object else {}
        if "give" in given and turn.row["args"]:
            self.label(turn.row["args"][0], f"{turn.row['on']}.{turn.row['do']}")
        elif isinstance(given.get("as"), str):
            self.label(answer["ok"], f"{turn.row['by']}.{given['as']}")

    def _brand(self, kit, args):
        brand = kit.get("brand") if isinstance(kit, dict) else None
        if isinstance(brand, dict) and _is_brand(brand.get("@")) and args and isinstance(args[0], str):
            self._name_brand(brand["@"], args[0])

    def _own_brand(self, event):
        made = event["answer"]["ok"]
        if isinstance(made, dict) and str(made.get("@", "")).startswith("zmint") and event["args"]:
            self._name_brand("brand" + made["@"][len("zmint") :], str(event["args"][0]))

    def _name_brand(self, brand, name):
        self.brands[brand] = name if name not in self.brands.values() else f"{name}#{brand[len('brand'):]}"

    def label(self, data, path):
        """The first label that leads to an object is its name, through records and arrays too."""
        if isinstance(data, dict) and set(data) == {"@"}:
            self._label_object(str(data["@"]), path)
        elif isinstance(data, dict):
            for field, part in data.items():
                self.label(part, f"{path}.{field}")
        elif isinstance(data, list):
            for index, part in enumerate(data):
                self.label(part, f"{path}.{index}")

    def _label_object(self, name, path):
        """A label for a promise is one for what it was fulfilled with, too, as paths follow promises."""
        if name[-1:].isdigit() and name not in self.labels:  # ertp, zoe and timer are called so by everybody
            self.labels[name] = path
            if name in self.settled:
                self.label(self.settled[name], path)

    def _settle(self, promise, data):
        self.settled[promise] = data
        if promise in self.labels:
            self.label(data, self.labels[promise])

    def data(self, value, longest=60):
        """Data in plain words."""
        if isinstance(value, dict):
            return self._record(value)
        if isinstance(value, list):
            return "[" + ", ".join(self.data(part) for part in value) + "]"
        if isinstance(value, str) and len(value) > longest:
            return json.dumps(value[:40], ensure_ascii=False) + ".."
        return json.dumps(value, ensure_ascii=False)

    def _record(self, value):
        if set(value) == {"@"}:
            return self.of_object(str(value["@"]))
        if set(value) == {"=>"}:
            return str(value["=>"])
        if set(value) == {"#"}:
            return str(value["#"])
        if set(value) == {"brand", "value"} and isinstance(value["brand"], dict):
            return self.data(value["value"]) + " " + self.data(value["brand"])
        return "{" + ", ".join(f"{field}: {self.data(part)}" for field, part in value.items()) + "}"
