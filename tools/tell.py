#!/usr/bin/env python3
"""Tells a journal in plain lines, and what is held at its end.

  tools/tell.py JOURNAL [SCRIPT]

Each turn is told with its number, who asked, what was asked and the answer, and below it what happened:
calls (.), movements (>), seats that are opened (+) and left (-). With the script each turn has its line's
number, objects have the labels that parties gave them, and a refusal has the line and a hint. At the end
stands who holds what and which seats are open. `-` is standard input.

The exit status is 0 where every turn was ok, 1 where one was refused, threw or was spent, and 2 where the
journal isn't whole or no journal: it is told as far as it goes."""
import sys

import contract_text
import journal as journals
from tool import BadInput, end_with

HINTS = {
    "BadLine": "the line is no JSON object: a quote or a brace is missing, or there are several in a line",
    "BadField": "the field is missing, is ill typed, or is none that this form of line has",
    "BadLabel": "a label begins with a small letter, and has letters, digits and _ only, at most 32",
    "NameTaken": "the label is bound already: labels are never bound again",
    "UnknownName": "nothing stands at this path: was the call that binds it refused, or is it another party's label?",
    "Pending": 'what is asked for isn\'t settled yet: put {"run":10000} before this line',
    "Broken": "the promise was broken: its settle row says by what",
    "NoMethod": "the object has no such method (docs/SERVICES.md): the mint mints, the issuer makes purses",
    "WrongObject": "another kind of object is wanted at this place (0 is the target)",
    "BadArgs": 'the argument at this place hasn\'t the form; an amount is exactly {"brand":{"@":"x.brand"},"value":5}',
    "BadKeyword": "a keyword begins with a capital, and has letters, digits and _ only, at most 32",
    "BadValue": "nat: a whole number from 0 to 2^120 - 1; set: an array of texts; bag: an array of [text, count]",
    "BadExit": 'null, {"onDemand":null}, {"waived":null}, or {"afterDeadline":{"deadline":t,"timer":{"@":"timer"}}}',
    "WrongBrand": "another brand than the target's, or than those that the instance was started with",
    "WrongAmount": "the payment has to have exactly the amount that is named: split it first",
    "DeadPayment": "the payment was used before, perhaps by who gave it to you",
    "RepeatedPayment": "one payment stands there twice: split it",
    "KeywordMismatch": "each keyword of give has one payment, and no keyword stands in give and want both",
    "NotEnough": "there is less than is asked for (held, asked)",
    "TooMuch": "more than the bound (behind the sum): 4096 keys, 2^63 - 1 of a bag's key, 2^120 - 1 of a nat brand,"
    " or 2^126 - 1 minted of one brand in all",
    "NotInvitation": "an invitation comes first, then the proposal, then the payments",
    "NotOfferSafe": "the seat would have neither all that it wants nor all that it gives",
    "NotOnDemand": "its exit rule doesn't let this seat be left: the contract lets it go, or its deadline comes",
    "SeatExited": "the seat was left before",
    "Closed": "the instance has halted, or takes no more offers",
    "LocalOnly": "zcf, seats of the contract, its mints and its functions may not leave it",
    "Backwards": "the time is past that already (now, the time given)",
    "Spent": "the function cost more than the meter: see --meter",
}
BAD_STEPS = {
    "type": "a value of the wrong kind: a condition that is no truth value, === of a record or an array,"
    " a method of null, + of a number and a text",
    "field": "there is no such field or element: keys(r) and len(xs) say what is there; put adds none",
    "range": "a number beyond 128 bits: divide before you multiply",
    "zero": "a division by 0",
    "depth": "a call within 32 others: a loop for a recursion",
    "size": "a text of over 65,536 bytes, or data that nests over 32 deep",
}


def hint_of_a_throw(code, shown):
    """What more can be said of what a function threw."""
    if code == "BadStep" and shown:
        return BAD_STEPS.get(str(shown[0]))
    if code in ("BadArgs", "WrongObject"):
        return "of the call below that is refused (!), the argument at this place"
    return HINTS.get(code)


def hint_for(code, shown, args, line):
    """What more can be said of a refusal: from the arguments where they tell, else by the code."""
    told = line.object if line and line.object else {}
    place = shown[0] if shown and isinstance(shown[0], int) else None
    closer = None
    if code == "Pending" and line is None:
        return "what was sent to wasn't settled when this turn came: wait for it by when(..)"
    if code == "TextRefused" and args and isinstance(args[0], str) and place is not None and shown[1:]:
        closer = _hint_for_text(args[0].encode("utf-8", "surrogatepass"), place, str(shown[1]))
    elif code == "BadField":
        closer = _hint_for_field(shown, told)
    elif (
        code == "WrongObject"
        and place == 0
        and told.get("do") in ("mintPayment", "makeEmptyPurse", "split", "getBrand")
    ):
        closer = "a kit has three parts: .mint, .issuer and .brand"
    elif code in ("BadArgs", "WrongObject") and place and 0 < place <= len(args):
        closer = _hint_for_argument(args[place - 1])
    elif code in ("BadArgs", "WrongObject") and place and place > len(args):
        closer = "no argument is given there"
    elif code == "BadValue" and args:
        closer = _hint_for_argument(args[0])
    return closer or HINTS.get(code)


def _hint_for_text(data, place, kind):
    if len(data) > contract_text.MOST_BYTES:
        return contract_text.TEXT_TOO_LONG
    number, column, line = contract_text.position(data, place)
    mending = contract_text.mending_at(data.decode("latin-1"), place, kind)
    return f"line {number}, column {column}: {line.strip()[:100]}  -- {mending}"


def _hint_for_field(shown, told):
    if shown == ["args"] and "args" in told:
        return "a fraction, a text of over 65,536 bytes, a name that is none, or data nested over 32 deep"
    if (
        shown
        and str(shown[0]) in told
        and shown[0] not in ("by", "on", "do", "args", "as", "give", "to", "run", "tick")
    ):
        return f"no line has a field `{shown[0]}`: a call has by, on, do, args and as"
    return None


def _hint_for_argument(argument):
    if argument is None:
        return "null is given there"
    if isinstance(argument, int):
        return "a number is given there; an amount names its brand too"
    if isinstance(argument, str):
        return f'a text is given there; what stands at a path is {{"@":"{argument[:40]}"}}'
    if isinstance(argument, dict) and set(argument) == {"brand", "issuer", "mint"}:
        return "the whole kit is given there: add .brand, .issuer or .mint to the path"
    if isinstance(argument, dict) and set(argument) == {"brand", "value"}:
        return _hint_for_amount(argument["brand"], argument["value"])
    return None


def _hint_for_amount(brand, value):
    if isinstance(brand, str):
        return f'the brand is a text: {{"@":"{brand[:40]}"}}'
    if isinstance(brand, dict) and "@" not in brand:
        return "the brand is a record, as a whole kit is: add .brand to the path"
    if isinstance(value, str):
        return "the value is a text: a number stands without quotes"
    return None


class Teller:
    """Tells turn by turn, and keeps what is held and which seats are open."""

    def __init__(self, out, brief=False):
        self.out = out
        self.names = journals.Names(brief)
        self.holdings = journals.Holdings()
        self.open_seats = {}
        self.not_ok = 0
        self.mute = False

    def say(self, indent, text):
        if not self.mute:
            self.out.write(" " * indent + text + "\n")

    def turn(self, turn, line):
        self.names.read(turn, line)
        row = turn.row
        place = f"line {line.number}" if line else ""
        kind = "" if row["kind"] == "service" else row["kind"] + " "
        self.say(0, f"{row['n']:5} {place:9} {row['by'] or '-'} {kind}{self.asked(row)}")
        self.answer(row, line)
        for event in turn.events:
            self.EVENTS[event["row"]](self, event)

    def asked(self, row):
        data = self.names.data
        if row["kind"] == "give" and row["args"]:
            return f"{data(row['args'][0])} to {row['on']} as {row['do']}"
        if row["kind"] == "tick" and row["args"]:
            return f"time {row['args'][0]}"
        if row["kind"] == "deadline":
            return f"of {self.names.of_object(row['on'])}"
        target = self.names.of_object(row["on"]) + "." if row["on"] else ""
        return f"{target}{row['do']}({', '.join(map(data, row['args']))})"

    def answer(self, row, line):
        how, what = next(iter(row["answer"].items()))
        if how == "ok":
            if what is not None:
                self.say(16, f"= {self.names.data(what)}")
            return
        self.not_ok += 1
        self.say(16, f"! {how} {self.reason(what)}")
        if isinstance(what, dict) and isinstance(what.get("code"), str) and isinstance(what.get("shown"), list):
            if how == "refused":
                hint = hint_for(what["code"], what["shown"], row["args"], line)
            else:
                hint = hint_of_a_throw(what["code"], what["shown"])
            if hint:
                self.say(18, f"({hint})")
        if line:
            self.say(18, line.text[:300])

    def reason(self, what):
        """A refusal as its code and what it shows; else the data that was thrown."""
        if isinstance(what, dict) and set(what) == {"code", "shown"} and isinstance(what["shown"], list):
            return " ".join([str(what["code"]), *map(self.names.data, what["shown"])])
        return self.names.data(what)

    def call(self, row):
        how = "" if row["how"] == "call" else row["how"] + " "
        target = self.names.of_object(row["on"]) + "." if row["on"] else ""
        result = row["answer"]
        told = (
            f"= {self.names.data(result['ok'])}" if "ok" in result else f"! {self.reason(next(iter(result.values())))}"
        )
        self.say(16, f". {how}{target}{row['do']}({', '.join(map(self.names.data, row['args']))}) {told}")

    def move(self, row):
        self.holdings.move(row)
        counts = {key: count for key, count in journals.counts_of(row["value"]).items() if count}
        if counts:
            where = f"{self.names.of_holder(row['from'])} -> {self.names.of_holder(row['to'])}"
            self.say(16, f"> {journals.value_of(counts)} {self.names.of_object(row['brand'])}: {where}")

    def opening(self, row):
        self.open_seats[row["seat"]] = row
        data = self.names.data
        rule = row["exit"] if isinstance(row["exit"], str) else f"after {row['exit'].get('afterDeadline')}"
        self.say(
            16,
            f"+ seat{row['seat']} of {row['instance']}: gives {data(row['give'])}, wants {data(row['want'])}, {rule}",
        )

    def exit(self, row):
        self.open_seats.pop(row["seat"], None)
        self.say(16, f"- seat{row['seat']} is left: {row['cause']}")

    def settle(self, row):
        """What a promise is settled with is told by the turn; only that it was broken is told here."""
        if "broken" in row["to"]:
            self.say(16, f"x promise{row['promise']} is broken: {self.reason(row['to']['broken'])}")

    EVENTS = {"call": call, "move": move, "open": opening, "exit": exit, "settle": settle}

    def ending(self, journal):
        self.mute = False
        self.say(0, "\nheld at the end")
        for holder in sorted(self.holdings.held, key=_by_kind_and_number):
            what = self.holdings.of(holder)
            if what:
                told = "; ".join(
                    f"{journals.value_of(counts)} {self.names.of_object(brand)}" for brand, counts in what.items()
                )
                self.say(2, f"{self.names.of_holder(holder):40} {told}")
        seats = ", ".join(self.names.of_object(f"seat{number}") for number in sorted(self.open_seats))
        self.say(0, f"open seats: {seats or 'none'}")
        if journal.close:
            self.say(0, f"{journal.close['turns']} turns, {self.not_ok} not ok, {journal.close['left']} left")
        else:
            self.say(0, f"{len(journal.turns)} turns, {self.not_ok} not ok")


def _by_kind_and_number(holder):
    kind = holder.rstrip("0123456789") if "." not in holder else "seat"
    number = "".join(letter for letter in holder.partition(".")[0] if letter.isdigit())
    return kind, int(number or 0), holder


def tell(journal, script=None, after=0, out=None, ending=True):
    """Tells the turns behind the one numbered `after`, and the end. Whether every turn was ok."""
    teller = Teller(out or sys.stdout)
    lines = journals.lines_of_turns(journal, script)
    for turn, line in zip(journal.turns, lines):
        teller.mute = turn.row["n"] <= after
        teller.turn(turn, line)
    if ending:
        teller.ending(journal)
    return teller.not_ok == 0


def main(words):
    journal, script = journals.journal_and_script("tell.py", __doc__, words)
    all_ok = tell(journal, script)
    if journal.fault:
        raise BadInput(f"{journal.path}: {journal.fault}")
    return 0 if all_ok else 1


if __name__ == "__main__":
    end_with(main, sys.argv[1:])
