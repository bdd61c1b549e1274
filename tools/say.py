#!/usr/bin/env python3
"""Writes the JSON lines of a readable script.

  tools/say.py SCRIPT.say > SCRIPT.jsonl

    alice: moola = ertp.makeIssuerKit("moola", "nat")      a call, with a label for its answer
    alice: purse.deposit(p)                                a bare path stands for what is there
    alice: p = moola.mint.mintPayment(5 of moola.brand)    an amount: a value `of` a brand
    alice: code = zoe.install(file("swap.js"))             a file's text, from the script's folder
    alice gives moola.issuer to bob as moola               a give
    run 100                                                a run line
    tick 5                                                 a tick
    # a comment; a call goes over several lines as long as a bracket is open

Arguments are texts in "..", whole numbers, true, false, null, [arrays], {records: with names}, paths.
The exit status is 0, or 2 where the script can't be read; then line and fault are told, and nothing written."""
import argparse
import json
import os
import re
import sys

import contract_text
from tool import BadInput, end_with, read_file

TOKEN = re.compile(
    r"""\s*(?:(?P<text>"(?:[^"\\\n]|\\.)*")
         |(?P<number>-?[0-9]+(?![A-Za-z_]))
         |(?P<path>[A-Za-z_][A-Za-z0-9_]*(?:\.[A-Za-z0-9_]+)*)
         |(?P<mark>\S))""",
    re.S | re.X,
)
LABEL = r"[a-z][A-Za-z0-9_]*"
PATH = rf"{LABEL}(?:\.[A-Za-z0-9_]+)*"
RUN_OR_TICK = re.compile(r"(run|tick)\s+([0-9]+)")
GIVE = re.compile(rf"({LABEL})\s+gives\s+({PATH})\s+to\s+({LABEL})\s+as\s+({LABEL})")
CALL = re.compile(rf"({LABEL})\s*:\s*(?:({LABEL})\s*=\s*)?({PATH})\.([A-Za-z0-9_]+)\s*(\(.*\))", re.S)
COMMENT = re.compile(r'((?:[^"#]|"(?:[^"\\]|\\.)*")*?)(?:^|\s)#.*')
WHOLE_IN_JSON = range(-(2**63), 2**64)


class NotRead(Exception):
    """What is wrong with a statement."""


class Arguments:
    """Reads the arguments of a call, from the bracket on."""

    def __init__(self, text, folder):
        self.folder = folder
        self.tokens = [(match.lastgroup, match.group(match.lastgroup)) for match in TOKEN.finditer(text)]
        self.at = 0

    def peek(self):
        return self.tokens[self.at] if self.at < len(self.tokens) else ("end", "the end")

    def take(self):
        token = self.peek()
        self.at += 1
        return token

    def mark(self, wanted):
        kind, text = self.take()
        if (kind, text) != ("mark", wanted):
            raise NotRead(f"`{wanted}` is wanted in place of {text}")

    def all(self):
        self.mark("(")
        values = self.items(")", self.value)
        if self.at < len(self.tokens):
            raise NotRead(f"{self.peek()[1]} stands behind the call")
        return values

    def items(self, close, one):
        values = []
        while self.peek() != ("mark", close):
            values.append(one())
            if self.peek() != ("mark", close):
                self.mark(",")
        self.mark(close)
        return values

    def value(self):
        value = self.plain()
        if self.peek() == ("path", "of"):
            self.take()
            kind, path = self.take()
            if kind != "path":
                raise NotRead(f"a brand's path is wanted behind `of`, in place of {path}")
            return {"brand": {"@": path}, "value": value}
        return value

    def plain(self):
        kind, text = self.take()
        if kind == "text":
            return self.text(text)
        if kind == "number":
            return int(text) if int(text) in WHOLE_IN_JSON else {"#": text}
        if kind == "path":
            return self.named(text)
        if text == "[":
            return self.items("]", self.value)
        if text == "{":
            return dict(self.items("}", self.field))
        raise NotRead(f"no value begins with {text}")

    def text(self, written):
        try:
            return json.loads(written)
        except ValueError:
            raise NotRead(f"this is no text: {written}") from None

    def named(self, path):
        if path in ("null", "true", "false"):
            return json.loads(path)
        if path == "file" and self.peek() == ("mark", "("):
            self.mark("(")
            kind, written = self.take()
            if kind != "text":
                raise NotRead('a file is named in quotes: file("swap.js")')
            self.mark(")")
            return text_of_file(os.path.join(self.folder, self.text(written)))
        return {"@": path}

    def field(self):
        kind, name = self.take()
        if kind not in ("path", "text"):
            raise NotRead(f"a field's name is wanted in place of {name}")
        self.mark(":")
        return (self.text(name) if kind == "text" else name, self.value())


def text_of_file(path):
    data = read_file(path)
    if len(data) > contract_text.MOST_BYTES:
        raise BadInput(f"{path}: the text has {len(data):,} bytes, and {contract_text.TEXT_TOO_LONG}")
    try:
        return data.decode("utf-8")
    except UnicodeDecodeError as error:
        raise BadInput(f"{path}: no text: byte {error.start} is no UTF-8") from None


def line_of(statement, folder):
    """The line that a statement stands for, as an object."""
    match = RUN_OR_TICK.fullmatch(statement)
    if match:
        return {match[1]: int(match[2])}
    match = GIVE.fullmatch(statement)
    if match:
        return {"by": match[1], "give": match[2], "to": match[3], "as": match[4]}
    match = CALL.fullmatch(statement)
    if not match:
        raise NotRead("this is no call (alice: path.method(..)), give (alice gives a to bob as b), run or tick")
    by, label, target, method, arguments = match.groups()
    line = {"by": by, "on": target, "do": method}
    values = Arguments(arguments, folder).all()
    if values:
        line["args"] = values
    if label:
        line["as"] = label
    return line


def json_of(line):
    return json.dumps(line, ensure_ascii=False, separators=(",", ":"))


def without_comment(text):
    match = COMMENT.fullmatch(text)
    return match[1] if match else text


def is_open(text):
    """Whether a bracket is open at the end, texts aside."""
    bare = re.sub(r'"(?:[^"\\]|\\.)*"', "", text)
    return sum(bare.count(mark) for mark in "([{") > sum(bare.count(mark) for mark in ")]}")


def statements(path):
    """(line number, statement) of a readable script."""
    try:
        text = read_file(path).decode("utf-8")
    except UnicodeDecodeError as error:
        raise BadInput(f"{path}: no script: byte {error.start} is no UTF-8") from None
    held, begun = "", 1
    for number, written in enumerate(text.split("\n"), 1):
        if not held.strip():
            held, begun = "", number
        held += without_comment(written) + "\n"
        if held.strip() and not is_open(held):
            yield begun, held.strip()
            held = ""
    if held.strip():
        raise BadInput(f"{path}:{begun}: a bracket is open to the end")


def lines_of(path):
    """The JSON lines of a readable script."""
    folder = os.path.dirname(path)
    lines = []
    for number, statement in statements(path):
        try:
            lines.append(json_of(line_of(statement, folder)))
        except NotRead as fault:
            raise BadInput(f"{path}:{number}: {fault}") from None
    return lines


def main(words):
    parser = argparse.ArgumentParser(
        prog="tools/say.py", description=__doc__, formatter_class=argparse.RawDescriptionHelpFormatter
    )
    parser.add_argument("script", help="a readable script (.say), or - for standard input")
    for line in lines_of(parser.parse_args(words).script):
        print(line)
    return 0


if __name__ == "__main__":
    end_with(main, sys.argv[1:])
