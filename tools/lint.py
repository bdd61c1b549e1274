#!/usr/bin/env python3
"""Checks contract texts as `install` would, without a run.

  tools/lint.py CONTRACT.js ..

Of each text the first refusal is told, by file, line, column and the byte that the program would show, with
the line, a caret under the place and what to write; where there is none, what installs but is probably a
mistake is told as warnings. A file that ends with .jsonl is a script: each text that a line of it installs
is checked.

The exit status is 0 where every text installs, 1 where one is refused (or, with --strict, has a warning),
and 2 where a file can't be checked: it isn't there, is no UTF-8, no script, or over 65,536 bytes."""
import argparse
import sys

import contract_text
from tool import BadInput, end_with, read_file, script_lines


def texts_of(path):
    """The contract texts of a file: (what to call it, its bytes)."""
    data = read_file(path)
    if not path.endswith(".jsonl"):
        return [(path, data)]
    texts = []
    for line in script_lines(path, data):
        arguments = line.object.get("args") if line.object else None
        if line.object and line.object.get("do") == "install" and isinstance(arguments, list) and arguments:
            if isinstance(arguments[0], str):
                texts.append((f"{path}:{line.number}, text", arguments[0].encode("utf-8", "surrogatepass")))
    return texts


def told(name, data, place, what):
    """Three lines: where and what, the line of the text, a caret under the place."""
    number, column, line = contract_text.position(data, place)
    shown = line.replace("\t", " ")
    return f"{name}:{number}:{column}: {what}\n    {shown}\n    {' ' * (column - 1)}^"


def check_text(name, data, strict):
    """Tells what is wrong with one text; the exit status for it."""
    if len(data) > contract_text.MOST_BYTES:
        raise BadInput(f"{name}: the text has {len(data):,} bytes, and {contract_text.TEXT_TOO_LONG}")
    try:
        data.decode("utf-8")
    except UnicodeDecodeError as error:
        raise BadInput(f"{name}: no contract text: byte {error.start} is no UTF-8") from None
    refusal, warnings = contract_text.check(data)
    if refusal:
        what = f"error {refusal.kind} (byte {refusal.place}): {refusal.mending}"
        print(told(name, data, refusal.place, what))
        return 1
    for warning in warnings:
        print(told(name, data, warning.place, f"warning: {warning.what}"))
    return 1 if warnings and strict else 0


def main(words):
    parser = argparse.ArgumentParser(
        prog="tools/lint.py", description=__doc__, formatter_class=argparse.RawDescriptionHelpFormatter
    )
    parser.add_argument("--strict", action="store_true", help="end with 1 where there is a warning")
    parser.add_argument("file", nargs="+", help="a contract's text, or a script (.jsonl)")
    chosen = parser.parse_args(words)
    status = 0
    for path in chosen.file:
        for name, data in texts_of(path):
            status = max(status, check_text(name, data, chosen.strict))
    return status


if __name__ == "__main__":
    end_with(main, sys.argv[1:])
