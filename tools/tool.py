"""What all tools have in common: how they end, and how scripts (.jsonl) are read."""
import json
import os
import signal
import sys
from typing import NamedTuple, Optional


class BadInput(Exception):
    """What a tool was given can't be worked: told in one line, and the tool ends with 2."""


def end_with(main, words):
    """Runs a tool's main and ends the process with its status."""
    signal.signal(signal.SIGPIPE, signal.SIG_DFL)
    try:
        status = main(words)
        sys.stdout.flush()
    except BadInput as bad:
        sys.stdout.flush()
        name = os.path.basename(sys.argv[0])
        print(f"{name}: {bad}", file=sys.stderr)
        status = 2
    except KeyboardInterrupt:
        status = 130
    sys.exit(status)


def read_file(path):
    """The bytes of a file; `-` is standard input."""
    try:
        if path == "-":
            return sys.stdin.buffer.read()
        with open(path, "rb") as file:
            return file.read()
    except OSError as error:
        raise BadInput(f"{path}: {error.strerror}") from None


class ScriptLine(NamedTuple):
    """A line of a script that makes a turn: a message, good or bad. Blank lines and run lines make none."""

    number: int
    text: str
    object: Optional[dict]  # None where the line is no JSON object


def object_of(raw):
    """The JSON object in a line's bytes as the program reads it, or None where it is none."""
    try:
        value = json.loads(raw.decode("utf-8"), parse_int=_whole, parse_constant=_no_number)
    except (ValueError, RecursionError):
        return None
    return value if isinstance(value, dict) else None


def _whole(digits):
    """`-0` is a float there."""
    return float(digits) if digits == "-0" else int(digits)


def _no_number(word):
    raise ValueError(f"{word} is no number of JSON")


def is_run_line(value):
    """Whether a line's object is a run line, which makes no turn of its own."""
    if set(value) != {"run"} or isinstance(value["run"], bool):
        return False
    return isinstance(value["run"], int) and 0 <= value["run"] < 2**32


def script_lines(path, data):
    """The lines of a script that make turns, in order."""
    if b"\0" in data:
        raise BadInput(f"{path}: no script: it has a byte 0")
    lines = []
    for number, raw in enumerate(data.split(b"\n"), 1):
        if not raw.strip(b" \t\r"):
            continue
        value = object_of(raw)
        if value is None or not is_run_line(value):
            lines.append(ScriptLine(number, raw.decode("utf-8", "replace").strip(), value))
    if lines and all(line.object is None for line in lines):
        raise BadInput(f"{path}: no script: no line of it is a JSON object")
    return lines
