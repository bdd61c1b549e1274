"""Finds the program that the tests run, and what of examples/ they are run on."""
import glob
import os
import subprocess
import sys
import tempfile

TOP = os.path.dirname(os.path.dirname(os.path.dirname(os.path.realpath(__file__))))
TOOLS = os.path.join(TOP, "tools")
EXAMPLES = os.path.join(TOP, "examples")
sys.path.insert(0, TOOLS)


def program():
    """The program that VUHKLANE_PROGRAM names, else the proved one, else the unproved one; None where none is."""
    named = os.environ.get("VUHKLANE_PROGRAM")
    if named:
        return named
    for path in ("crates/zoe_run/out/zoe_run", "unproved/vuhklane"):
        if os.path.isfile(os.path.join(TOP, path)):
            return os.path.join(TOP, path)
    return None


def run(lines, *words):
    """The journal that the program writes of these lines, as bytes."""
    done = subprocess.run([program(), "run", *words], input=lines, stdout=subprocess.PIPE, check=True)
    return done.stdout


def journals_of_examples():
    return sorted(glob.glob(os.path.join(EXAMPLES, "*.journal.jsonl")))


def script_of(journal):
    return journal[: -len(".journal.jsonl")] + ".jsonl"


def call_tool(tool, *words, given=b""):
    """(exit status, standard output, standard error) of a tool."""
    done = subprocess.run(
        [sys.executable, os.path.join(TOOLS, tool), *words], input=given, capture_output=True, check=False
    )
    return done.returncode, done.stdout.decode(), done.stderr.decode()


def call_tool_on(tool, name, data, before=(), behind=()):
    """What a tool comes to on a file with these bytes, which stands between other words and is told as `name`."""
    with tempfile.TemporaryDirectory() as room:
        path = os.path.join(room, name)
        with open(path, "wb") as file:
            file.write(data)
        status, out, err = call_tool(tool, *before, path, *behind)
        return status, out.replace(path, name), err.replace(path, name)
