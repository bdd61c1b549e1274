"""The checker of contract texts: its refusals are the program's, on every text of the examples and on mutated ones."""
import glob
import json
import os
import random
import re
import unittest

from tests import program
import contract_text
import tool

MUTATED = 4000
IN_ONE_RUN = 40
PIECES = (
    "1",
    "1n",
    "(",
    ")",
    "{",
    "}",
    "[",
    "]",
    ";",
    ",",
    ".",
    "=",
    "==",
    "===",
    "=>",
    "?",
    ":",
    "+",
    "-",
    "!",
    "&&",
    "||",
    "const ",
    "let ",
    "if ",
    "else ",
    "while ",
    "for ",
    "of ",
    "return ",
    "throw ",
    "try ",
    "catch ",
    "E",
    "AmountMath",
    "true",
    "null",
    "when",
    "Far",
    "keys(",
    "push(",
    "start",
    "zcf",
    "seat",
    "x",
    "async ",
    "'",
    '"',
    "'a'",
    "\\",
    "//",
    "/*",
    "\n",
    "\t",
    " ",
    "\0",
    "ä",
    "9" * 40 + "n",
    "y" * 65,
    "( (",
    "export ",
)


def texts_of_examples():
    """Every text that a line of an example installs, and every contract file."""
    texts = set()
    for journal in program.journals_of_examples():
        script = program.script_of(journal)
        with open(script, "rb") as file:
            data = file.read()
        for raw in data.split(b"\n"):
            line = tool.object_of(raw)
            if line and line.get("do") == "install" and isinstance(line.get("args"), list) and line["args"]:
                if isinstance(line["args"][0], str):
                    texts.add(line["args"][0].encode("utf-8", "surrogatepass"))
    return sorted(texts)


def mutated(texts, count):
    """Texts with one to three small changes: pieces put in, taken out, doubled, moved or cut off, names swapped."""
    chance = random.Random(int(os.environ.get("VUHKLANE_SEED", "20261201")))
    made = []
    while len(made) < count:
        text = chance.choice(texts).decode("utf-8")
        for _ in range(chance.randint(1, 3)):
            text = _changed(chance, text)
        if len(text.encode()) <= contract_text.MOST_BYTES:
            made.append(text.encode())
    return made


def _changed(chance, text):
    at = chance.randint(0, len(text))
    to = min(len(text), at + chance.choice((1, 1, 1, 2, 3, 5, 8, 13)))
    other = chance.randint(0, len(text))
    return chance.choice(
        (
            lambda: text[:at] + text[to:],
            lambda: text[:at] + chance.choice(PIECES) + text[at:],
            lambda: text[:at] + chance.choice(PIECES) + text[to:],
            lambda: text[:to] + text[at:],
            lambda: text[:other] + text[at:to] + text[other:],
            lambda: text[:at],
            lambda: _renamed(chance, text),
            lambda: _renamed(chance, text),
            lambda: _renamed(chance, text),
        )
    )()


def _renamed(chance, text):
    """One word in place of another, so that faults of names come too."""
    words = list(re.finditer(r"[A-Za-z_]\w*", text, re.A))
    if not words:
        return text
    word, other = chance.choice(words), chance.choice(words)
    return text[: word.start()] + other.group() + text[word.end() :]


def told_by_program(texts):
    """Of each text [place, kind], or None where it is installed."""
    line = {"by": "a", "on": "zoe", "do": "install"}
    lines = b"".join(json.dumps({**line, "args": [text.decode("utf-8")]}).encode() + b"\n" for text in texts)
    rows = [json.loads(row) for row in program.run(lines, "--turns", str(len(texts))).splitlines()]
    answers = [row["answer"] for row in rows if row["row"] == "turn"]
    return [answer["refused"]["shown"] if "refused" in answer else None for answer in answers]


def told_by_lint(text):
    refusal, _ = contract_text.check(text)
    return [refusal.place, refusal.kind] if refusal else None


@unittest.skipUnless(program.program(), "no program is here")
class AsTheProgram(unittest.TestCase):
    def compare(self, texts):
        for begin in range(0, len(texts), IN_ONE_RUN):
            some = texts[begin : begin + IN_ONE_RUN]
            told = told_by_program(some)
            self.assertEqual(len(told), len(some))
            for text, wanted in zip(some, told):
                self.assertEqual(told_by_lint(text), wanted, text.decode("utf-8", "replace"))

    def test_the_texts_of_the_examples(self):
        texts = texts_of_examples()
        self.assertGreater(len(texts), 50)
        self.compare(texts)

    def test_mutated_texts(self):
        count = int(os.environ.get("VUHKLANE_MUTATED", MUTATED))
        self.compare(mutated(texts_of_examples(), count))


class Alone(unittest.TestCase):
    TEXTS = (
        (b"", [0, "NoStart"]),
        (b"const start = (zcf, priv) => { return x; };", [38, "Unknown"]),
        (b"const start = (zcf, priv) => { return 1 + 2n; };", [38, "Syntax"]),
        (b"const start = (zcf, priv) => { const n = 1n; n = 2n; };", [45, "AssignConst"]),
        (b"const start = (zcf, priv) => { return { a: 1n, b: 2n, a: 3n }; };", [54, "Duplicate"]),
        (b"const start = (zcf, priv) => { return { if }; };", [40, "Reserved"]),
        (b"const begin = (zcf, priv) => { return null; };", [46, "NoStart"]),
        (b"const start = (zcf, priv) => { return " + b"9" * 5000 + b"n; };", [38, "Wide"]),
        (b"const start = (zcf, priv) => { return " + b"(" * 32, [69, "TooDeep"]),
        (b" " * 65537, [65536, "TooLong"]),
    )

    def test_texts_of_the_page(self):
        for text, wanted in self.TEXTS:
            self.assertEqual(told_by_lint(text), wanted, text[:80])

    def test_usual_mistakes_are_mended(self):
        whole = "const start = (zcf, priv) => { %s };"
        for body, words in (
            ("let x;", "a declaration has a value"),
            ("if (a) return;", "have braces"),
            ("x += 1n;", "x = x + 1n"),
            ("return a == b;", "=== compares"),
            ("return `a`;", "template"),
            ("const f = (x) => { return x; };", "at the top"),
            ("for (let i = 0n; i < 3n; i = i + 1n) { }", "loops are"),
            ("r.a = 1n;", "put(r, 'a', v)"),
            ("return a ?? b;", "no ?."),
            ("await x;", "`await` is no part"),
        ):
            refusal, _ = contract_text.check((whole % body).encode())
            self.assertIn(words, refusal.mending, body)

    def test_place_line_and_column(self):
        self.assertEqual(contract_text.position("ä\n b".encode(), 4), (2, 2, " b"))
        self.assertEqual(contract_text.position("ää b".encode(), 5), (1, 4, "ää b"))
        self.assertEqual(contract_text.position(b"a\n", 2), (2, 1, ""))


class AsACommand(unittest.TestCase):
    def lint(self, data, *words):
        return program.call_tool_on("lint.py", "c.js", data, before=words)

    def test_a_refusal_has_line_column_and_caret(self):
        status, out, _ = self.lint(b"const start = (zcf, priv) => {\n  return 1;\n};\n")
        self.assertEqual(status, 1)
        self.assertEqual(
            out.splitlines(),
            [
                "c.js:2:10: error Syntax (byte 40): numbers are whole and end with n, as 12n",
                "      return 1;",
                " " * 13 + "^",
            ],
        )

    def test_a_warning_ends_well(self):
        text = b"const start = (zcf, priv) => { return priv.purse.deposit(priv.p); };"
        status, out, _ = self.lint(text)
        self.assertEqual(status, 0)
        self.assertIn("warning: `.deposit(..)` is no method", out)
        self.assertEqual(self.lint(text, "--strict")[0], 1)

    def test_each_script_and_contract_of_the_examples(self):
        scripts = [program.script_of(journal) for journal in program.journals_of_examples()]
        contracts = glob.glob(os.path.join(program.EXAMPLES, "contracts", "*.js"))
        self.assertEqual(program.call_tool("lint.py", "--strict", *contracts), (0, "", ""))
        for script in scripts:
            status, _, err = program.call_tool("lint.py", script)
            self.assertIn(
                (status, err),
                ((0, ""), (1, ""), (2, f"lint.py: {script}: no script: no line of it is a JSON object\n")),
            )

    def test_what_is_no_text_ends_with_2_and_one_line(self):
        for data in (b" " * 65537, b"\xff\xfe"):
            status, out, err = self.lint(data)
            self.assertEqual((status, out, err.count("\n")), (2, "", 1))
        status, _, err = program.call_tool("lint.py", "/none/such.js")
        self.assertEqual((status, err), (2, "lint.py: /none/such.js: No such file or directory\n"))


if __name__ == "__main__":
    unittest.main()
