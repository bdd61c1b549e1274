"""Reads contract texts as the program's `install` does, and says what is wrong in words for authors.

`check(text)` gives the first refusal of a text, with the very place and kind that the program shows, and
warnings of what installs but is probably a mistake. Places are bytes from 0, so the text is read as bytes
and worked on as one character for each byte (latin-1); `position` turns a place into line and column.

docs/LANGUAGE.md has the language: its forms, its names, and when a text is refused."""
import re
from typing import NamedTuple

MOST_BYTES = 65536
MOST_NAME_BYTES = 64
MOST_BRACKETS = 32
MOST_FUNCTIONS = 256
MOST_PARAMETERS = 8
MOST_VARIABLES = 64
MOST_NUMBER = 2**127 - 1

TOKEN = re.compile(
    r"""(?P<space>[ \t\r\n]+|//[^\n]*)
      |(?P<word>[A-Za-z_][A-Za-z0-9_]*)
      |(?P<number>[0-9]+n)
      |(?P<text>'(?:[^'\\\n]|\\[nt\\'"])*'|"(?:[^"\\\n]|\\[nt\\'"])*")
      |(?P<mark>===|!==|=>|\|\||&&|<=|>=|[()\[\]{},;:.=?<>+\-*/%!])
      |(?P<other>.)""",
    re.S | re.A | re.X,
)

GRAMMAR_WORDS = frozenset(
    "const let export if else while for of return throw try catch E AmountMath true false null".split()
)
BUILT_IN = {  # name: how many arguments it takes, at least and at most
    "when": (2, 3),
    "Far": (2, 3),
    "harden": (1, 1),
    "keys": (1, 1),
    "len": (1, 1),
    "push": (2, 2),
    "put": (3, 3),
}
ABSENT = frozenset(
    "async await break case class continue debugger default delete do enum extends finally function import in"
    " instanceof new super switch this typeof undefined var void with yield NaN Infinity".split()
)
RESERVED = GRAMMAR_WORDS | frozenset(BUILT_IN) | ABSENT
AMOUNT_MATH = {  # method: how many arguments it takes
    "make": 2,
    "makeEmpty": 1,
    "makeEmptyFromAmount": 1,
    "isEmpty": 1,
    "coerce": 2,
    "getValue": 2,
    "isGTE": 2,
    "isEqual": 2,
    "add": 2,
    "subtract": 2,
    "min": 2,
    "max": 2,
}
HOME_METHODS = frozenset(  # what a contract calls at once: of its zcf, its seats and its mints
    """makeInvitation makeEmptySeatKit atomicRearrange reallocate depositToSeat withdrawFromSeat makeZCFMint
    saveIssuer assertUniqueKeyword getTerms getBrandForIssuer getIssuerForBrand getAssetKind getInstance
    getZoeService getInvitationIssuer stopAcceptingOffers shutdown shutdownWithFailure wakeAt getProposal
    hasExited getCurrentAllocation getStagedAllocation getAmountAllocated isOfferSafe incrementBy decrementBy
    clear exit fail mintGains burnLosses getIssuerRecord""".split()
)
JAVASCRIPT_METHODS = {
    "push": "xs = push(xs, v);",
    "map": "a loop: for (const x of xs) { .. }",
    "forEach": "a loop: for (const x of xs) { .. }",
    "filter": "a loop: for (const x of xs) { .. }",
    "find": "a loop: for (const x of xs) { .. }",
    "includes": "a loop: for (const x of xs) { .. }",
    "slice": "a loop: for (const x of xs) { .. }",
    "concat": "`+` of two texts, or push",
    "keys": "keys(r)",
    "then": "when(promise, f, data)",
    "catch": "when(promise, f, data)",
    "toString": "nothing: a number has no text here",
}


class Token(NamedTuple):
    kind: str  # word, number, text, mark, other, end
    text: str
    place: int


class Refusal(NamedTuple):
    place: int
    kind: str
    mending: str


class Warning_(NamedTuple):
    place: int
    what: str


class _Refused(Exception):
    """The first refusal while reading, at the token of this index."""

    def __init__(self, kind, index):
        super().__init__(kind)
        self.kind, self.index = kind, index


class _Fault(NamedTuple):
    """A fault of names; of several at one place the first of FAULT_ORDER is told."""

    place: int
    order: int
    kind: str


FAULT_ORDER = ("Reserved", "Duplicate", "Unknown", "AssignConst")


def tokens_of(text):
    """The tokens of a text, without spaces and comments, and an end token."""
    found = [Token(m.lastgroup, m.group(), m.start()) for m in TOKEN.finditer(text) if m.lastgroup != "space"]
    return found + [Token("end", "", len(text))]


class _Reader:
    """Reads one module by the grammar, token by token, and gathers the faults of its names on the way."""

    def __init__(self, text):
        self.text = text
        self.tokens = tokens_of(text)
        self.at = 0
        self.open_brackets = 0
        self.module_names = {}
        self.faults = []
        self.warnings = []
        self.module_uses = []  # (token, whether it is assigned): names that no block declares
        self.calls = []  # tokens of name(..)
        self.used = set()

    # Tokens.

    def token(self):
        return self.tokens[self.at]

    def refuse(self, kind="Syntax", index=None):
        raise _Refused(kind, self.at if index is None else index)

    def sees(self, *texts):
        token = self.token()
        return token.kind in ("word", "mark") and token.text in texts

    def take(self, text):
        if not self.sees(text):
            self.refuse()
        if text in "([{":
            self.open_brackets += 1
            if self.open_brackets > MOST_BRACKETS:
                self.refuse("TooDeep")
        elif text in ")]}":
            self.open_brackets -= 1
        self.at += 1

    def take_if(self, text):
        if not self.sees(text):
            return False
        self.take(text)
        return True

    def name(self):
        token = self.token()
        if token.kind != "word":
            self.refuse()
        if len(token.text) > MOST_NAME_BYTES:
            self.refuse("TooLong")
        self.at += 1
        return token

    def literal(self):
        token = self.token()
        if token.kind == "number":
            # A number of hundreds of digits is over the bound whatever it is: int() needn't read it.
            digits = token.text[:-1].lstrip("0")
            if len(digits) > 39 or int(digits or "0") > MOST_NUMBER:
                self.refuse("Wide")
        elif token.kind != "text" and not self.sees("true", "false", "null"):
            self.refuse()
        self.at += 1

    def items(self, close, one):
        """Items with commas between them, and one that may stand behind the last."""
        while not self.sees(close):
            one()
            if not self.take_if(","):
                break
        self.take(close)

    # Names.

    def fault(self, token, kind):
        self.faults.append(_Fault(token.place, FAULT_ORDER.index(kind), kind))

    def warn(self, token, what):
        self.warnings.append(Warning_(token.place, what))

    def declare(self, scope, token, kind):
        if token.text in RESERVED:
            self.fault(token, "Reserved")
        elif token.text in scope:
            self.fault(token, "Duplicate")
        scope.setdefault(token.text, kind)

    def read_name(self, scopes, token):
        self._use(scopes, token, assigned=False)

    def assign_name(self, scopes, token):
        self._use(scopes, token, assigned=True)

    def _use(self, scopes, token, assigned):
        if token.text in RESERVED:
            self.fault(token, "Reserved")
            return
        for scope in reversed(scopes):
            if token.text in scope:
                if assigned and scope[token.text] == "const":
                    self.fault(token, "AssignConst")
                return
        self.module_uses.append((token, assigned))

    def call_name(self, token):
        if token.text in BUILT_IN:
            return
        if token.text in RESERVED:
            self.fault(token, "Reserved")
        else:
            self.calls.append(token)

    def settle_names(self):
        """What the names of no block come to, once all of the module's are known."""
        for token, assigned in self.module_uses:
            self.used.add(token.text)
            kind = self.module_names.get(token.text)
            if kind is None:
                self.fault(token, "Unknown")
            elif assigned and kind == "function":
                self.fault(token, "AssignConst")
        for token in self.calls:
            self.used.add(token.text)
            if self.module_names.get(token.text) != "function":
                self.fault(token, "Unknown")

    # The module.

    def module(self):
        variables = functions = 0
        while self.token().kind != "end":
            if self.take_if("let"):
                variables += 1
                self.variable(variables)
            else:
                functions += 1
                self.function(functions)
        self.settle_names()

    def variable(self, count):
        index, name = self.at, self.name()
        if count > MOST_VARIABLES:
            self.refuse("TooMany", index)
        self.declare(self.module_names, name, "variable")
        self.take("=")
        self.constant()
        self.take(";")

    def function(self, count):
        self.take_if("export")
        self.take("const")
        index, name = self.at, self.name()
        if count > MOST_FUNCTIONS:
            self.refuse("TooMany", index)
        self.declare(self.module_names, name, "function")
        self.take("=")
        self.take("(")
        parameters = self.parameters()
        self.take(")")
        self.take("=>")
        self.block([parameters])
        self.take(";")

    def parameters(self):
        scope, count = {}, 0
        if self.sees(")"):
            return scope
        while True:
            index, name = self.at, self.name()
            count += 1
            if count > MOST_PARAMETERS:
                self.refuse("TooMany", index)
            self.declare(scope, name, "let")
            if not self.take_if(","):
                return scope

    def constant(self):
        if self.take_if("-"):
            if self.token().kind != "number":
                self.refuse()
            self.literal()
        elif self.take_if("["):
            self.items("]", self.constant)
        elif self.take_if("{"):
            seen = set()
            self.items("}", lambda: self.constant_field(seen))
        else:
            self.literal()

    def constant_field(self, seen):
        self.field_name(seen)
        self.take(":")
        self.constant()

    def field_name(self, seen):
        name = self.name()
        if name.text in seen:
            self.fault(name, "Duplicate")
        seen.add(name.text)
        return name

    # Statements.

    def block(self, scopes):
        self.take("{")
        here = {}
        scopes = scopes + [here]
        while not self.sees("}"):
            self.statement(scopes, here)
        self.take("}")

    def statement(self, scopes, here):
        if self.sees("const", "let"):
            self.declaration(scopes, here)
        elif self.take_if("if"):
            self.condition_and_block(scopes)
            self.else_parts(scopes)
        elif self.take_if("while"):
            self.condition_and_block(scopes)
        elif self.take_if("for"):
            self.loop(scopes)
        elif self.take_if("return"):
            if not self.sees(";"):
                self.expression(scopes)
            self.take(";")
        elif self.take_if("throw"):
            self.expression(scopes)
            self.take(";")
        elif self.take_if("try"):
            self.attempt(scopes)
        elif self.sees("{"):
            self.refuse()
        elif self.sees_assignment():
            name = self.name()
            self.take("=")
            self.assign_name(scopes, name)
            self.expression(scopes)
            self.take(";")
        else:
            self.expression(scopes)
            self.take(";")

    def sees_assignment(self):
        """A name and `=`. A word that begins an expression is no name here."""
        if self.token().kind != "word" or self.sees("E", "AmountMath", "true", "false", "null"):
            return False
        following = self.tokens[self.at + 1]
        return following.kind == "mark" and following.text == "="

    def declaration(self, scopes, here):
        kind = self.token().text
        self.take(kind)
        name = self.name()
        self.take("=")
        self.expression(scopes)
        self.take(";")
        self.declare(here, name, kind)

    def condition_and_block(self, scopes):
        self.group(scopes)
        self.block(scopes)

    def else_parts(self, scopes):
        while self.take_if("else"):
            if self.take_if("if"):
                self.condition_and_block(scopes)
            else:
                self.block(scopes)
                return

    def loop(self, scopes):
        self.take("(")
        self.take("const")
        name = self.name()
        self.take("of")
        self.expression(scopes)
        self.take(")")
        scope = {}
        self.declare(scope, name, "const")
        self.block(scopes + [scope])

    def attempt(self, scopes):
        self.block(scopes)
        self.take("catch")
        self.take("(")
        name = self.name()
        self.take(")")
        scope = {}
        self.declare(scope, name, "let")
        self.block(scopes + [scope])

    # Expressions.

    LEVELS = (  # from the loosest: the operators of a level, and whether only one may stand there
        (("||",), False),
        (("&&",), False),
        (("===", "!=="), True),
        (("<", "<=", ">", ">="), True),
        (("+", "-"), False),
        (("*", "/", "%"), False),
    )

    def group(self, scopes):
        self.take("(")
        self.expression(scopes)
        self.take(")")

    def expression(self, scopes):
        self.level(scopes, 0)
        if self.take_if("?"):
            self.level(scopes, 0)
            self.take(":")
            self.level(scopes, 0)

    def level(self, scopes, number):
        if number == len(self.LEVELS):
            self.unary(scopes)
            return
        operators, only_one = self.LEVELS[number]
        self.level(scopes, number + 1)
        while self.sees(*operators):
            self.take(self.token().text)
            self.level(scopes, number + 1)
            if only_one:
                return

    def unary(self, scopes):
        if self.sees("!", "-"):
            self.take(self.token().text)
        self.postfix(scopes)

    def postfix(self, scopes):
        self.primary(scopes)
        while True:
            if self.take_if("."):
                self.step(scopes)
            elif self.take_if("["):
                self.expression(scopes)
                self.take("]")
            else:
                return

    def step(self, scopes):
        name = self.name()
        if not self.sees("("):
            if name.text == "length":
                self.warn(name, "`.length` is a field of a record here: write len(x)")
            return
        arguments = self.arguments(scopes)
        self.warn_of_method(name, arguments)

    def warn_of_method(self, name, arguments):
        method = name.text
        if method not in HOME_METHODS:
            if method in JAVASCRIPT_METHODS:
                mending = f"write {JAVASCRIPT_METHODS[method]}"
            else:
                mending = f"send it: E(x).{method}(..) gives a promise, and when(..) tells what came of it"
            self.warn(name, f"`.{method}(..)` is no method of a zcf, a seat or a mint of the contract: {mending}")
        elif method == "makeInvitation" and arguments and arguments[0].kind == "text":
            self.warn(arguments[0], "the handler is named without quotes: makeInvitation(f, 'what for', data)")

    def arguments(self, scopes):
        """The first token of each argument."""
        self.take("(")
        begun = []

        def one():
            begun.append(self.token())
            self.expression(scopes)

        self.items(")", one)
        return begun

    def primary(self, scopes):
        token = self.token()
        if token.kind in ("number", "text") or self.sees("true", "false", "null"):
            self.literal()
        elif self.take_if("E"):
            self.group(scopes)
            self.take(".")
            self.name()
            self.arguments(scopes)
        elif self.take_if("AmountMath"):
            self.take(".")
            name = self.name()
            self.warn_of_amount_math(name, len(self.arguments(scopes)))
        elif token.kind == "word":
            self.named(scopes)
        elif self.sees("("):
            self.group(scopes)
        elif self.take_if("["):
            self.items("]", lambda: self.expression(scopes))
        elif self.take_if("{"):
            seen = set()
            self.items("}", lambda: self.field(scopes, seen))
        else:
            self.refuse()

    def warn_of_amount_math(self, name, count):
        if name.text not in AMOUNT_MATH:
            self.warn(name, f"AmountMath has no `{name.text}`: it has {', '.join(AMOUNT_MATH)}")
        elif AMOUNT_MATH[name.text] != count:
            self.warn(name, f"AmountMath.{name.text} takes {AMOUNT_MATH[name.text]}, not {count} arguments")

    def named(self, scopes):
        name = self.name()
        if not self.sees("("):
            self.read_name(scopes, name)
            return
        self.call_name(name)
        count = len(self.arguments(scopes))
        least, most = BUILT_IN.get(name.text, (0, count))
        if not least <= count <= most:
            wanted = str(least) if least == most else f"{least} to {most}"
            self.warn(name, f"{name.text} takes {wanted}, not {count} arguments")

    def field(self, scopes, seen):
        name = self.field_name(seen)
        if self.take_if(":"):
            self.expression(scopes)
        else:
            self.read_name(scopes, name)


# What a token that no form goes on with tells of the mistake. Each is a test of the token's text, the one
# before it and the one after it, and the mending in words; the first that fits is told.


def _has_absent_word(word, before, after):
    return word in ABSENT or before in ABSENT


MISTAKES = (
    (lambda w, b, a: w.isdigit(), lambda w, b, a: "numbers are whole and end with n, as 12n"),
    (
        lambda w, b, a: w == "import" or b == "import",
        lambda w, b, a: "there are no imports: E, Far, when, AmountMath and harden are built in",
    ),
    (_has_absent_word, lambda w, b, a: f"`{w if w in ABSENT else b}` is no part of the language"),
    (lambda w, b, a: w == "`", lambda w, b, a: "there are no template texts: '..' + x"),
    (
        lambda w, b, a: w[:1] in ("'", '"'),
        lambda w, b, a: "this text isn't closed on its line, or has another escape than \\n \\t \\\\ \\' \\\"",
    ),
    (lambda w, b, a: w == "/" and a in ("*", "/"), lambda w, b, a: "a comment is // on each line"),
    (lambda w, b, a: b == "?" and w in ("?", "."), lambda w, b, a: "there is no ?. and no ??: c ? a : b"),
    (lambda w, b, a: w == "?", lambda w, b, a: "one ?: in a row: brackets round the inner one"),
    (lambda w, b, a: w == "." and a == ".", lambda w, b, a: "there are no spreads: push, put, or a loop"),
    (
        lambda w, b, a: w in ("=", "+", "-") and b in ("+", "-", "*", "/"),
        lambda w, b, a: "there is no += and no ++: x = x + 1n;",
    ),
    (lambda w, b, a: w == "=" and a == "=", lambda w, b, a: "=== compares; there is no =="),
    (
        lambda w, b, a: w == "=",
        lambda w, b, a: "an assignment is a statement, and of a name: x = e;  xs = put(xs, i, v);  r = put(r, 'a', v);",
    ),
    (
        lambda w, b, a: w in ("===", "!==", "<", "<=", ">", ">="),
        lambda w, b, a: "one comparison in a row: brackets round the inner one",
    ),
    (lambda w, b, a: w in ("!", "-") and b in ("!", "-"), lambda w, b, a: "one sign: !(!a)"),
    (
        lambda w, b, a: w == "let" and b == "(" or b == "(" and a == "of",
        lambda w, b, a: "loops are while (c) { .. } and for (const x of xs) { .. }",
    ),
    (
        lambda w, b, a: w in ("return", "throw") or b == ")" and a in ("=", ";", "."),
        lambda w, b, a: "if, else and loops have braces: if (c) { return; }",
    ),
    (lambda w, b, a: b == "=>", lambda w, b, a: "a function has braces: (x) => { return e; };"),
    (
        lambda w, b, a: w == "=>" or b == "(" and w == ")" or b == "=" and w == "(",
        lambda w, b, a: "functions stand at the top of the text, not within others",
    ),
    (
        lambda w, b, a: b in ("const", "let") and w in ("{", "["),
        lambda w, b, a: "there is no destructuring: const x = r.x;",
    ),
    (lambda w, b, a: w == "{", lambda w, b, a: "a statement doesn't begin with {"),
    (lambda w, b, a: w == ";", lambda w, b, a: "a declaration has a value: let z = null;"),
    (lambda w, b, a: w == "}", lambda w, b, a: "a ; is missing before this"),
    (lambda w, b, a: b == "}", lambda w, b, a: "a function ends with };"),
    (lambda w, b, a: w == "", lambda w, b, a: "the text ends here: a brace or a ; is missing"),
    (
        lambda w, b, a: w[:1].isalpha() and b in (";", ""),
        lambda w, b, a: "at the top stand `let` variables and `const` functions alone",
    ),
)
MENDINGS = {
    "Wide": "a number is at most 2^127 - 1",
    "TooLong": f"a name has at most {MOST_NAME_BYTES} bytes",
    "TooDeep": f"at most {MOST_BRACKETS} brackets are open at once",
    "TooMany": f"at most {MOST_FUNCTIONS} functions, {MOST_PARAMETERS} parameters, {MOST_VARIABLES} state variables",
    "Reserved": "this word is reserved: take another name",
    "Duplicate": "this name stands already here: take another",
    "Unknown": "nothing of this name is known here; f(x) calls functions of the module alone",
    "AssignConst": "a const, a loop's name and a function can't be assigned: declare it with let",
    "NoStart": "there is no function start: const start = (zcf, priv) => { .. };",
}
TEXT_TOO_LONG = f"a text has at most {MOST_BYTES:,} bytes"


def mending(kind, word, before, after):
    """What to write in place of a mistake, by the token that is refused and its neighbours."""
    if kind != "Syntax":
        return MENDINGS.get(kind, "this is no contract text")
    for fits, words in MISTAKES:
        if fits(word, before, after):
            return words(word, before, after)
    return "no form goes on with this"


def mending_at(text, place, kind):
    """The mending of a refusal that the program has shown, found by the text and the place."""
    tokens = tokens_of(text)
    index = next((i for i, token in enumerate(tokens) if token.place >= place), len(tokens) - 1)
    return _mending_of(tokens, index, kind)


def _mending_of(tokens, index, kind):
    before = tokens[index - 1].text if index else ""
    after = tokens[index + 1].text if index + 1 < len(tokens) else ""
    return mending(kind, tokens[index].text, before, after)


def check(data):
    """(the first refusal or None, the warnings) of a contract text, given as bytes."""
    if len(data) > MOST_BYTES:
        return Refusal(MOST_BYTES, "TooLong", TEXT_TOO_LONG), []
    text = data.decode("latin-1")
    reader = _Reader(text)
    try:
        reader.module()
    except _Refused as refused:
        place = reader.tokens[refused.index].place
        return Refusal(place, refused.kind, _mending_of(reader.tokens, refused.index, refused.kind)), []
    if reader.faults:
        fault = min(reader.faults)
        return Refusal(fault.place, fault.kind, MENDINGS[fault.kind]), []
    if reader.module_names.get("start") != "function":
        return Refusal(len(data), "NoStart", MENDINGS["NoStart"]), []
    return None, sorted(reader.warnings + _unused(reader))


def _unused(reader):
    """A warning for each function and variable that nothing names."""
    first = {}
    for token in reader.tokens:
        if token.kind == "word":
            first.setdefault(token.text, token.place)
    unused = [name for name in reader.module_names if name not in reader.used and name != "start"]
    return [Warning_(first[name], f"`{name}` is never used") for name in unused]


def position(data, place):
    """Line and column from 1, the column in characters, and the line itself, of a place in a text's bytes."""
    begin = data.rfind(b"\n", 0, place) + 1
    end = data.find(b"\n", begin)
    line = data[begin:] if end < 0 else data[begin:end]
    column = len(data[begin:place].decode("utf-8", "replace")) + 1
    return data.count(b"\n", 0, place) + 1, column, line.decode("utf-8", "replace").rstrip("\r")
