#!/usr/bin/env python3
"""A prompt: calls are typed line by line, and what comes of each is told at once.

  tools/talk.py [PROGRAM [SCRIPT.say]]        PROGRAM is ./vuhklane where none is named

    alice: moola = ertp.makeIssuerKit("moola")     as tools/say.py has it, or a whole JSON line
    :held          what is held, and which seats are open
    :undo          takes the last line back
    :save FILE     writes the JSON lines so far
    :quit          ends, as the end of the input does

All that waits is run behind each line. The program keeps nothing between runs, so the whole script is run
anew for each line: the same lines give the same journal. The exit status is 0, or 2 where the program or
the script can't be used."""
import argparse
import os
import subprocess
import sys

import journal as journals
import say
import tell
from tool import BadInput, end_with

TOP = os.path.dirname(os.path.dirname(os.path.realpath(__file__)))
RUN_ALL = '{"run":100000}'
MOST_TURNS = "1000000"


class Talk:
    def __init__(self, program, out):
        self.program = program
        self.out = out
        self.lines = []
        self.told = 0  # the turns that were told by now
        self.has_run = False

    def journal(self):
        """The journal of the lines so far. What the program says on standard error is shown the first time alone."""
        try:
            done = subprocess.run(
                [self.program, "run", "--turns", MOST_TURNS],
                input="".join(line + "\n" for line in self.lines).encode(),
                stdout=subprocess.PIPE,
                stderr=subprocess.PIPE if self.has_run else None,
                check=False,
            )
        except OSError as error:
            raise BadInput(f"{self.program}: {error.strerror}") from None
        self.has_run = True
        if done.returncode:
            raise BadInput(f"{self.program} ended with status {done.returncode}")
        return journals.journal_of(self.program, done.stdout)

    def load(self, path):
        self.lines = say.lines_of(path) + [RUN_ALL]
        self.told = len(self.journal().turns)
        self.out.write(f"{self.told} turns\n")

    def step(self, text):
        """Adds a line and tells its turns; a line that can't be read isn't added."""
        line = text if text.startswith("{") else say.json_of(say.line_of(text, os.getcwd()))
        self.lines += [line, RUN_ALL]
        journal = self.journal()
        tell.tell(journal, self.script(), after=self.told, out=self.out, ending=False)
        self.told = len(journal.turns)

    def script(self):
        return ("what was typed", "".join(line + "\n" for line in self.lines).encode())

    def held(self):
        journal = self.journal()
        tell.tell(journal, self.script(), after=len(journal.turns), out=self.out)

    def undo(self):
        del self.lines[-2:]
        self.told = len(self.journal().turns)
        self.out.write(f"{self.told} turns\n")

    def save(self, path):
        with open(path, "w", encoding="utf-8") as file:
            file.write("".join(line + "\n" for line in self.lines))

    def answer(self, text):
        """Works one typed line; whether to go on."""
        if text == ":quit":
            return False
        if text == ":held":
            self.held()
        elif text == ":undo":
            self.undo()
        elif text.startswith(":save "):
            self.save(text[len(":save ") :].strip())
        elif text.startswith(":"):
            self.out.write("? there are :held, :undo, :save FILE and :quit\n")
        elif text:
            self.step(text)
        return True


def talk(talking):
    while True:
        try:
            text = input("> ").strip()
        except EOFError:
            return
        try:
            if not talking.answer(text):
                return
        except (say.NotRead, OSError) as fault:
            talking.out.write(f"? {fault}\n")


def main(words):
    parser = argparse.ArgumentParser(
        prog="tools/talk.py", description=__doc__, formatter_class=argparse.RawDescriptionHelpFormatter
    )
    parser.add_argument("program", nargs="?", default=os.path.join(TOP, "vuhklane"))
    parser.add_argument("script", nargs="?", help="a readable script to begin with")
    chosen = parser.parse_args(words)
    talking = Talk(chosen.program, sys.stdout)
    if chosen.script:
        talking.load(chosen.script)
    else:
        talking.journal()  # so that a program that can't be run is told before anything is typed
    talk(talking)
    return 0


if __name__ == "__main__":
    end_with(main, sys.argv[1:])
