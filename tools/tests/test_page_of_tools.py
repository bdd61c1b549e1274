"""The commands of docs/TOOLS.md print what stands there."""
import os
import subprocess
import unittest

from tests import program


def commands_and_outputs(text):
    """Where a fenced block follows upon another at once, the first is typed, and prints the second."""
    blocks, block, end_of_last = [], None, None
    for number, line in enumerate(text.split("\n")):
        if line != "```" and block is not None:
            block.append(line)
        elif line == "```" and block is None:
            block, follows = [], end_of_last == number - 1
        elif line == "```":
            blocks.append(("\n".join(block), follows))
            block, end_of_last = None, number
    return [(blocks[index - 1][0], text) for index, (text, follows) in enumerate(blocks) if follows]


@unittest.skipUnless(program.program(), "no program is here")
class Commands(unittest.TestCase):
    def test_each_prints_what_stands_there(self):
        with open(os.path.join(program.TOP, "docs", "TOOLS.md"), encoding="utf-8") as file:
            pairs = commands_and_outputs(file.read())
        self.assertGreater(len(pairs), 2)
        for command, wanted in pairs:
            # whichever way the program is built, so that nothing is compiled here
            typed = command.replace("./vuhklane", program.program()).replace(
                "tools/talk.py", f"tools/talk.py {program.program()}"
            )
            done = subprocess.run(
                ["bash", "-c", typed], cwd=program.TOP, stdout=subprocess.PIPE, stderr=subprocess.DEVNULL, check=False
            )
            with self.subTest(command=command):
                self.assertEqual(done.stdout.decode().rstrip("\n "), wanted.rstrip("\n "))


if __name__ == "__main__":
    unittest.main()
