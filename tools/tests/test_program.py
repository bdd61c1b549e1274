"""./vuhklane: which program it runs, and when it compiles, with a compiler and programs that only pretend."""
import os
import shutil
import subprocess
import tempfile
import unittest

from tests import program

EMPTY_JOURNAL = os.path.join(program.EXAMPLES, "empty.journal.jsonl")
PRETENDED_PROGRAM = f"""#!/bin/sh
if [ "$*" = run ]; then cat '{EMPTY_JOURNAL}'; else echo "{{name}} $*"; exit 7; fi
"""
# As `rt try` does, it makes the program's file in a folder of TMPDIR, runs it, and takes the folder away.
PRETENDED_RT = """#!/bin/sh
mkdir -p "$TMPDIR/a/b"
echo begun > "$TMPDIR/a/b/program"
sleep 0.4
cp '{room}/made' "$TMPDIR/a/b/program.new" && mv "$TMPDIR/a/b/program.new" "$TMPDIR/a/b/program"
echo compiled >> '{room}/count'
sleep {held}
rm -r "$TMPDIR/a"
exit 2
"""


class Vuhklane(unittest.TestCase):
    def setUp(self):
        room = tempfile.TemporaryDirectory()
        self.addCleanup(room.cleanup)
        self.room = room.name
        os.makedirs(f"{self.room}/crates/zoe_run/src")
        os.makedirs(f"{self.room}/bin")
        shutil.copy(os.path.join(program.TOP, "vuhklane"), self.room)
        self.write("crates/zoe_run/src/main.rt", "one")
        self.write("crates.txt", "zoe_run:")
        self.write("made", PRETENDED_PROGRAM.replace("{name}", "unproved"), 0o755)
        self.pretend_rt(held=20)

    def write(self, path, text, mode=0o644):
        with open(os.path.join(self.room, path), "w", encoding="utf-8") as file:
            file.write(text)
        os.chmod(os.path.join(self.room, path), mode)

    def pretend_rt(self, held):
        self.write("bin/rt", PRETENDED_RT.replace("{room}", self.room).replace("{held}", str(held)), 0o755)

    def run_it(self, *words):
        path = f"{self.room}/bin:{os.environ['PATH']}"
        done = subprocess.run(
            [f"{self.room}/vuhklane", *words],
            input=b"",
            capture_output=True,
            env={**os.environ, "PATH": path},
            check=False,
        )
        return done.returncode, done.stdout.decode(), done.stderr.decode()

    def git(self, *words):
        done = subprocess.run(["git", "-C", self.room, *words], capture_output=True, check=True)
        return done.stdout.decode()

    def compiled(self):
        if not os.path.isfile(f"{self.room}/count"):
            return 0
        with open(f"{self.room}/count", encoding="utf-8") as file:
            return len(file.read().splitlines())

    def test_it_compiles_once_for_each_state_of_the_sources(self):
        status, out, err = self.run_it("run", "--turns", "5")
        self.assertEqual((status, out), (7, "unproved run --turns 5\n"))
        self.assertIn("compiles the program without proofs", err)
        self.assertIn("this program is unproved", err)
        status, out, err = self.run_it("--help")
        self.assertEqual((status, out, err.count("\n"), self.compiled()), (7, "unproved --help\n", 1, 1))
        self.write("crates/zoe_run/src/main.rt", "two")
        self.run_it("run")
        self.assertEqual(self.compiled(), 2)
        self.assertEqual([name for name in os.listdir(f"{self.room}/unproved") if name.startswith("build-")], [])

    def test_the_proved_program_is_run_where_it_is_newest(self):
        os.makedirs(f"{self.room}/crates/zoe_run/out")
        self.write("crates/zoe_run/out/zoe_run", PRETENDED_PROGRAM.replace("{name}", "proved"), 0o755)
        self.assertEqual(self.run_it("run", "x"), (7, "proved run x\n", ""))
        told = "vuhklane: this program is proved: crates/zoe_run/out/zoe_run\n"
        self.assertEqual(self.run_it("x"), (7, "proved x\n", told))
        os.utime(f"{self.room}/crates/zoe_run/out/zoe_run", (1, 1))
        status, out, err = self.run_it("x")
        self.assertEqual((status, out), (7, "unproved x\n"))
        self.assertIn("is older than the sources", err)

    @unittest.skipUnless(shutil.which("git"), "git isn't here")
    def test_it_tells_the_commit_and_whether_the_sources_were_changed(self):
        self.write(".gitignore", "out/\nunproved/\n")
        told = self.git("init", "--quiet", ".") + self.git("add", "crates", "crates.txt", ".gitignore")
        told += self.git("-c", "user.name=n", "-c", "user.email=n@n.example", "commit", "--quiet", "-m", "m")
        self.assertEqual(told, "")
        commit = self.git("rev-parse", "--short", "HEAD").strip()
        self.assertTrue(self.run_it("run")[2].endswith(f"(rt ci proves them); commit {commit}\n"))
        self.write("crates/zoe_run/src/main.rt", "two")
        self.assertTrue(self.run_it("run")[2].endswith(f"; commit {commit}, changed\n"))

    def test_what_it_cannot_compile_ends_with_70(self):
        self.write("made", "#!/bin/sh\nexit 1\n", 0o755)
        self.pretend_rt(held=1)
        status, out, err = self.run_it("run")
        self.assertEqual((status, out), (70, ""))
        self.assertIn("left no program", err)


if __name__ == "__main__":
    unittest.main()
