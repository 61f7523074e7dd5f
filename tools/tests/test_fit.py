"""./fit: what it says and does around the program."""

import os
import shutil
import stat

from support import FIT, NO_SETTINGS, SIX, Case, answer_to, expiry, records

RT = """#!/bin/sh
# Stands for the prover: writes a program that counts what it reads, and prints an answer.
echo "$@" >> ../../../calls
[ "$(basename "$PWD") $*" = "fit run" ] || exit 2
[ ! -e ../../../broken ] || { echo "rt: fit is not proved"; exit 1; }
mkdir -p out
cp ../../../program out/fit
"""


class Fit(Case):
    def setUp(self):
        super().setUp()
        self.root = os.path.join(self.folder, "repository")
        os.makedirs(os.path.join(self.root, "crates", "fit"))
        os.makedirs(os.path.join(self.folder, "bin"))
        shutil.copy(FIT, self.root)
        os.mkdir(os.path.join(self.root, "tools"))
        shutil.copy(os.path.join(os.path.dirname(FIT), "tools", "library"), os.path.join(self.root, "tools"))
        self.put("repository/crates.txt", "fit:\n")
        self.script("bin/rt", RT)
        self.put("answer.txt", answer_to(SIX))
        self.script("program", f"#!/bin/sh\nset -e\ncat > {self.folder}/seen\ncat {self.folder}/answer.txt\n")
        self.put("day.house", NO_SETTINGS + expiry(0.25) + records(*SIX))

    def script(self, name, text):
        os.chmod(os.path.join(self.folder, self.put(name, text)), stat.S_IRWXU)

    def fit(self, *args, given=b"", rt=True):
        path = f"{self.folder}/bin:/usr/bin:/bin" if rt else "/usr/bin:/bin"
        return self.run_tool("repository/fit", *args, given=given, env={"PATH": path})

    def content(self, name):
        with open(os.path.join(self.folder, name), "rb") as file:
            return file.read()

    def calls(self):
        return self.content("calls").count(b"\n")

    def test_builds_once_then_only_runs(self):
        first = self.fit("day.house")
        self.assertEqual((first.returncode, first.stdout.decode()), (0, answer_to(SIX)))
        self.assertIn(b"fit: waiting for the proof and build of the program, once", first.stderr)
        self.assertEqual(first.stderr.count(b"\n"), 1)
        self.assertEqual(self.content("seen"), self.content("day.house"))
        second = self.fit(given=self.content("day.house"))
        self.assertEqual((second.returncode, second.stdout.decode(), second.stderr), (0, answer_to(SIX), b""))
        self.assertEqual(self.content("seen"), self.content("day.house"))
        self.assertEqual(self.calls(), 1)
        self.assertEqual(self.fit("day.house", rt=False).returncode, 0)

    def test_builds_again_after_a_change(self):
        self.fit("day.house")
        source = os.path.join(self.folder, self.put("repository/crates/fit/main.rt", "fn main() {}\n"))
        os.utime(source, (2**32 - 1, 2**32 - 1))
        self.fit("day.house")
        self.assertEqual(self.calls(), 2)

    def test_a_refusal_has_a_status_of_its_own(self):
        self.put("answer.txt", "read 9 kept 1\nrefused 3 1 5\n")
        done = self.fit("day.house")
        self.assertEqual((done.returncode, done.stdout), (2, b"read 9 kept 1\nrefused 3 1 5\n"))

    def test_errors(self):
        def message(*args, **words):
            done = self.fit(*args, **words)
            self.assertEqual((done.returncode, done.stdout), (1, b""))
            return done.stderr.decode()

        self.assertEqual(message("nothere.house"), "fit: nothere.house: there is no such file\n")
        self.assertEqual(message("."), "fit: .: a folder, not a file\n")
        self.assertEqual(message("day.house", "day.house"), "fit: one file at a time (./fit --help)\n")
        self.assertEqual(message("--fast"), "fit: '--fast' is not known (./fit --help)\n")
        self.assertIn("there is no 'rt' on the PATH", message("day.house", rt=False))
        self.put("broken", "")
        self.assertTrue(message("day.house").endswith("fit: the program could not be built; the last words of target/fit.log: rt: fit is not proved\n"))
        os.remove(f"{self.folder}/broken")
        self.script("program", "#!/bin/sh\nexit 4\n")
        self.assertTrue(message("day.house").endswith("fit: the program stopped before its answer was complete\n"))

    def test_help(self):
        done = self.fit("--help", rt=False)
        self.assertEqual((done.returncode, done.stderr), (0, b""))
        self.assertTrue(done.stdout.startswith(b"usage: ./fit [FILE]\n"))
