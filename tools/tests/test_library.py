"""tools/library: what is built anew, and when."""

import os
import shutil
import stat

from support import FIT, Case

RT = """#!/bin/sh
# Stands for the prover: writes a library that has the sources in it.
echo "$(basename "$PWD") $*" >> {folder}/calls
[ ! -e {folder}/broken ] || {{ echo "rt: port is not proved"; exit 1; }}
mkdir -p out
cat ../port/lib.rt > out/libport_c.a
"""


class Library(Case):
    def setUp(self):
        super().setUp()
        self.root = os.path.join(self.folder, "repository")
        for crate in ("port", "port_c"):
            os.makedirs(os.path.join(self.root, "crates", crate))
        os.makedirs(os.path.join(self.root, "tools"))
        os.makedirs(os.path.join(self.folder, "bin"))
        shutil.copy(os.path.join(os.path.dirname(FIT), "tools", "library"), os.path.join(self.root, "tools"))
        self.put("repository/crates.txt", "port:\nport_c staticlib: port\n")
        self.source = os.path.join(self.folder, self.put("repository/crates/port/lib.rt", "first"))
        # as on a machine for which rt compiles
        os.mkdir(os.path.join(self.folder, "x86"))
        for name, text in (("bin/rt", RT.format(folder=self.folder)), ("x86/uname", "#!/bin/sh\necho x86_64\n")):
            os.chmod(os.path.join(self.folder, self.put(name, text)), stat.S_IRWXU)

    def library(self, *args, rt=True, **env):
        path = f"{self.folder}/x86:" + (f"{self.folder}/bin:" if rt else "") + "/usr/bin:/bin"
        return self.run_tool("repository/tools/library", *args, env=dict(env, PATH=path))

    def calls(self):
        with open(os.path.join(self.folder, "calls"), encoding="utf-8") as file:
            return file.read().splitlines()

    def test_builds_once(self):
        done = self.library()
        self.assertEqual((done.returncode, done.stdout.decode().strip()), (0, os.path.join(os.path.realpath(self.root), "target/staticlib")))
        self.assertEqual(self.library(rt=False).returncode, 0)
        self.assertEqual(self.calls(), ["port_c lib"])

    def test_a_source_that_is_newer_is_noticed(self):
        self.library()
        for later, changed in enumerate([self.source, os.path.join(self.root, "crates.txt")]):
            os.utime(changed, (2**32 - 2 + later, 2**32 - 2 + later))
            self.library()
            self.assertEqual(len(self.calls()), 2 + later)
            os.utime(changed, (1, 1))

    def test_what_rt_keeps_is_no_source(self):
        self.library()
        kept = os.path.join(self.root, "crates", "port_c", "out", "libport_c.a")
        os.utime(kept, (2**32 - 1, 2**32 - 1))
        os.utime(os.path.dirname(os.path.dirname(kept)), (2**32 - 1, 2**32 - 1))
        self.library()
        self.assertEqual(len(self.calls()), 1)

    def test_which_names_what_it_is(self):
        first = self.library("--which").stdout
        self.assertRegex(first.decode(), r"^library: commit \S+, libport\.a [0-9a-f]{16}\n$")
        self.put("repository/crates/port/lib.rt", "second")
        os.utime(self.source, (2**32 - 1, 2**32 - 1))
        self.assertNotEqual(self.library("--which").stdout, first)

    def test_another_folder_is_taken_as_it_is(self):
        other = os.path.join(self.folder, "other")
        os.makedirs(other)
        self.put("other/libport.a", "theirs")
        done = self.library(KESUPAYRO_LIB=other)
        self.assertEqual((done.returncode, done.stdout.decode()), (0, other + "\n"))
        self.assertFalse(os.path.exists(os.path.join(self.folder, "calls")))

    def test_errors(self):
        def message(*args, **words):
            done = self.library(*args, **words)
            self.assertEqual((done.returncode, done.stdout), (1, b""))
            return done.stderr.decode()

        self.assertIn("there is no 'rt' on the PATH", message(rt=False))
        self.assertEqual(message(KESUPAYRO_LIB="nowhere"), "there is no libport.a in nowhere\n")
        self.put("broken", "")
        self.assertEqual(message(), "the library could not be built; the last words of target/library.log: rt: port is not proved\n")
        self.assertEqual(self.library("--fast").returncode, 2)
