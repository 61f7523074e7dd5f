"""tools/believe on a repository of two crates: what is counted is what public contracts reach, and nothing else."""

import os
import shutil
import subprocess
import tempfile
import unittest

from support import ROOT

WORDS = """-- Definitions only.
use Rattle.std.specs.Prelude.{ℕ, suc}
use Rattle.base.specs.declared.Pair.{Pair}

-- two lines
abbrev pub deep : ℕ → ℕ
deep n = suc n

-- three lines, and a name that is reached through an operator
infixl 60 ◌+w◌
abbrev pub ◌+w◌ : ℕ → ℕ → ℕ
a +w b = deep a

-- two lines; `low` and `high` are fields here, and no words
unfoldable pub pair_of : ℕ → Pair
unfolding deep
pair_of n = record { low = n; high = n }

abbrev pub low : Pair → ℕ
low p = p.high

abbrev pub high : ℕ
high = 0
"""

LIB = """pub mod open; // open.rt
mod hidden; // hidden.rt
ghost use Rattle.base.specs.Words.{◌+w◌, low};

// A comment that names low.
pub struct Pair {
    pub low: u64,
    pub high: u64,
}

fn inside(p: Pair) -> u64
    ensures { result ≡ low p }
{
    p.high
}

pub fn sum(a: u64, b: u64) -> u64
    ensures { result ≡ a +w b }
{
    a + 1
}
"""

OPEN = """ghost use Rattle.base.specs.Words.{pair_of, low};
use crate::Pair;

pub(crate) fn lower(p: Pair) -> u64
    ensures { result ≡ low p }
{
    p.high
}

impl Pair {
    pub fn of(n: u64) -> Pair
        ensures { result ≡ pair_of n }
    {
        Pair { low: n, high: n }
    }
}
"""

HIDDEN = """ghost use Rattle.base.specs.Words.{high};

pub fn most() -> u64
    ensures { result ≡ high }
{
    0
}
"""

# its clauses have names, and one of them brackets
PORT = """ghost use Rattle.base.specs.Words.{◌+w◌ as ◌plus◌};

pub fn port_sum(a: u64, b: u64) -> u64
    requires { a ≤ b }
    ensures value { result ≡ a plus b }
    ensures in_brackets { record { low = result } ≡ record { low = a } }
{
    base::sum(a, b)
}
"""


class Believe(unittest.TestCase):
    def believe(self, *words, changed={}):
        with tempfile.TemporaryDirectory() as root:
            files = {"base/specs/Words.antt": WORDS, "base/src/lib.rt": LIB, "base/src/open.rt": OPEN, "base/src/hidden.rt": HIDDEN, "port/src/lib.rt": PORT}
            for name, text in {**files, **changed}.items():
                path = os.path.join(root, "crates", name)
                os.makedirs(os.path.dirname(path), exist_ok=True)
                with open(path, "w", encoding="utf-8") as file:
                    file.write(text)
            os.mkdir(os.path.join(root, "tools"))
            shutil.copy(os.path.join(ROOT, "tools", "believe"), os.path.join(root, "tools"))
            return subprocess.run([os.path.join(root, "tools", "believe"), *words], capture_output=True, text=True)

    def test_counts_what_public_contracts_reach(self):
        done = self.believe()
        rows = [line.split() for line in done.stdout.split("\n")]
        self.assertIn(["in", "all", "0", "5", "7"], rows, done.stderr)
        self.assertIn(["structs", "and", "enums", "0", "0", "4"], rows)

    def test_lists_what_only_inner_functions_cite(self):
        done = self.believe("--unreached")
        self.assertEqual(done.stdout.split("\n"), ["base/specs/Words·high 2", "base/specs/Words·low 2", ""], done.stderr)

    def test_refuses_a_word_of_proofs(self):
        done = self.believe(changed={"port/src/lib.rt": PORT.replace("base.specs.Words", "base.proofs.Words")})
        self.assertEqual((done.returncode, done.stdout), (1, ""))
        self.assertIn("base/proofs.Words·◌+w◌ is no declaration of specs/", done.stderr)


if __name__ == "__main__":
    unittest.main()
