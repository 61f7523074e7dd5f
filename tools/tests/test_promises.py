"""tools/promises on a small tree: every name is looked up, and stands in the column for its kind."""

import contextlib
import io
import os
import sys
from unittest import mock

from support import Case, program

HEAD = "| Sentence | Definition, contract | Theorem | Edit |\n|---|---|---|---|\n"
SPECS = """\
-- a definition
unfoldable pub size_of : List ℕ → ℕ
size_of l = length l

pub record Answer : Type 0 where
  pub number : ℕ
"""
PROOFS = """\
pub size_grows : (l : List ℕ) (x : ℕ)
    → size_of l ≤ size_of (x ∷ l)
size_grows l x = search rules

pub half : ℕ → ℕ
half n = n / 2

pub Rising : List ℕ → Type 0
Rising l = ⊤

abbrev pub Short : Type 0
Short = ⊤

module _ (n : ℕ) where
  pub inside : n ≡ n
  inside = refl

-- what the walk counts
pub record Counted (n : ℕ) : Type 0 where
  pub least : 1 ≤ n
  pub most : n ≤ 64
"""
SOURCES = {
    "lib.rt": "pub mod lengths;\nmod rows;\npub const LIMIT: u64 = 3;\npub fn top(x: u64) -> u64\n    ensures { result ≡ x }\n{\n    x\n}\nfn bare(x: u64) -> u64 { x }\n"
    "pub struct Pair {\n    pub a: u64,\n}\nimpl Pair {\n    pub const ONE: u64 = 1;\n    pub fn new(a: u64) -> Pair\n        ensures { result ≡ pair_of a }\n    {\n        Pair { a }\n    }\n}\n",
    "lengths.rt": "pub mod deep;\npub fn with_one(x: u64) -> u64\n    ensures { result ≡ x }\n{\n    x\n}\n",
    "lengths/deep.rt": "pub fn lowest(x: u64) -> u64 ensures { result ≡ x } { x }\n",
    "rows.rt": "pub(crate) fn step(x: u64) -> u64\n    ensures { result ≡ x }\n{\n    x\n}\n",
}


class Promises(Case):
    def setUp(self):
        super().setUp()
        self.write("crates.txt", "a:\n")
        self.write("crates/a/specs/Sizes.antt", SPECS)
        self.write("crates/a/proofs/Grows.antt", PROOFS)
        self.write("crates/a/must-fail/wrong.edit", "# A wrong one.\nfile: src/lib.rt\nold: x\nnew: y\n")
        for name, text in SOURCES.items():
            self.write(f"crates/a/src/{name}", text)

    def write(self, name, text):
        path = os.path.join(self.folder, name)
        os.makedirs(os.path.dirname(path), exist_ok=True)
        with open(path, "w", encoding="utf-8") as file:
            file.write(text)

    def look(self, document):
        """The exit status and what it says, without the counts. The edit is named below what is asked about."""
        self.write("docs/PROMISES.md", document + "\n\nThe edit `a!wrong`.\n")
        out = io.StringIO()
        with mock.patch.object(program("promises"), "ROOT", self.folder), mock.patch.object(sys, "argv", ["promises"]), contextlib.redirect_stdout(out):
            with self.assertRaises(SystemExit) as end:
                program("promises").main()
        lines = [line.split("PROMISES.md:3: ")[-1] for line in out.getvalue().splitlines()[:-1]]
        self.assertEqual(end.exception.code, 1 if lines else 0)
        return lines

    def row(self, definition="", theorem="", edit=""):
        return self.look(HEAD + f"| a sentence \\| of the paper | {definition} | {theorem} | {edit} |\n")

    def fine(self, **cells):
        self.assertEqual(self.row(**cells), [])

    def test_a_whole_row(self):
        self.fine(definition="`a/specs/Sizes·size_of`, `a::top`", theorem="`a/proofs/Grows·size_grows`", edit="`a!wrong`")

    def test_names_that_are_not_there(self):
        self.assertEqual(self.row(definition="`a/specs/Sizes·size`"), ["a/specs/Sizes·size is not there"])
        self.assertEqual(self.row(definition="`b/specs/Sizes·size_of`"), ["b/specs/Sizes·size_of is not there"])
        self.assertEqual(self.row(theorem="`a/proofs/Grows·size`"), ["a/proofs/Grows·size is not there"])
        self.assertEqual(self.row(edit="`a!right`"), ["a!right is not there"])

    def test_outside_the_tables_too(self):
        self.assertEqual(self.look("See `a!right`.\n"), ["promises: docs/PROMISES.md:1: a!right is not there"])

    def test_paths_by_module_and_type(self):
        self.fine(definition="`a::top`, `a::lengths::with_one`, `a::lengths::deep::lowest`, `a::rows::step`, `a::Pair::new`, `Pair::new`, `Pair::ONE`, `a::LIMIT`, `Pair`, `Pair.a`")

    def test_paths_that_lead_nowhere(self):
        self.assertEqual(self.row(definition="`a::with_one`"), ["a::with_one is not there (there is a::lengths::with_one)"])
        self.assertEqual(self.row(definition="`a::new`"), ["a::new is not there (there is a::Pair::new)"])
        self.assertEqual(self.row(definition="`a::lengths::top`"), ["a::lengths::top is not there (there is a::top)"])
        for word in ("a::rows::x", "Pair::old", "Triple::new", "nothing::at::all", "Triple", "Pair.b"):
            self.assertEqual(self.row(definition=f"`{word}`"), [f"{word} is not there"])

    def test_a_contract_as_a_theorem(self):
        self.fine(theorem="the contract of `a::top`")
        self.fine(theorem="the contracts of `a::top` and `a::lengths::with_one`")
        self.assertEqual(self.row(theorem="`a::top`"), ['a::top stands under Theorem and is not called "the contract of"'])
        self.assertEqual(self.row(theorem="the contract of `a::bare`"), ["a::bare has no contract"])
        self.assertEqual(self.row(definition="`a::bare`"), ["a::bare has no contract"])

    def test_a_theorem_in_a_module(self):
        self.fine(theorem="`a/proofs/Grows·inside`")

    def test_definitions_are_no_theorems(self):
        for word in ("a/specs/Sizes·size_of", "a/proofs/Grows·half", "a/proofs/Grows·Rising", "a/proofs/Grows·Short"):
            self.assertEqual(self.row(theorem=f"`{word}`"), [f"{word} stands under Theorem and is a definition"])

    def test_a_record_as_the_statement(self):
        self.fine(theorem="the record `a/proofs/Grows·Counted`")
        self.fine(theorem="`a/proofs/Grows·Counted` (`most`)")
        self.assertEqual(self.row(theorem="`a/proofs/Grows·Counted`"), ["a/proofs/Grows·Counted stands under Theorem and is a record: the cell does not say that it is the statement"])
        self.assertEqual(self.row(theorem="`a/proofs/Grows·Counted` (`middle`)"), ["a/proofs/Grows·Counted has no field middle"])
        self.assertEqual(self.row(theorem="`a/proofs/Grows·most`"), ["a/proofs/Grows·most is not there"])

    def test_other_things_under_definition(self):
        self.fine(definition="`a/specs/Sizes·Answer`")
        self.assertEqual(self.row(definition="`a/proofs/Grows·size_grows`"), ["a/proofs/Grows·size_grows stands under Definition and is of proofs/"])

    def test_edits_in_their_column_and_nothing_else(self):
        for cell in ("definition", "theorem"):
            self.assertEqual(self.row(**{cell: "`a!wrong`"}), ["a!wrong is an edit and does not stand under Edit"])
        for word in ("a/specs/Sizes·size_of", "a/proofs/Grows·size_grows", "a::top"):
            self.assertEqual(self.row(edit=f"`{word}`"), [f"{word} stands under Edit and is none"])

    def test_any_kind_in_other_columns(self):
        self.assertEqual(self.look("| Sentence | Where |\n|---|---|\n| x | `a!wrong`, `a/proofs/Grows·size_grows`, `a/specs/Sizes·size_of`, `a::top` |\n"), [])

    def test_words_that_name_nothing_here(self):
        self.fine(definition="`requires`, `[f64; 36]`, `read 9 kept 1`, `&mut`")

    def test_files(self):
        self.assertEqual(self.look("`docs/PROMISES.md`\n"), [])
        self.assertEqual(self.look("`tools/none --check`\n"), ["promises: docs/PROMISES.md:1: tools/none --check is not there"])

    def test_an_edit_without_its_line(self):
        self.write("crates/a/must-fail/wrong.edit", "file: src/lib.rt\nold: x\nnew: y\n")
        self.assertEqual(self.row(), ["promises: crates/a/must-fail/wrong.edit does not say which wrong program it stands for"])

    def test_edits_that_no_row_names(self):
        self.write("docs/PROMISES.md", "nothing\n")
        out = io.StringIO()
        with mock.patch.object(program("promises"), "ROOT", self.folder), contextlib.redirect_stdout(out), self.assertRaises(SystemExit) as end:
            program("promises").main()
        self.assertEqual((end.exception.code, out.getvalue()), (1, "promises: no row names the edit a!wrong\npromises: 0 names looked up, 1 edits\n"))
