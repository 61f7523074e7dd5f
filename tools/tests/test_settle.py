"""tools/settle on small trees of crates: which functions it takes for public, and that files, modules and crates go together."""

import contextlib
import io
import os
import sys
from unittest import mock

from support import Case, program

CONTRACT = "ensures { result ≡ f x }"


def function(name, head="pub fn", contract=CONTRACT):
    return f"{head} {name}(x: u64) -> u64\n    {contract}\n{{\n    x\n}}\n"


class Settle(Case):
    def tree(self, files, lib=None):
        """The sources of one crate `a`, and crates/uniqueness/proofs/Lib.antt."""
        self.write("crates.txt", "a:\nuniqueness: a\n")
        for name, text in files.items():
            self.write(f"crates/a/src/{name}", text)
        self.write("crates/uniqueness/proofs/Lib.antt", "pub mod SettledA\n" if lib is None else lib)

    def write(self, name, text):
        path = os.path.join(self.folder, name)
        os.makedirs(os.path.dirname(path), exist_ok=True)
        with open(path, "w", encoding="utf-8") as file:
            file.write(text)

    def settle(self, *words):
        """The exit status and the lines."""
        out, status = io.StringIO(), 0
        try:
            with mock.patch.object(program("settle"), "ROOT", self.folder), mock.patch.object(sys, "argv", ["settle", *words]), contextlib.redirect_stdout(out):
                program("settle").main()
        except SystemExit as end:
            status = end.code if isinstance(end.code, int) else 1
            out.write("" if isinstance(end.code, int) else f"{end.code}\n")
        return status, out.getvalue().splitlines()

    def settled(self, files):
        """The functions that it writes a statement for."""
        self.tree(files)
        status, lines = self.settle()
        self.assertEqual(status, 0, lines)
        with open(os.path.join(self.folder, "crates/uniqueness/proofs/SettledA.antt"), encoding="utf-8") as file:
            found = [line[len("-- a::"):].strip() for line in file if line.startswith("-- a::")]
        self.assertEqual(self.settle("--check")[0], 0)
        return found

    def test_sources_at_any_depth(self):
        files = {"lib.rt": "pub mod deep;\n" + function("top"), "deep.rt": "pub mod x;\n", "deep/x.rt": "pub mod y;\n" + function("lower"), "deep/x/y.rt": function("lowest")}
        self.assertEqual(sorted(self.settled(files)), ["lower", "lowest", "top"])

    def test_module_in_a_folder(self):
        self.assertEqual(self.settled({"lib.rt": "pub mod deep;\n", "deep/mod.rt": function("lower")}), ["lower"])

    def test_module_in_the_file(self):
        self.assertEqual(self.settled({"lib.rt": "pub mod shown {\n" + function("seen") + "}\nmod hidden {\n" + function("unseen") + "}\n"}), ["seen"])

    def test_a_type_of_a_deep_module(self):
        files = {"lib.rt": "pub mod deep;\npub fn f(x: Pair) -> u64\n    ensures { result ≡ g x }\n{\n    1\n}\n", "deep.rt": "pub mod x;\n", "deep/x.rt": "pub struct Pair {\n    pub a: u64,\n}\n"}
        self.assertEqual(self.settled(files), ["f"])
        with open(os.path.join(self.folder, "crates/uniqueness/proofs/SettledA.antt"), encoding="utf-8") as file:
            self.assertIn("use Rattle.a.specs.declared.deep.x.Pair.{Pair}", file.read())

    def test_a_source_that_is_in_no_module(self):
        self.tree({"lib.rt": function("top"), "deep/x.rt": function("lost")})
        self.settle()
        self.assertEqual(self.settle("--check"), (1, ["settle: crates/a/src/deep/x.rt is in no module", "settle: 1 public functions in 1 crates"]))

    def test_a_module_without_a_source(self):
        self.tree({"lib.rt": "pub mod gone;\n" + function("top")})
        self.settle()
        self.assertEqual(self.settle("--check")[1][0], "settle: module a::gone has no file")

    def test_bodies_on_one_line(self):
        text = f"pub fn one(x: u64) -> u64 {CONTRACT} {{ x }}\npub fn two(x: u64) -> u64\n    {CONTRACT} {{ x }}\n" + function("three")
        self.assertEqual(self.settled({"lib.rt": text}), ["one", "two", "three"])

    def test_a_contract_is_not_taken_from_the_next_function(self):
        self.tree({"lib.rt": "pub fn bare(x: u64) -> u64 { x }\n" + function("kept")})
        self.settle()
        self.assertEqual(self.settle("--check"), (1, ["settle: a::bare has no contract", "settle: 1 public functions in 1 crates"]))

    def default(self, clause, head="pub struct"):
        """A type with a method that a trait names."""
        return f"{head} Pair {{\n    pub a: u64,\n}}\n\nimpl Default for Pair {{\n    ghost is_default = {{ λ p. p ≡ g }};\n\n    fn default() -> Pair\n{clause}    {{\n        Pair {{ a: 0 }}\n    }}\n}}\n"

    def test_a_method_of_a_trait(self):
        self.assertEqual(self.settled({"lib.rt": self.default("        ensures { result ≡ g }\n") + function("f")}), ["Pair::default", "f"])

    def test_a_method_of_a_trait_without_a_contract(self):
        self.tree({"lib.rt": self.default("") + function("f")})
        self.settle()
        self.assertEqual(self.settle("--check"), (1, ["settle: a::Pair::default has no contract", "settle: 1 public functions in 1 crates"]))

    def test_a_method_of_a_trait_of_a_private_type(self):
        self.assertEqual(self.settled({"lib.rt": self.default("", "struct") + function("f")}), ["f"])

    def test_const_functions_and_constants(self):
        self.assertEqual(self.settled({"lib.rt": "pub const N: [u64; 2] = [1, 2];\n" + function("f", "pub const fn")}), ["f"])

    def test_brackets_in_quotes_and_comments(self):
        text = "// pub fn { not this (\npub fn one(x: u64) -> u64\n    ensures { result ≡ size \"}\" }\n{\n    let c = b'{';\n    x // }\n}\n" + function("two")
        self.assertEqual(self.settled({"lib.rt": text}), ["one", "two"])

    def test_a_condition(self):
        self.tree({"lib.rt": function("f", contract="requires { x ≡ x }\n    " + CONTRACT)})
        self.assertIn("settle: a::f has a requires", self.settle("--check")[1])

    def lemmas(self, text):
        """The file that it writes for one file of sources, without its head."""
        self.settled({"lib.rt": text})
        with open(os.path.join(self.folder, "crates/uniqueness/proofs/SettledA.antt"), encoding="utf-8") as file:
            return file.read().split("\n\n", 1)[1]

    def test_clauses_with_names_and_what_is_lent(self):
        text = "pub fn f(a: &[u64], b_b: &mut [u64]) -> u64\n    ensures value { result ≡ g a.now b_b.old }\n    ensures room { b_b.new ≡ h b_b.old result }\n{\n    1\n}\n"
        said = "→ ((r{0} ≡ g a b_b) × (b-b-exit{0} ≡ h b_b r{0})) "
        self.assertEqual(self.lemmas(text), (
            "-- a::f\npub f : (a : List ℕ) (b_b : List ℕ) {r₁ r₂ : ℕ} {b-b-exit₁ b-b-exit₂ : List ℕ} "
            + said.format("₁") + said.format("₂") + "→ (r₁ ≡ r₂) × (b-b-exit₁ ≡ b-b-exit₂)\nf a b_b {r₁} {r₂} {b-b-exit₁} {b-b-exit₂} h₁ h₂ = (cc, cc)\n"))

    def test_a_lemma_with_the_name_of_a_definition(self):
        text = "ghost use Rattle.a.specs.Words.{f, g};\npub fn f(x: u64) -> u64\n    ensures { result ≡ f x }\n{\n    1\n}\npub fn g(x: u64) -> u64\n    ensures { result ≡ x }\n{\n    x\n}\n"
        self.assertEqual([line.split(" :")[0] for line in self.lemmas(text).splitlines() if line.startswith("pub ")], ["pub f_lem", "pub g"])

    def test_private_modules_and_functions(self):
        files = {
            "lib.rt": "mod rows;\npub(crate) mod near;\npub mod wide;\n" + function("top") + function("own", "fn") + function("inner", "pub(crate) fn"),
            "rows.rt": function("hidden") + "pub mod below;\n", "rows/below.rt": function("hidden_too"), "near.rt": function("hidden_also"), "wide.rt": function("shown"),
        }
        self.assertEqual(self.settled(files), ["top", "shown"])

    def test_an_export_of_a_private_module(self):
        self.assertEqual(self.settled({"lib.rt": "mod c;\n", "c.rt": "#[unsafe(no_mangle)]\n" + function("port_f", "pub extern \"C\" fn") + function("hidden")}), ["port_f"])

    def exported(self, *functions):
        """What is wrong where a static library has these exports over crate `a`."""
        self.settled({"lib.rt": function("f") + function("g")})
        self.write("crates.txt", "a:\na_c staticlib: a\nuniqueness: a\n")
        self.write("crates/a_c/src/lib.rt", "".join("#[unsafe(no_mangle)]\n" + text for text in functions))
        status, lines = self.settle("--check")
        self.assertEqual(status, 1 if lines[1:] else 0)
        return lines[:-1]

    def test_exports_of_a_static_library(self):
        export = 'pub extern "C" fn'
        self.assertEqual(self.exported(function("f", export), function("g", export)), [])
        wrong = "settle: a_c::f has not the contract of the function of its name"
        self.assertEqual(self.exported(function("f", export, contract="ensures { result ≡ g x }")), [wrong])
        self.assertEqual(self.exported(function("f", export, contract=CONTRACT + "\n    " + CONTRACT)), [wrong])
        self.assertEqual(self.exported(function("f", export).replace("(x: u64)", "(x: u32)")), [wrong])
        self.assertEqual(self.exported(function("other", export)), ["settle: a_c::other has not the contract of the function of its name: there are 0"])

    def test_methods_are_as_public_as_their_type(self):
        method = "    pub fn {}(self) -> u64\n        ensures {{ result ≡ f self }}\n    {{\n        1\n    }}\n"
        files = {
            "lib.rt": "mod rows;\npub struct Pair {\n    pub a: u64,\n}\n",
            "rows.rt": "pub struct Row {\n    pub a: u64,\n}\nimpl Pair {\n" + method.format("shown") + "}\nimpl Row {\n" + method.format("hidden") + "}\n",
        }
        self.assertEqual(self.settled(files), ["Pair::shown"])

    def test_what_pub_use_would_show(self):
        self.tree({"lib.rt": "mod rows;\npub use rows::hidden;\n" + function("top"), "rows.rt": function("hidden")})
        self.assertIn("settle: crates/a/src/lib.rt: `pub use` is not read: what it makes public is not seen", self.settle("--check")[1])

    def test_two_functions_of_one_name(self):
        self.tree({"lib.rt": "pub mod x;\n" + function("f"), "x.rt": function("f")})
        self.assertIn("settle: a has two public functions a::f: their statements would have one name", self.settle("--check")[1])

    def test_another_contract(self):
        self.settled({"lib.rt": function("f")})
        self.write("crates/a/src/lib.rt", function("f", contract="ensures { result ≡ g x }"))
        self.assertEqual(self.settle("--check")[1][0], "settle: crates/uniqueness/proofs/SettledA.antt is not what the contracts say: run tools/settle, and rt fmt in crates/uniqueness")

    def test_a_file_that_is_no_module(self):
        self.tree({"lib.rt": function("f")}, lib="pub mod Other\n")
        self.settle()
        status, lines = self.settle("--check")
        self.assertEqual((status, lines[0]), (1, "settle: crates/uniqueness/proofs/SettledA.antt is no module of crates/uniqueness/proofs/Lib.antt: nothing proves it"))

    def test_a_module_that_has_no_file(self):
        self.tree({"lib.rt": function("f")})
        self.assertIn("settle: crates/uniqueness/proofs/Lib.antt: module SettledA has no file", self.settle("--check")[1])

    def test_a_file_of_no_crate(self):
        self.tree({"lib.rt": function("f")}, lib="pub mod SettledA\npub mod SettledB\n")
        self.settle()
        self.write("crates/uniqueness/proofs/SettledB.antt", "-- left over\n")
        self.assertEqual(self.settle("--check"), (1, ["settle: crates/uniqueness/proofs/SettledB.antt stands for no crate with a public function", "settle: 1 public functions in 1 crates"]))
