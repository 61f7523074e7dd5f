"""The exports to C: numbers and pointers only, so that one calling convention serves every machine, and declared in include/kesupayro.h as the sources have them."""

import os
import re

import sources
from support import ROOT, Case

NUMBERS = {"f64": "double", "u32": "uint32_t", "usize": "uint64_t"}
IN_MEMORY = {**NUMBERS, "u8": "uint8_t", "bool": "bool"}
# Records that stand behind a pointer: their fields are numbers of one width on every machine, and bools.
RECORDS = {"SviSlice": "PortSviSlice", "Check": "PortCheck"}


def split(text):
    """At commas that stand in no bracket."""
    parts, depth = [""], 0
    for sign in text:
        depth += (sign in "([{<") - (sign in ")]}>")
        if sign == "," and depth == 0:
            parts.append("")
        else:
            parts[-1] += sign
    return [" ".join(part.split()) for part in parts if part.strip()]


def in_c(kind):
    """What C passes for a parameter of the sources: its types in order; None where it is more than a number or a pointer."""
    if kind in NUMBERS:
        return [NUMBERS[kind]]
    lent = re.fullmatch(r"&(mut )?(?:\[(\w+)(?:; (\w+))?\]|(\w+))", kind)
    if not lent:
        return None
    written, element, count, record = lent.groups()
    pointed = RECORDS.get(record or element) or IN_MEMORY.get(element)
    if not pointed:
        return None
    pointed = ("" if written else "const ") + pointed
    return [f"{pointed}[{count}]"] if count else [pointed + "*"] if record else [pointed + "*", "uint64_t"]


def declared():
    """Name -> result and parameter types of every function that the header declares and does not write."""
    with open(os.path.join(ROOT, "include", "kesupayro.h"), encoding="utf-8") as file:
        text = re.sub(r"/\*.*?\*/|^#.*?$", " ", file.read(), flags=re.S | re.M)
    text = re.sub(r"static inline [^{]*\{.*?\n\}", " ", text, flags=re.S)
    functions = {}
    for result, name, params in re.findall(r"\b(\w+) (port_\w+)\(([^)]*)\);", text):
        types = []
        for parameter in split("" if params == "void" else params):
            kind, array = re.fullmatch(r"(.*?)\w+(\[\d+\])?", parameter).groups()
            types.append(kind.replace(" *", "*").strip() + (array or ""))
        functions[name] = (result, types)
    return functions


class Exports(Case):
    def exports(self):
        found = [item for item in sources.Crate(ROOT, "port_c", static=True).functions() if item.exported]
        self.assertGreater(len(found), 20)
        return found

    def test_only_numbers_and_pointers(self):
        """No struct and no bool is passed by value, in any export."""
        for item in self.exports():
            for parameter in split(item.params):
                self.assertIsNotNone(in_c(parameter.split(": ", 1)[1]), f"{item.name}: {parameter}")
            self.assertIn(item.result, ["", *NUMBERS], item.name)

    def test_the_header_declares_what_the_sources_export(self):
        wanted = {}
        for item in self.exports():
            types = [kind for parameter in split(item.params) for kind in in_c(parameter.split(": ", 1)[1])]
            wanted[item.name] = (NUMBERS.get(item.result, "void"), types)
        self.assertEqual(declared(), wanted)

    def test_the_header_has_the_librarys_number(self):
        with open(os.path.join(ROOT, "include", "kesupayro.h"), encoding="utf-8") as file:
            header = re.search(r"^#define PORT_ABI (\d+)$", file.read(), flags=re.M).group(1)
        with open(os.path.join(ROOT, "docs", "ABI.md"), encoding="utf-8") as file:
            newest = re.findall(r"^\| (\d+) \|", file.read(), flags=re.M)[-1]
        with open(os.path.join(ROOT, "crates", "port", "specs", "Abi.antt"), encoding="utf-8") as file:
            proved = re.search(r"^abi_number = (\d+)$", file.read(), flags=re.M).group(1)
        self.assertEqual([header, newest], [proved, proved])

    def test_what_is_more_than_a_number_or_a_pointer(self):
        for kind in ("FitConfig", "bool", "[f64; 4]", "&FitConfig", "&[FitConfig]", "&str", "u64"):
            self.assertIsNone(in_c(kind), kind)
        self.assertEqual(in_c("&mut [f64]"), ["double*", "uint64_t"])
        self.assertEqual(in_c("&[usize; 4]"), ["const uint64_t[4]"])
