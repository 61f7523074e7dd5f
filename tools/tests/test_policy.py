"""The policy before the first expiry: each caller of ours names it, since a default is what a later version may change."""

import glob
import os
import re

from support import ROOT, Case
from test_exports import split

NAMES = {"PORT_REJECT", "PORT_CONSTANT_VOL", "c::REJECT", "c::CONSTANT_VOL", "Policy::Reject", "Policy::ConstantVol", "ShortExpiryPolicy::Reject", "ShortExpiryPolicy::ConstantVol"}
# What holds a policy that was named elsewhere: a caller's own parameter, and one out of a list that begins with both names. Last a field that was zeroed, of which the test is.
PASSED_ON = {"policy", "self.policy.number()", "named", "zeroed.policy"}
LISTS = re.compile(r"\bpolicies\[\] = \{PORT_REJECT, PORT_CONSTANT_VOL, ")
# The calls, with the place of the policy among their arguments.
IN_C = {name: 2 for call in ("bracket", "region", "total_variance", "diagnose") for name in (f"port_{call}", f"port_raw_{call}")}
IN_RUST = {f"{side}::{call}": 1 for side in ("c", "port", "rust") for call in ("bracket", "region", "total_variance", "diagnose", "diagnosed")}
IN_RUST.update({"rust::surface": 1, "Surface::new": 1, "SviSurface::new": 1})
# How often a file speaks of a default: the export, its declarations, and the tests that ask which it is.
DEFAULT = re.compile(r"\b(?:port_default_policy|default_policy|do_default_policy|Policy::default|ShortExpiryPolicy::default)\(")
DEFAULTS = {
    "bench/stack/main.c": 2,
    "bindings/c/surface.c": 1,
    "bindings/rust/src/c.rs": 3,
    "bindings/rust/src/surface.rs": 1,
    "bindings/rust/tests/surface.rs": 4,
    "crates/port/src/surfaces.rt": 2,
    "crates/port_c/src/surfaces.rt": 2,
    "include/kesupayro.h": 1,
    "oracle/src/bin/compare_surface.rs": 2,
}


def arguments(text, at):
    """Those of the call whose bracket opens at `at`."""
    depth = 0
    for end in range(at, len(text)):
        depth += (text[end] in "([{") - (text[end] in ")]}")
        if depth == 0:
            return split(text[at + 1:end])
    return []


def plain(text):
    """Without its comments."""
    return re.sub(r"//[^\n]*|/\*.*?\*/", " ", text, flags=re.S)


def unnamed(text, calls):
    """The calls of a source that hand over a policy without a name."""
    text, found = plain(text), []
    for name, place in calls.items():
        for call in re.finditer(rf"(?<![\w:]){name}\(", text):
            given = arguments(text, call.end() - 1)
            if given[place] not in NAMES | PASSED_ON and not given[place].startswith("uint32_t "):
                found.append(f"{name}({', '.join(given)})")
    return found


def sources(*patterns):
    for pattern in patterns:
        for path in sorted(glob.glob(os.path.join(ROOT, pattern), recursive=True)):
            with open(path, encoding="utf-8") as file:
                yield os.path.relpath(path, ROOT), file.read()


class PolicyNamed(Case):
    def test_callers_in_c(self):
        seen = 0
        for path, text in sources("bindings/**/*.c", "bench/**/*.c", "examples/**/*.c", "include/*.h"):
            self.assertEqual(unnamed(text, IN_C), [], path)
            held = re.findall(r"\bpolicy = (\w+)", plain(text))
            self.assertEqual([name for name in held if name != "policies"], [], path)
            self.assertEqual(bool(held), bool(LISTS.search(plain(text))), path)
            seen += sum(len(re.findall(rf"\b{name}\(", text)) for name in IN_C)
        self.assertGreater(seen, 40)

    def test_callers_in_rust(self):
        seen = 0
        for path, text in sources("bindings/rust/**/*.rs", "oracle/src/**/*.rs"):
            self.assertEqual([call for call in unnamed(text, IN_RUST) if "Policy::default()" not in call], [], path)
            seen += sum(len(re.findall(rf"(?<![\w:]){name}\(", text)) for name in IN_RUST)
        self.assertGreater(seen, 20)

    def test_who_asks_for_the_default(self):
        asked = {}
        for path, text in sources("crates/*/src/**/*.rt", "include/*.h", "bindings/**/*.c", "bindings/**/*.h", "bench/**/*.c", "examples/**/*.c", "bindings/rust/**/*.rs", "oracle/src/**/*.rs"):
            if found := len(DEFAULT.findall(plain(text))):
                asked[path] = found
        self.assertEqual(asked, DEFAULTS)

    def test_a_call_without_a_name_is_seen(self):
        self.assertEqual(unnamed("x = port_bracket(s, 2, PORT_REJECT, 0, f(1, 2)), port_region(s, n, policy, k, tau);", IN_C), [])
        for policy in ("0", "7", "i % 3", "word() % 3"):
            self.assertEqual(len(unnamed(f"port_diagnose(s, 2, {policy}, ks, 1, taus, 1, config, room, 3)", IN_C)), 1, policy)
        self.assertEqual(unnamed("port::bracket(run, policy, k, tau); rust::surface(run, ShortExpiryPolicy::Reject)", IN_RUST), [])
        self.assertEqual(len(unnamed("c::region(&slices[..2], 1, k, tau, &mut row); SviSurface::new(slices, ShortExpiryPolicy::default());", IN_RUST)), 2)
        self.assertEqual(len(unnamed("Surface::new(&slices, Default::default()).unwrap()", IN_RUST)), 1)
