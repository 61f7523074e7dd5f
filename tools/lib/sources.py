"""What the Rattle sources of a crate declare: modules, types, constants and functions, read from src/lib.rt (or main.rt) along its `mod` items.

Used by tools/settle and tools/promises. It reads items and heads of functions, by their brackets; it does not look into bodies.
"""

import glob
import os
import re

CLAUSES = ("requires", "ensures")

ITEM = re.compile(
    r"(?P<visible>pub(?:\([^)]*\))?\s+)?(?:"
    r"mod\s+(?P<module>\w+)\s*(?P<inline>[;{])"
    r"|impl\b(?P<impl>[^{;]*)\{"
    r"|(?P<kind>struct|enum|const|static|type|trait)\s+(?!fn\b|unsafe\b|extern\b)(?P<declared>\w+)"
    r"|(?P<how>(?:(?:const|unsafe|extern\s+\"[^\"]*\")\s+)*)fn\s+(?P<function>\w+)"
    r")"
)


class Item:
    """One declaration. `public`: another crate can name it, or it is exported to C. `of_trait`: a method that a trait names, so that no `pub` stands before it."""

    def __init__(self, kind, name, module, owner, path, visible):
        self.kind, self.name, self.module, self.owner, self.path, self.visible = kind, name, module, owner, path, visible
        self.public = self.of_trait = False
        self.exported = False
        self.params = self.result = self.generics = ""
        self.clauses = []  # (keyword, text) in order; the name that a clause may have is left out
        self.fields = ()

    def full(self):
        """Its path below the crate: module::Type::name."""
        return "::".join([*self.module, *([self.owner] if self.owner else []), self.name])


class Crate:
    """`library`: other crates can stand on it; `static`: it is a static library, which exports to C and on which no crate stands."""

    def __init__(self, root, name, static=False):
        self.root, self.name, self.static, self.items, self.problems = root, name, static, [], []
        self.folder = os.path.join(root, "crates", name, "src")
        self.modules = {}  # module -> reached by `pub mod` alone
        start = next((f for f in ("lib.rt", "main.rt") if os.path.exists(os.path.join(self.folder, f))), None)
        self.library = start == "lib.rt" and not static
        self.read_files = set()
        if start:
            self.module_file((), True, os.path.join(self.folder, start))
        for path in sorted(glob.glob(os.path.join(self.folder, "**", "*.rt"), recursive=True)):
            if path not in self.read_files:
                self.problems.append(f"{self.relative(path)} is in no module")
        self.items.sort(key=lambda item: item.path)  # stable: within a file as they stand
        types = {i.name: i.public for i in self.items if i.kind in ("struct", "enum")}
        for item in self.items:
            if item.owner:  # a method is as public as its type, wherever the impl stands
                item.public = (item.visible == "pub" or item.of_trait) and types.get(item.owner, False)

    def relative(self, path):
        return os.path.relpath(path, self.root)

    def module_file(self, module, public, path):
        self.read_files.add(path)
        text = open(path, encoding="utf-8").read()
        Reader(self, text, path).items(module, public, None, 0, len(text))

    def child(self, module, public):
        """The file of a module that is declared by `mod NAME;`."""
        stem = os.path.join(self.folder, *module)
        found = [p for p in (stem + ".rt", os.path.join(stem, "mod.rt")) if os.path.exists(p)]
        if not found:
            self.problems.append(f"module {self.name}::{'::'.join(module)} has no file")
            return
        self.module_file(module, public, found[0])

    def functions(self):
        return [item for item in self.items if item.kind == "fn"]


QUOTED = re.compile(r"//[^\n]*|/\*.*?\*/|\"(?:\\.|[^\"\\])*\"|'(?:\\[^\n]|[{}()\[\]\";/])'", re.S)


def uncommented(text):
    """The text with spaces for comments, every other sign at its place."""
    return QUOTED.sub(lambda m: re.sub(r"[^\n]", " ", m.group(0)) if m.group(0).startswith("/") else m.group(0), text)


def blanked(text):
    """That, with spaces for what stands in quotes too: every bracket left is one of the code."""
    return QUOTED.sub(lambda m: m.group(0)[0] + re.sub(r"[^\n]", " ", m.group(0)[1:-1]) + m.group(0)[-1], uncommented(text))


class Reader:
    """Reads the items of one file."""

    def __init__(self, crate, text, path):
        self.crate, self.path = crate, path
        self.text, self.code = uncommented(text), blanked(text)
        self.in_trait = False  # whether what is read stands in an `impl TRAIT for TYPE`

    def close(self, at):
        """The place after the bracket that closes the one at this place."""
        depth = 0
        for k in range(at, len(self.code)):
            depth += (self.code[k] in "([{") - (self.code[k] in ")]}")
            if depth == 0:
                return k + 1
        raise SystemExit(f"{self.crate.relative(self.path)}: a bracket is not closed")

    def next(self, at, end, wanted):
        """The first of the wanted signs from here that stands in no bracket."""
        while at < end:
            if self.code[at] in wanted:
                return at
            at = self.close(at) if self.code[at] in "([{" else at + 1
        return end

    def items(self, module, public, owner, at, end):
        self.crate.modules[module] = public
        while at < end:
            if self.code[at].isspace() or self.code[at] == ";":
                at += 1
                continue
            if self.code[at] == "#":
                at = self.close(self.next(at, end, "["))
                continue
            found = ITEM.match(self.code, at, end)
            at = self.item(found, module, public, owner, end) if found else self.skip(at, end)

    def skip(self, at, end):
        """Past an item that declares nothing here: to its semicolon or past its block."""
        if re.match(r"pub(\([^)]*\))?\s+use\b", self.code[at:end]):
            self.crate.problems.append(f"{self.crate.relative(self.path)}: `pub use` is not read: what it makes public is not seen")
        at = self.next(at, end, ";{")
        return self.close(at) if at < end and self.code[at] == "{" else at + 1

    def item(self, found, module, public, owner, end):
        visible = (found.group("visible") or "").strip()
        if found.group("module"):
            inside = (*module, found.group("module"))
            reached = public and visible == "pub"
            if found.group("inline") == ";":
                self.crate.child(inside, reached)
                return found.end()
            close = self.close(found.end() - 1)
            self.items(inside, reached, None, found.end(), close - 1)
            return close
        if found.group("impl") is not None:
            head = re.sub(r"<.*?>", " ", found.group("impl")).split(" for ")
            of = head[-1].split()
            close = self.close(found.end() - 1)
            self.in_trait = len(head) > 1
            self.items(module, public, of[0] if of else None, found.end(), close - 1)
            self.in_trait = False
            return close
        name = found.group("declared") or found.group("function")
        item = Item(found.group("kind") or "fn", name, module, owner, self.path, visible)
        self.crate.items.append(item)
        item.exported = "extern" in (found.group("how") or "") and visible == "pub"
        item.of_trait = self.in_trait
        item.public = visible == "pub" and (public or item.exported)
        if item.kind == "fn":
            return self.function(item, found.end(), end)
        stop = self.next(found.end(), end, ";{")
        if item.kind == "struct" and self.code[stop:stop + 1] == "{":
            item.fields = tuple(re.findall(r"(\w+)\s*:", self.code[stop:self.close(stop)]))
        return self.skip(found.end(), end)

    def function(self, item, at, end):
        """Its type parameters, parameters, result and clauses; the first block that no clause begins is its body."""
        start, at = at, self.next(at, end, "(")
        item.generics = self.code[start:at].strip()
        close = self.close(at)
        item.params, at, first = self.text[at + 1:close - 1], close, True
        while True:
            stop = self.next(at, end, ";{")
            head = self.code[at:stop]
            if first:
                result = re.match(r"\s*->\s*(.+?)\s*(?=\b(?:where|" + "|".join(CLAUSES) + r")\b|$)", head, re.S)
                item.result, first = re.sub(r"\s+", " ", result.group(1)) if result else "", False
                head = head[result.end():] if result else head
            if stop >= end or self.code[stop] == ";":
                return stop + 1
            close = self.close(stop)
            words = head.split()
            if not words:
                return close
            if words[0] not in CLAUSES:
                raise SystemExit(f"{self.crate.relative(self.path)}: {item.full()}: `{words[0]}` begins no clause that is read here")
            item.clauses.append((words[0], self.text[stop + 1:close - 1].strip()))
            at = close


def listed(root):
    """The crates of crates.txt, in order: the name, and whether it is a static library."""
    for line in open(os.path.join(root, "crates.txt"), encoding="utf-8"):
        words = line.split("#")[0].split(":")[0].split()
        if words:
            yield words[0], "staticlib" in words[1:]


def crates(root):
    """Name -> Crate, for every crate of crates.txt (what a line names after its colon may be a library of the toolchain)."""
    return {name: Crate(root, name, static) for name, static in listed(root)}
