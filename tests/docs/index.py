#!/usr/bin/env python3
"""The definitions that a reader must trust, crate by crate and file by file.

    index.py          writes docs/INDEX.md
    index.py --check  fails where it isn't what would be written

check.py looks at it too. A definition is cited where its name, as the `use` lines of the file resolve it, stands in a
clause of a public function, in what contracts see of a type (its view and its equality), or in a definition
that is cited. What the clauses of the top call lead to is named; of what only other public clauses lead to, the file. A
file of which neither leads to anything is private.
"""

import pathlib
import re
import sys

sys.dont_write_bytecode = True
sys.path.insert(0, str(pathlib.Path(__file__).resolve().parent.parent))

import imports
from program import TOP
from written import settle

INDEX = TOP / "docs" / "INDEX.md"
# the file of the top call, whose contracts are the promises of the program
TOP_CALL = TOP / "crates/tool_run/src/top.rt"
DEFINITION = re.compile(r"^(?:(?:abbrev|unfoldable)(?: pub)?|(?:pub )?(?:record|data)) (\S+)")
PUBLIC = re.compile(r"^(?:(?:abbrev|unfoldable) pub|pub (?:record|data)) (\S+)", re.MULTILINE)
ITEM = re.compile(r"^ *pub (?:fn|struct|enum|trait|const|type) (\w+)", re.MULTILINE)
# where the next item of a file begins, as it is laid out
NEXT_ITEM = re.compile(r"^(?=\S)", re.MULTILINE)
# a module that the root of a crate keeps for itself, and the names that it hands on from its modules
KEPT = re.compile(r"^mod (\w+);", re.MULTILINE)
HANDED_ON = re.compile(r"^pub use (?:\w+::)+(\w+|{[^}]*});", re.MULTILINE)
# a name of a module, and a module by another name
OF_MODULE = re.compile(r"Rattle\.(\w+)\.specs\.([\w.]+)\.([^.\s]+)")
MODULE_AS = re.compile(r"Rattle\.(\w+)\.specs\.([\w.]+?) as (\w+)")
MODEL = re.compile(r"^impl\b[^{\n]*\b(?:Model|PartialEq) for (\w+).*?^}", re.MULTILINE | re.DOTALL)
FUNCTION = re.compile(r"^ *(pub )?(?:const )?fn ", re.MULTILINE)
CLAUSE = re.compile(r"\b(?:requires|ensures)(?: \w+)? {|\bghost (?!use\b|invariant\b)[\w ]+ = {")
NAME = re.compile(r"[^\s(){}\[\];,.λ]+")
HEAD = """# Index

Which definitions a reader must trust, found by name: of each file of a crate's `specs/` those that the clauses of
`tool_run::run`, `run_alone` and their forms over any kernel lead to, directly or through others. *Besides* stand the
files that have some which only other public clauses lead to, as laws. *Private* files serve private functions and
proofs: what they say is proved and needs no trust. A definition's meaning stands above it; `docs/DEFINITIONS.md` has
those to read first, and the public sources. A crate that is missing has no definitions; what a crate exports stands in
its `src/lib.rt`. `tests/docs/index.py` writes this page.
"""


def crates():
    """The crates from the bottom up, as crates.txt has them."""
    for line in (TOP / "crates.txt").read_text(encoding="utf-8").splitlines():
        name = line.split(":")[0].strip()
        if ":" in line and not line.startswith("#"):
            yield TOP / "crates" / name


def files_of(crate):
    """The files of a crate that hold its definitions and its code."""
    for part, suffix in (("specs", ".antt"), ("src", ".rt")):
        yield from sorted((crate / part).rglob(f"*{suffix}"))


def without_tests(text):
    return re.split(r"^#\[cfg\(test\)\]", text, maxsplit=1, flags=re.MULTILINE)[0]


def is_among(item, names):
    """Whether an item of a file has one of these names, or is an `impl` of such a type."""
    own = re.findall(r"\w+", item.splitlines()[0]) if item.startswith("impl") else ITEM.findall(item)
    return not names.isdisjoint(own)


def reached(crate, path):
    """The items of a file that are reached from outside its crate: where the root keeps the module for itself, those
    that it hands on, with their methods."""
    items = NEXT_ITEM.split(without_tests(path.read_text(encoding="utf-8")))
    root = crate / "src" / "lib.rt"
    declared = root.read_text(encoding="utf-8") if root.exists() else ""
    module = path.relative_to(crate / "src").parts[0].removesuffix(".rt")
    if module not in KEPT.findall(declared):
        return items
    handed_on = set(re.findall(r"\w+", " ".join(HANDED_ON.findall(declared))))
    return [item for item in items if is_among(item, handed_on)]


def braced(text, start):
    """What stands from here to the brace that closes."""
    depth, place = 1, start
    while depth:
        depth += {"{": 1, "}": -1}.get(text[place], 0)
        place += 1
    return text[start : place - 1]


def clauses(item):
    """The clauses of an item's public functions, and what it says of a type to contracts."""
    of_trait = re.match(r"(?:unsafe )?impl\b[^{\n]* for |pub trait", item) is not None
    for found in CLAUSE.finditer(item):
        headers = [it.group(1) for it in FUNCTION.finditer(item, 0, found.start())]
        if of_trait or not headers or headers[-1]:
            yield braced(item, found.end())


def bodies(text):
    """The definitions of a file by name, each with its text."""
    found, name = {}, None
    for line in text.splitlines():
        header = DEFINITION.match(line)
        if header:
            name = header.group(1)
            found.setdefault(name, "")
        elif line.startswith("use "):
            name = None
        if name and not line.startswith("--"):
            found[name] += line.split(" -- ")[0] + "\n"
    return found


class Names:
    """What the names of a file mean: definitions, modules by another name, and declared types."""

    def __init__(self, text):
        self.modules, self.types, self.short = {}, set(), {}
        for statement in imports.statements_in(text):
            if not statement.endswith("}"):
                self.short |= {short: (crate, module) for crate, module, short in MODULE_AS.findall(statement)}
                continue
            for found in filter(None, map(OF_MODULE.match, imports.names(statement))):
                crate, module, name = found.groups()
                self.modules[name] = (crate, module)
                if module.startswith("declared."):
                    self.types.add((crate, name))


class Definitions:
    """Every definition of the crates, and what each leads to."""

    def __init__(self):
        self.files, self.names, self.texts, self.models = {}, {}, {}, {}
        for crate in crates():
            for path in files_of(crate):
                text = path.read_text(encoding="utf-8")
                if path.suffix == ".rt":
                    for it in MODEL.finditer(text):
                        self.models.setdefault((crate.name, it.group(1)), []).append((Names(text), it.group(0)))
                    continue
                module = (crate.name, ".".join(path.relative_to(crate / "specs").with_suffix("").parts))
                self.files[module] = PUBLIC.findall(text)
                self.names[module] = Names(text)
                for name, body in bodies(text).items():
                    self.texts[module, name] = body

    def homes(self, module, name):
        """Where the definition of a name of a module is, which may hand it on from another: itself alone, or none."""
        while module in self.names and (module, name) not in self.texts:
            module = self.names[module].modules.get(name)
        return {(module, name)} if (module, name) in self.texts else set()

    def cited(self, names, text, module=None):
        """The definitions that a text names, by the names of its file."""
        words = set(NAME.findall(text))
        spaces = [module, *(names.short[it] for it in words if it in names.short)]
        found = {(space, it) for space in spaces for it in words if (space, it) in self.texts}
        for name, space in names.modules.items():
            # an operator is written between its operands
            found |= self.homes(space, name) if name in words or "◌" in name else set()
        for _, name in names.types:
            if name in words:
                for own, model in self.models.get((names.modules[name][0], name), []):
                    found |= self.cited(own, "\n".join(clauses(model)))
        return found

    def led_to(self, start):
        seen, left = set(), list(start)
        while left:
            it = left.pop()
            if it not in seen:
                seen.add(it)
                left += self.cited(self.names[it[0]], self.texts[it], it[0])
        return seen

    def of_items(self, path, items):
        names = Names(path.read_text(encoding="utf-8"))
        return set().union(*(self.cited(names, clause) for item in items for clause in clauses(item)))


def index():
    all_of = Definitions()
    trusted = all_of.led_to(all_of.of_items(TOP_CALL, NEXT_ITEM.split(TOP_CALL.read_text(encoding="utf-8"))))
    roots = [all_of.of_items(path, reached(crate, path)) for crate in crates() for path in (crate / "src").rglob("*.rt")]
    public = all_of.led_to(set().union(*roots)) - trusted
    lines = [HEAD]
    for crate in crates():
        found, besides, private = [], [], []
        for module, names in all_of.files.items():
            if module[0] != crate.name or not names:
                continue
            file = f"**{module[1].replace('.', '/')}**"
            own = [f"`{it}`" for it in names if (module, it) in trusted]
            other = any((module, it) in public for it in names)
            found += [f"{file}: {', '.join(own)}"] if own else []
            besides += [file] if other else []
            private += [file] if not own and not other else []
        found += [f"*Besides*: {', '.join(besides)}"] if besides else []
        found += [f"*Private*: {', '.join(private)}"] if private else []
        # a backslash breaks a line of a paragraph
        lines += [f"## {crate.name}\n", "\\\n".join(found), ""] if found else []
    return "\n".join(lines).rstrip("\n") + "\n"


def main():
    return settle({INDEX: index()})


if __name__ == "__main__":
    sys.exit(main())
