#!/usr/bin/env python3
"""The heads of definitions and proofs: imports in one group a crate and side, in lines of at most 120 columns.

    imports.py          writes each head so
    imports.py --check  fails where one has another form

check.py looks at it too. A group that is wider than a line goes on in another; a module that gets another name has a
line of its own, as the prover asks. A crate of many proofs has lists of names in `proofs/Names/`: its proofs take what
stands there from `proofs/Names`, in a group of its own, and what none of them takes is left out there.
"""

import pathlib
import re
import sys

sys.dont_write_bytecode = True
sys.path.insert(0, str(pathlib.Path(__file__).resolve().parent.parent))

from program import TOP
from written import settle

WIDTH = 120
USE = "use "
# what a list passes on: names, and definitions that may be unfolded too
PASSED_ON = ("pub use ", "unfoldable pub use ")
# the modules before a name, and the name: an operator may hold a full stop
PATH = re.compile(r"((?:[A-Za-z_+][\w+-]*\.)*)(.+)")


def statements(lines, opening=USE):
    """The statements at the head of a file that begin so, and the numbers of their first line and the one behind."""
    found, at = [], 0
    while at < len(lines) and lines[at].startswith(("--", *PASSED_ON)) and not lines[at].startswith(opening):
        at += 1
    begin = at
    while at < len(lines) and lines[at].startswith(opening):
        text = lines[at]
        while text.count("{") > text.count("}"):
            at += 1
            text += " " + lines[at].strip()
        found.append(text.removeprefix(opening))
        at += 1
    return begin, found, at


def statements_in(text):
    """Each `use` statement of a library's names, in definitions, proofs and code."""
    for found in re.finditer(r"\buse (?=Rattle\.)", text):
        depth, end = 0, found.end()
        while end < len(text) and (depth or text[end] not in ";\n"):
            depth += (text[end] == "{") - (text[end] == "}")
            end += 1
        yield " ".join(text[found.end() : end].split())


def split_group(text):
    """The parts of a group at its commas, and not at those of a group inside."""
    parts, depth, part = [], 0, ""
    for character in text:
        depth += (character == "{") - (character == "}")
        if character == "," and depth == 0:
            parts.append(part.strip())
            part = ""
        else:
            part += character
    return [it for it in parts + [part.strip()] if it]


def names(statement):
    """Each name that a statement imports: its path, and what stands behind it."""
    if not statement.endswith("}"):
        return [statement]
    path, group = statement[:-1].split(".{", 1)
    return [f"{path}.{name}" for part in split_group(group) for name in names(part)]


def names_in(text, openings=(USE,)):
    """Each name that the statements at the head of a file import or pass on."""
    lines = text.split("\n")
    return [name for opening in openings for it in statements(lines, opening)[1] for name in names(it)]


def path_of(name):
    """The modules of a path, and the name, which is one part with its `as`."""
    modules, last = PATH.fullmatch(name).groups()
    return [*modules.split(".")[:-1], last]


def tree_of(some):
    """Names by their modules: of each part of a path what stands below it."""
    tree = {}
    for name in some:
        below = tree
        for part in path_of(name):
            below = below.setdefault(part, {})
    return tree


def text_of(tree):
    """The paths of a tree, in braces where there is more than one."""
    paths = [f"{part}.{text_of(below)}" if below else part for part, below in tree.items()]
    return paths[0] if len(paths) == 1 else "{" + ", ".join(paths) + "}"


def side_of(parts):
    """What one statement imports from: a crate's definitions, its proofs or its lists, or a module of its own."""
    if parts[0] != "Rattle" or len(parts) < 4:
        return tuple(parts[:-1])
    return tuple(parts[: 4 if parts[2:4] == ["proofs", "Names"] else 3])


def statement_of(some, opening):
    """One statement. A name that stands alone is in braces too."""
    text = text_of(tree_of(some))
    if not text.endswith("}"):
        *modules, name = path_of(text)
        text = ".".join([*modules, "{" + name + "}"])
    return opening + text


def group_of(all_names, opening):
    """The statements of one side, by its modules in order, each as long as a line takes."""
    lines, some = [], []
    for name in sorted(all_names, key=lambda name: path_of(name)[:-1]):
        if some and len(statement_of([*some, name], opening)) > WIDTH:
            lines.append(statement_of(some, opening))
            some = []
        some.append(name)
    return [*lines, statement_of(some, opening)]


def head_of(found, opening, roads):
    """The head of a file: a statement for each side, and one for each module that gets another name. A name is taken by
    the road that it has, if any, and left out where that is none."""
    sides = {}
    for statement in found:
        if not statement.endswith("}"):
            sides[statement] = None
            continue
        for name in filter(None, (roads.get(it, it) for it in names(statement))):
            sides.setdefault(side_of(path_of(name)), {})[name] = None
    return [
        line
        for side, all_names in sides.items()
        for line in ([opening + side] if all_names is None else group_of(all_names, opening))
    ]


def mended(text, roads, opening=USE):
    lines = text.split("\n")
    begin, found, end = statements(lines, opening)
    return "\n".join(lines[:begin] + head_of(found, opening, roads) + lines[end:])


def listed_in(crate, texts):
    """The names on a crate's lists, each with the path by which its proofs take it."""
    listed = [name for text in texts for name in names_in(text, PASSED_ON)]
    return {it: f"Rattle.{crate.name}.proofs.Names.{path_of(it)[-1].split(' as ')[-1]}" for it in listed}


def heads_of(crate):
    """Each file of definitions or proofs of a crate with the text that it should have."""
    texts = {path: path.read_text(encoding="utf-8") for path in sorted(crate.glob("*/**/*.antt"))}
    lists = {path: text for path, text in texts.items() if path.parent == crate / "proofs" / "Names"}
    paths = listed_in(crate, lists.values())
    for path in texts.keys() - lists.keys():
        texts[path] = mended(texts[path], paths if path.is_relative_to(crate / "proofs") else {})
    taken = {name for path in texts.keys() - lists.keys() for name in names_in(texts[path])}
    kept = {name: name if path in taken else None for name, path in paths.items()}
    for path, text in lists.items():
        for opening in PASSED_ON:
            text = mended(text, kept, opening)
        texts[path] = text
    return texts


def heads():
    """Each file of definitions or proofs with the text that it should have."""
    return {path: text for crate in sorted((TOP / "crates").iterdir()) for path, text in heads_of(crate).items()}


def main():
    return settle(heads())


if __name__ == "__main__":
    sys.exit(main())
