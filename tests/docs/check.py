#!/usr/bin/env python3
"""Looks up what the documents name, and runs their examples.

    check.py [PROGRAM]

Each file that a document names in backticks is there, and so is what each link leads to. Each `crate::item` is an item
of that crate, each `crate/edit` an edit that must be refused, and each bare name in the documents on the code stands in
some crate. docs/GUARANTEES.md names every law. The picture of docs/ARCHITECTURE.md has every crate above those that it
stands on, and the page names every file that tells plugins apart. Each definition of docs/DEFINITIONS.md stands in the
file beside it. docs/INDEX.md is what index.py finds, and definitions and proofs begin with their imports as imports.py
lays them out. examples/first is as the data of crates/cnitool, and examples/plugins as the pages of the plugins. Some
command of the documents makes each picture, and the vectors that vectors/README.md shows are in its files. With a
program, the documents' sessions and examples are run by examples.py.
"""

import os
import pathlib
import re
import sys

sys.dont_write_bytecode = True

import examples
import imports
import index
from program import TOP, program_of
from written import is_other

CRATES = {it.name: it for it in index.crates()}
EDITS = {name: {it.stem for it in (crate / "must-fail").glob("*.edit")} for name, crate in CRATES.items()}
SUFFIXES = (".antt", ".rt", ".md", ".json", ".py", ".txt", ".edit")
# a variant of a configuration or of a type of plugins
TELLS_APART = re.compile(r"\.(?:First|Chained|PluginType)\.TheVariants\b|\b(?:First|Chained|PluginType)::[A-Z]")
# they name what the lists of a test, or the generated ones, have
OF_LISTS = ("tests", "generated_list", "Generator", "GeneratedListFacts")
ON_THE_CODE = ("ARCHITECTURE.md", "DECISIONS.md", "DEFINITIONS.md", "GUARANTEES.md")


def documents():
    yield from sorted(TOP.glob("*.md"))
    for folder in ("docs", "bench", "vectors"):
        yield from sorted((TOP / folder).rglob("*.md"))


def text_of(paths):
    return "\n".join(it.read_text(encoding="utf-8") for it in paths)


def holds(text, name):
    return re.search(rf"(?<![\w]){re.escape(name)}(?![\w])", text) is not None


def missing_files(text):
    for word in re.findall(r"`([^`\s]+)`", text):
        if "*" in word or word.startswith(("/", "./")) or not (word.endswith(SUFFIXES) or word.endswith("/")):
            continue
        if "/" not in word and word not in os.listdir(TOP):
            continue
        places = [TOP / word, TOP / "crates" / word, TOP / "docs" / word]
        if not any(it.exists() for it in places) and not word.startswith(("specs/", "proofs/", "src/", "must-fail/")):
            yield f"no file {word}"


def anchors_of(text):
    """The anchors of a page's headings, as they are made of their words."""
    headings = re.findall(r"^#+ (.*)", text, re.MULTILINE)
    return {re.sub(r"[^\w -]", "", it.lower()).replace(" ", "-") for it in headings}


def missing_links(path, text):
    """The links within the repository that lead to no file, or to no heading of one."""
    for link in re.findall(r"\]\(([^)\s]+)\)", text):
        name, _, anchor = link.partition("#")
        target = (path.parent / name).resolve() if name else path
        if link.startswith("http"):
            continue
        if not target.exists() or anchor and anchor not in anchors_of(target.read_text(encoding="utf-8")):
            yield f"no place {link}"


def missing_items(text, sources):
    for word in re.findall(r"`(\w+(?:::\w+)+)`", text):
        crate, *path = word.split("::")
        if crate in sources and not holds(sources[crate], path[-1]):
            yield f"no item {word}"


def missing_names(text, sources):
    known = {*sources, *re.findall(r"\w+", "\n".join(sources.values())), *set().union(*EDITS.values())}
    for word in re.findall(r"`([A-Za-z_]\w*)`", text):
        if word not in known:
            yield f"no name {word}"


def missing_edits(text):
    for crate, name in re.findall(r"`(\w+)/([\w-]+)`", text):
        places = [CRATES[crate] / "must-fail" / f"{name}.edit", CRATES[crate] / name] if crate in CRATES else []
        if places and not any(it.exists() for it in places):
            yield f"no edit {crate}/{name}"


def missing_vectors(text):
    vectors = text_of(sorted((TOP / "vectors").glob("*.json")))
    for line in re.findall(r"^    ({.*})$", text, re.MULTILINE):
        if line not in vectors:
            yield f"no vector {line}"


def missing_laws(text):
    for name, crate in CRATES.items():
        laws = crate / "src" / "laws.rt"
        for law in re.findall(r"^pub fn (\w+)", laws.read_text(encoding="utf-8") if laws.exists() else "", re.MULTILINE):
            # a plugin's is said of all plugins by plugin_chain
            if not (re.search(rf"(?:`|::){law}`", text) or law.endswith("_keeps_its_laws")):
                yield f"the law {law} of {name} isn't named"


def missing_in_crates(text):
    """The files of a row by their places in a crate that its first cell names, where none of these has them."""
    for line in text.splitlines():
        head, *rest = line.strip("|").split("|") if line.startswith("|") else [""]
        crates = [CRATES[it] for it in re.findall(r"`(\w+)`", head) if it in CRATES]
        for file in re.findall(r"`((?:specs|src|proofs)/[^`]+)`", "".join(rest)):
            if crates and not any((it / file).exists() for it in crates):
                yield f"no file {file} in {crates[0].name}"


def wrong_picture(text):
    """Where the picture of the crates lacks one, or has it beside or below one that it stands on."""
    rows = re.search(r"^```text\n(.*?)^```", text, re.MULTILINE | re.DOTALL).group(1).splitlines()
    row = {word: number for number, line in enumerate(rows) for word in re.findall(r"\w+", line) if word in CRATES}
    for line in (TOP / "crates.txt").read_text(encoding="utf-8").splitlines():
        name, *below = re.findall(r"\w+", line) if not line.startswith("#") else [""]
        if name and name not in row:
            yield f"the picture lacks {name}"
        yield from (f"the picture has {name} at {it}" for it in below if row.get(it, len(rows)) <= row.get(name, 0))


def wrong_plugin_files(text):
    """Each file that names a variant of a plugin is named on the page, but for tests and the generated lists."""
    start = text.index("**A plugin.**")
    section = text[start : text.index("\n**", start + 2)]
    named = {word for word in re.findall(r"`([^`\s]+)`", section) if "/" in word and word.endswith((".antt", ".rt"))}
    for crate in CRATES.values():
        for path in [*index.files_of(crate), *sorted((crate / "proofs").rglob("*.antt"))]:
            place = str(path.relative_to(TOP / "crates"))
            if place in named or path.stem in OF_LISTS:
                continue
            if TELLS_APART.search(path.read_text(encoding="utf-8")):
                yield f"{place} tells plugins apart and isn't named"


def missing_definitions(text):
    """Where a row of a table names a file that isn't there, or a definition that isn't in the files beside it. A file
    without a folder is in the folder of the one before it."""
    for line in text.splitlines():
        cells = [it.strip() for it in line.strip("|").split("|")] if line.startswith("|") else []
        if len(cells) < 2 or "/specs/" not in cells[1]:
            continue
        files = re.findall(r"`([^`]+(?:\.antt|/))`", cells[1])
        folder = ""
        found = ""
        for file in files:
            folder = str(pathlib.Path(file).parent) if file.endswith(".antt") and "/" in file else folder
            path = TOP / "crates" / (file if "/" in file else f"{folder}/{file}")
            if path.is_dir():
                found += text_of(path.rglob("*.antt"))
            elif path.exists():
                found += text_of([path])
            else:
                yield f"no file {path.relative_to(TOP)}"
        for name in re.findall(r"`([^`]+)`", cells[0]) if line.startswith("| `") else []:
            if not holds(found, name):
                yield f"no definition {name} in {', '.join(files)}"


def wrong_in(path, sources, program):
    text = path.read_text(encoding="utf-8")
    yield from missing_files(text)
    yield from missing_links(path, text)
    yield from missing_items(text, sources)
    yield from missing_edits(text)
    if path.name in ON_THE_CODE:
        yield from missing_names(text, sources)
    if path.name == "ARCHITECTURE.md":
        yield from missing_in_crates(text)
        yield from wrong_picture(text)
        yield from wrong_plugin_files(text)
    if path.name == "GUARANTEES.md":
        yield from missing_laws(text)
    if path.name == "DEFINITIONS.md":
        yield from missing_definitions(text)
    if path.parent.name == "vectors":
        yield from missing_vectors(text)
    if program:
        yield from examples.wrong_sessions(text, program)
        yield from examples.wrong_examples(text, program)


def main():
    program = program_of(sys.argv[1:]) if sys.argv[1:] else None
    sources = {name: text_of(index.files_of(crate)) for name, crate in CRATES.items()}
    wrong = [f"{path.relative_to(TOP)}: {it}" for path in documents() for it in wrong_in(path, sources, program)]
    wrong += [*examples.unlike_crate(), *examples.unlike_pages()]
    wrong += examples.wrong_pictures({it: it.read_text(encoding="utf-8") for it in documents()})
    if is_other(index.INDEX, index.index()):
        wrong.append("docs/INDEX.md isn't what tests/docs/index.py writes")
    others = [path for path, text in imports.heads().items() if is_other(path, text)]
    wrong += [f"{path.relative_to(TOP)}: its imports aren't as tests/docs/imports.py writes them" for path in others]
    for it in wrong:
        print(f"docs: {it}")
    print(f"docs: {len(wrong)} wrong")
    return 1 if wrong else 0


if __name__ == "__main__":
    sys.exit(main())
