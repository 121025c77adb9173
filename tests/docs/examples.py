"""Runs what the documents show of the program.

A session is a block of lines that begin with four spaces: a command of bash after `$ `, below it the lines that it
prints. A line `..` stands for any lines. A command with `jq` is passed over where there is none. A command that ends
with `>FILE` prints what that file holds; so each picture that a document shows is made. A block of JSON in
docs/FORMATS.md or docs/plugins/ is a network list, a pod file, a session file, a plugin or the `ipam` of one. A pod
file is run on the document's lists, a session file alone, and all else is read; none is to be refused, and the lines
right below one are what it prints. The list in examples/plugins of a page of docs/plugins has the page's example.
examples/first is the data of crates/cnitool, whose output `rt ci` compares.
"""

import json
import pathlib
import re
import shlex
import shutil
import sys
import textwrap

sys.path.insert(0, str(pathlib.Path(__file__).resolve().parent.parent))

from program import NO_PODS, REFUSED, TOP, network_list, read_json, run, run_on
from written import is_other

# a block of JSON, and the lines below it that no command prints
EXAMPLE = re.compile(r"^```json\n(.*?)^```\n(?:\n((?:    (?!\$ )[^\n]*\n)+))?", re.MULTILINE | re.DOTALL)
PICTURE = re.compile(r"!\[[^]]*\]\(([^)]*)\)")
PICTURES = TOP / "docs" / "pictures"
README = (TOP / "README.md").read_text(encoding="utf-8")
# the plugins that may stand first in a list
FIRST = re.findall(r"`(\w+)`", re.search(r"^\| Plugins that make a link \|([^|]*)", README, re.MULTILINE)[1])
# each file of examples/first, and the file of crates/cnitool that says the same
TWICE = {"net.json": "data/net.json", "pods.json": "data/pods.json", "output.txt": "stdout"}


def sessions(text):
    """The commands of a document, each with the lines below it."""
    found, is_open = [], False
    for line in text.splitlines():
        if line.startswith("    $ "):
            found.append((line[6:], []))
            is_open = True
        elif is_open and line.startswith("    "):
            found[-1][1].append(line[4:])
        else:
            is_open = False
    return found


def is_printed(printed, lines):
    """Whether these lines were printed, among which `..` stands for any."""
    pattern = "".join("(?:.*\n)*" if line == ".." else re.escape(line) + "\n" for line in lines)
    return re.fullmatch(pattern, printed) is not None


def wrong_sessions(text, program):
    for line, expected in sessions(text):
        if "| jq " in line and shutil.which("jq") is None:
            continue
        command, _, file = line.partition(" >")
        words = ["-c", command.replace("./cnitool", shlex.quote(program))]
        printed = run("bash", words, TOP).stdout.decode("utf-8")
        if is_other(TOP / file, printed) if file else not is_printed(printed, expected):
            yield f"`{line}` prints something else"


def wrong_pictures(pages):
    """The pictures that no command makes, and those that no document shows, of documents with their texts."""
    made = {TOP / line.partition(" >")[2] for text in pages.values() for line, _ in sessions(text)}
    shown = {(path.parent / it).resolve() for path, text in pages.items() for it in PICTURE.findall(text)}
    yield from (f"no command makes {it.relative_to(TOP)}" for it in sorted(shown - made))
    yield from (f"no document shows {it.relative_to(TOP)}" for it in sorted({*PICTURES.iterdir()} - shown))


def files_of(value, lists):
    """The pod file and the lists by which an example is read, of which a pod file's are these, by name."""
    if "rounds" in value:
        networks = {command["network"] for a_round in value["rounds"] for command in a_round if "network" in command}
        return [value, *(lists[name] for name in sorted(networks) if name in lists)]
    if "tasks" in value:
        return [value]
    if "plugins" in value:
        return [NO_PODS, value]
    if value["type"] == "host-local":
        return [NO_PODS, network_list("example", {"type": "bridge", "ipam": value})]
    plugins = [value] if value["type"] in FIRST else [{"type": "bridge"}, value]
    return [NO_PODS, network_list("example", *plugins)]


def wrong_examples(text, program):
    examples = [(json.loads(block), lines) for block, lines in EXAMPLE.findall(text)]
    lists = {value["name"]: value for value, _ in examples if "plugins" in value}
    for value, lines in examples:
        files = {f"{number}.json": content for number, content in enumerate(files_of(value, lists))}
        done = run_on(program, ["reg:0.json"] if "tasks" in value else [*files], files)
        printed = done.stdout.decode("utf-8")
        if done.returncode == REFUSED:
            yield f"an example is refused: {printed.strip()}"
        elif lines and printed != textwrap.dedent(lines):
            yield "an example prints something else"


def unlike_crate():
    """The files of examples/first that aren't as those of the crate, which `rt ci` runs the program on."""
    for name, file in TWICE.items():
        if (TOP / "examples" / "first" / name).read_bytes() != (TOP / "crates" / "cnitool" / file).read_bytes():
            yield f"examples/first/{name} isn't crates/cnitool/{file}"


def unlike_pages():
    """The lists of examples/plugins that don't have the example of their plugin's page, as a plugin or as an `ipam`."""
    for page in sorted((TOP / "docs" / "plugins").glob("*.md")):
        example = json.loads(EXAMPLE.search(page.read_text(encoding="utf-8"))[1])
        plugins = read_json(TOP / "examples" / "plugins" / f"{page.stem}.json")["plugins"]
        if example not in [*plugins, *(it.get("ipam") for it in plugins)]:
            yield f"examples/plugins/{page.stem}.json hasn't the example of {page.name}"
