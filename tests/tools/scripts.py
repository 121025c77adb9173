#!/usr/bin/env python3
"""Runs the scripts of tools/ on small cases, on the examples and on what the program prints of them.

    scripts.py [PROGRAM]

- table:       objects of one kind, in columns;
- show:        each way in which a command ends, and a file that is refused;
- crashes:     with each call no less is left, and at the last what the dump has;
- fates:       each row of packets is read as the program reads it, and another fate is told apart;
- changes:     what the calls of a run changed, one after another, leads from the opening to the last dump;
- pictures:    each is XML, the same twice, and says each name and address; frames are within one another or apart; one
               of an attachment alone names no other;
- completion:  the options of README's table;
- usage:       each says how it is used.
"""

import collections
import itertools
import json
import os
import pathlib
import re
import signal
import subprocess
import sys
import xml.etree.ElementTree

sys.dont_write_bytecode = True
sys.path.insert(0, str(pathlib.Path(__file__).resolve().parent.parent))
sys.path.insert(0, str(pathlib.Path(__file__).resolve().parent.parent / "rows"))
sys.path.insert(0, str(pathlib.Path(__file__).resolve().parent.parent.parent / "tools"))

import diagram
from program import (
    FAILURE,
    REFUSED,
    TOP,
    bridge,
    compact,
    count_failed,
    in_folder,
    lines_of,
    network_list,
    program_of,
    read_json,
    run,
)
from run import content_of

TOOLS = TOP / "tools"
# how many rows are run call by call
MOST_RUNS = 4
SVG = "{http://www.w3.org/2000/svg}"
DUMP = """\
{"n":1,"ok":true,"verb":"GC"}
{"kind":"namespace","name":"/ns/a","tag":"outside"}
{"kind":"link","name":"cni0","ns":"","tag":"base"}
{"kind":"link","name":"eth0","ns":"/ns/a","peer":{"name":"v","ns":""},"tag":"pods/c1/eth0"}
"""
TABLE = """\
name  ns     peer
cni0  -      -
eth0  /ns/a  {"name":"v","ns":""}
"""


C1 = {"network": "pods", "container": "c1"}
# a command for each way to end, and the line that tells of it
ENDS = [
    ({"verb": "ADD", **C1, "netns": "/ns/a"}, "1   ADD      pods/c1/eth0  6      10.88.0.2/16"),
    ({"verb": "ADD", **C1, "netns": "/ns/a"}, "2   ADD      pods/c1/eth0  1      101 name taken pods/c1/eth0"),
    ({"verb": "CHECK", **C1, "ifname": "e"}, "3   CHECK    pods/c1/e     1      3 container unknown pods/c1/e"),
    ({"verb": "VERSION", "network": "pods"}, "4   VERSION  pods          0      1.1.0"),
    ({"verb": "GC", "network": "off"}, "5   GC       off           0      skipped by disableGC"),
    ({"verb": "DEL", **C1, "stop": 2}, "6   DEL      pods/c1/eth0  2      stopped after 2 calls"),
    ({"verb": "NSADD", "netns": "/ns/b"}, "7   NSADD    /ns/b         1      ok"),
    ({"verb": "DROP", "netns": "/ns/a", "ifname": "e"}, "8   DROP     /ns/a/e       1      105 nothing there e"),
    ({"verb": "FLUSH", "table": "nat"}, "9   FLUSH    nat           1      ok"),
    ({"verb": "ADD", **C1, "network": "off", "netns": "/ns/b"}, "10  ADD      off/c1/eth0   4      no address"),
]
SHOWN_LISTS = {
    "net.json": network_list("pods", bridge(subnet="10.88.0.0/16")),
    "off.json": {**network_list("off", {"type": "bridge"}), "disableGC": True},
}


def output_of(tool, words, given=""):
    ended = subprocess.run([TOOLS / tool, *words], input=given, capture_output=True, encoding="utf-8", check=False)
    return ended.stdout, ended.returncode


def table(_):
    if output_of("table.py", ["link", "name", "ns", "peer"], DUMP) != (TABLE, 0):
        yield f"printed: {output_of('table.py', ['link', 'name', 'ns', 'peer'], DUMP)}"
    for kind, given in (("lease", DUMP), ("link", '{"n":1,"ok":true,"verb":"GC"}\n')):
        if output_of("table.py", [kind], given) != ("", 1):
            yield f"{kind}: {output_of('table.py', [kind], given)}"


def runs():
    """The name and the files of each row with a dump."""
    table = read_json(TOP / "tests/rows/rows.json")
    for row in table["rows"]:
        if "dump" in row and "for_each" not in row:
            yield row["name"], {name: content_of(it, table["lists"]) for name, it in row["files"].items()}


def dump_of(program, files, folder):
    lines = lines_of(run(program, ["--dump", *files], folder).stdout)
    return [line for line in lines if "kind" in json.loads(line)]


def show(program):
    pods = {"opening": {"namespaces": ["/ns/a"]}, "rounds": [[it] for it, _ in ENDS]}
    with in_folder({"pods.json": pods, **SHOWN_LISTS}) as folder:
        ended = run(TOOLS / "show.py", [program, "pods.json", *SHOWN_LISTS], folder)
        if lines_of(ended.stdout)[1:] != [line for _, line in ENDS] or ended.returncode != FAILURE:
            yield f"status {ended.returncode}: {lines_of(ended.stdout)}"
        for tool in ("show.py", "crashes.py"):
            ended = run(TOOLS / tool, [program, "net.json"], folder)
            if ended.returncode != REFUSED or b"invalid pod file: rounds" not in ended.stdout:
                yield f"{tool} of a file that is refused: {ended}"


def crashes(program):
    for name, files in itertools.islice(runs(), MOST_RUNS):
        pods = {**files["pods.json"], "rounds": files["pods.json"]["rounds"][:1]}
        if [it["verb"] for it in pods["rounds"][0]] != ["ADD"]:
            continue
        with in_folder({**files, "pods.json": pods}) as folder:
            _, *rows = lines_of(run(TOOLS / "crashes.py", [program, *files], folder).stdout)
            tags = [json.loads(it).get("tag", "") for it in dump_of(program, {**files, "pods.json": pods}, folder)]
        left = [[int(cell) if cell.isdigit() else 0 for cell in row.split()[2:9]] for row in rows]
        if any(one > two for before, after in itertools.pairwise(left) for one, two in zip(before, after)):
            yield f"{name}: less is left with more calls: {rows}"
        if sum(left[-1]) != sum("/" in it for it in tags):
            yield f"{name}: {rows[-1]}, and the dump has {tags}"


def status_unread(words, folder):
    """How a script ends whose output nobody reads."""
    read, write = os.pipe()
    os.close(read)
    with open(write, "wb") as unread:
        return run(sys.executable, words, folder, stdout=unread).returncode


def fates(program):
    """The rules that decide in each row that has packets, and in one of which a line is another."""
    lists = read_json(TOP / "tests/rows/rows.json")["lists"]
    for row in read_json(TOP / "tests/rows/packets.json"):
        if "packets" not in row:
            continue
        with in_folder({name: content_of(it, lists) for name, it in row["files"].items()}) as folder:
            printed = run(program, ["--dump", *row["words"]], folder).stdout
            for text, status in ((printed, 0), (printed.replace(b'"rewritten":true', b'"rewritten":false'), 1)):
                words = [str(TOOLS / "fates.py"), "packets.json"]
                ended = subprocess.run(words, input=text, cwd=folder, capture_output=True, check=False)
                if ended.returncode != status and (status == 0 or text != printed):
                    yield f"{row['name']}: status {ended.returncode}, {ended.stderr.decode('utf-8')[-200:]}"


def changes(program):
    if output_of("changes.py", [TOP / "no-such-program", "pods.json"]) != ("", 1):
        yield "a program that isn't there is run"
    for number, (name, files) in enumerate(itertools.islice(runs(), MOST_RUNS)):
        with in_folder(files) as folder:
            words = [TOOLS / "changes.py", program, *files]
            if number == 0 and status_unread(words, folder) != -signal.SIGPIPE:
                yield f"{name}: it doesn't end where nobody reads"
            printed = lines_of(run(sys.executable, words, folder).stdout)
            wanted = dump_of(program, files, folder)
            (folder / "pods.json").write_text(compact({**files["pods.json"], "rounds": []}), encoding="utf-8")
            held = collections.Counter(dump_of(program, files, folder))
        held.update(line[4:] for line in printed if line.startswith("  + "))
        held.subtract(line[4:] for line in printed if line.startswith("  - "))
        if held != collections.Counter(wanted):
            yield f"{name}: the changes lead to {held}"


def nest(first, second):
    """Whether of two frames one is within the other, or they are apart."""
    (a, b, c, d), (e, f, g, h) = first, second
    is_apart = a + c <= e or e + g <= a or b + d <= f or f + h <= b
    is_within = a <= e and b <= f and e + g <= a + c and f + h <= b + d
    return is_apart or is_within or (e <= a and f <= b and a + c <= e + g and b + d <= f + h)


def wrong_of_picture(lines):
    drawn = diagram.draw(diagram.Dump(lines))
    if diagram.draw(diagram.Dump(lines)) != drawn:
        yield "not the same twice"
    root = xml.etree.ElementTree.fromstring(drawn)
    said = " ".join(it.text for it in root.iter(f"{SVG}text"))
    for value in map(json.loads, lines):
        named = {"namespace": "name", "link": "name", "address": "address", "lease": "tag"}.get(value["kind"])
        if named and value[named] not in said:
            yield f"{value[named]} isn't there"
    sides = ("x", "y", "width", "height")
    frames = [[int(it.get(side)) for side in sides] for it in root.iter(f"{SVG}rect") if it.get("x")]
    if not all(itertools.starmap(nest, itertools.product(frames, repeat=2))):
        yield "frames meet"


def pictures(program):
    for name, files in runs():
        with in_folder(files) as folder:
            dump = dump_of(program, files, folder)
        yield from (f"{name}: {it}" for it in wrong_of_picture(dump))
        owners = diagram.Dump(dump).owners
        for owner in owners:
            drawn = diagram.draw(diagram.Dump(dump, [owner]))
            if [it for it in owners if it in drawn] != [owner]:
                yield f"{name}: {owner} isn't drawn alone"
    if output_of("diagram.py", [])[1] == 0:
        yield "no dump is drawn"
    if output_of("diagram.py", ["--only", "pods/none/eth0"], DUMP)[1] == 0:
        yield "an attachment that isn't there is drawn"


def usage(_):
    """Each tool that one runs prints how, where it is asked or can't make sense of its words."""
    for tool in ("changes.py", "check.py", "crashes.py", "diagram.py", "fates.py", "show.py", "table.py"):
        ended = subprocess.run([TOOLS / tool, "--help"], stdin=subprocess.DEVNULL, capture_output=True, check=False)
        if f"tools/{tool}".encode() not in ended.stdout + ended.stderr and b"usage: " not in ended.stdout:
            yield f"{tool}: {ended}"


def completion(_):
    options = re.findall(r"^\| `(--[a-z-]+)", (TOP / "README.md").read_text(encoding="utf-8"), re.MULTILINE)
    script = """
        source tools/completion.bash && complete -p cnitool ./try >/dev/null || exit
        COMP_WORDS=(cnitool "$@"); COMP_CWORD=$#; _cnitool; echo "${COMPREPLY[*]}"
    """
    tried = {
        ("--",): " ".join(options),
        ("--trace", "--du"): "--dump",
        ("--threads", "1"): "1 10 11 12 13 14 15 16",
        ("pods",): "",
    }
    for words, due in tried.items():
        printed = run("bash", ["-c", script, "bash", *words], TOP).stdout.decode("utf-8").strip()
        if printed != due:
            yield f"{words}: {printed}"


def main():
    program = program_of(sys.argv[1:])
    tried = (table, show, crashes, fates, changes, pictures, completion, usage)
    failed = count_failed((it.__name__, list(it(program))) for it in tried)
    print(f"tools: {failed} wrong")
    return 1 if failed else 0


if __name__ == "__main__":
    sys.exit(main())
