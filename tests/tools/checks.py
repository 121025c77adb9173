#!/usr/bin/env python3
"""Looks whether tools/check.py tells what the program refuses, and where and why.

    checks.py [PROGRAM [COUNT [SEED]]]

- readers: of each list of ../readers its first refusal is the row's;
- told:    of each list of wrong_lists.json it prints these lines, and ends with 1;
- alike:   of COUNT lists, 300 where it isn't given, each changed at random, the first refusal is the program's;
- mend:    each list of engine_lists.json is mended as is written there, the program carries it out, and
           docs/COMPATIBILITY.md tells of the change; other lists aren't mended;
- files:   a folder, keys that are known, pod files and a session file, SARIF, and files that can't be read.
"""

import json
import pathlib
import random
import subprocess
import sys

sys.dont_write_bytecode = True
TESTS = pathlib.Path(__file__).resolve().parent.parent
for folder in (TESTS, TESTS / "hostile", TESTS / "rows", TESTS.parent / "tools"):
    sys.path.insert(0, str(folder))

import lists
import mending
import mutations
import places
from program import (
    NO_PODS,
    REFUSED,
    TOP,
    bridge,
    count_failed,
    in_folder,
    network_list,
    program_of,
    read_json,
    run,
    session,
)

COUNT = 300
SEED = 1
CHECK = TOP / "tools/check.py"
PODS = {
    "opening": {"ns": ["/ns/a"], "links": [{"name": "eth1", "kind": "device", "mut": 1, "netns": "/ns/a"}]},
    "rounds": [
        [{"verb": "GC", "network": "pods", "vaild": [{"containerID": "c1", "ifname": "eth0"}]}],
        [{"verb": "ADD", "portMappings": [{"hostport": 1}], "valid": None}],
    ],
}
COMPATIBILITY = (TOP / "docs/COMPATIBILITY.md").read_text(encoding="utf-8")
C1 = {"network": "pods", "container": "c1"}
# what is done with a list that was mended; podman's macvlan list has the master lo
MENDED = {
    "opening": {"namespaces": ["/ns/a"], "links": [{"name": "lo", "kind": "device"}]},
    "rounds": [[{"verb": "ADD", **C1, "netns": "/ns/a"}], [{"verb": "CHECK", **C1}], [{"verb": "DEL", **C1}]],
}
SMALL = {"subnet": "10.1.0.0/24"}
FILES = {
    "a.conflist": network_list("one", bridge(**SMALL, dataDir="/run")),
    "b.conf": network_list("two", bridge(**SMALL)),
    "c.json": {**network_list("two", {"type": "bridge", "ips": []}), "cni.dev/x": 1},
    "d.txt": b"no list",
    "latin.json": b'{"name":\n"\xe4"}',
    "pods.json": PODS,
    "session.json": session({"verb": "GC", "vaild": [], "options": {"any": "x"}}),
}
TOLD = """\
latin.json:2:2: refused: this isn't UTF-8; save it as UTF-8
pods.json:1:18: warning: opening.ns: this key is ignored
pods.json:1:74: warning: opening.links[0].mut: this key is ignored; the nearest name is mtu
pods.json:1:84: warning: opening.links[0].netns: this key is ignored; the nearest name is ns
pods.json:1:144: warning: rounds[0][0].vaild: this key is ignored; the nearest name is valid
pods.json:1:228: warning: rounds[1][0].portMappings[0].hostport: this key is ignored; the nearest name is hostPort
session.json:1:46: warning: tasks[0].vaild: this key is ignored; the nearest name is valid
c.json:1:30: warning: name: b.conf has this name too; the program takes one of them
b.conf:1:71: warning: plugins[0].ipam: one of a.conflist leases these addresses too
"""
KNOWN = """\
a.conflist:1:125: ignored: plugins[0].ipam.dataDir: CNI knows this key; it has no effect here
c.json:1:87: ignored: cni.dev/x: CNI knows this key; it has no effect here
c.json:1:70: ignored: plugins[0].ips: CNI knows this key; it has no effect here
"""


def first_refusal(text):
    """The code and the words of the first refusal of a list, or None."""
    try:
        found = next(lists.refusals(places.of_text(text)), None)
    except (ValueError, RecursionError):
        return 6, "decoding failed"
    return found and (found.code, found.said)


def readers(_):
    for row in read_json(TOP / "tests/readers/network_lists.json"):
        if first_refusal(row["input"]) != ((row["code"], row["msg"]) if "code" in row else None):
            yield f"{row['input']}: {first_refusal(row['input'])}"


def printed_by(folder, *words):
    ended = subprocess.run([CHECK, *words], cwd=folder, capture_output=True, encoding="utf-8", check=False)
    return ended.stdout, ended.returncode


def told(_):
    for row in read_json(TOP / "tests/tools/wrong_lists.json"):
        with in_folder({"net.json": row["list"].encode("utf-8")}) as folder:
            due = "".join(f"net.json:{it}\n" for it in row["told"]), 1
            if printed_by(folder, "net.json") != due:
                yield f"{row['list']}: {printed_by(folder, 'net.json')}"


def refusal_by(program, folder):
    """The code and the words of the program's refusal, or None."""
    ended = run(program, ["pods.json", "net.json"], folder)
    error = json.loads(ended.stdout)["error"] if ended.returncode == REFUSED else None
    return error and (error["code"], error["msg"])


def changed_lists(count, seed):
    """Lists of the readers' rows, each changed at random, those that are no UTF-8 left out."""
    rng = random.Random(seed)
    rows = read_json(TOP / "tests/readers/network_lists.json")
    texts = [row["input"].encode("utf-8") for row in rows if row["input"]]
    tokens = [it for text in texts for it in mutations.TOKEN.findall(text)]
    while count:
        text = rng.choice(texts)
        for _ in range(rng.randrange(1, mutations.MOST_CHANGES + 1)):
            text = rng.choice(mutations.CHANGES)(rng, text, tokens) or b" "
        try:
            text.decode("utf-8")
        except UnicodeDecodeError:
            continue
        count -= 1
        yield text


def alike(program):
    count, seed = map(int, (*sys.argv[2:], *(COUNT, SEED)[len(sys.argv[2:]) :]))
    for text in changed_lists(count, seed):
        with in_folder({"pods.json": NO_PODS, "net.json": text}) as folder:
            due = refusal_by(program, folder)
        if first_refusal(text.decode("utf-8")) != due:
            yield f"{text!r}: {first_refusal(text.decode('utf-8'))}, and the program says {due}"


def mend_by(folder, *words):
    """What --mend prints, what it tells, and how it ends."""
    ended = subprocess.run([CHECK, "--mend", *words], cwd=folder, capture_output=True, encoding="utf-8", check=False)
    return ended.stdout, ended.stderr, ended.returncode


def wrong_of_mended(row, program):
    with in_folder({"net.json": row["list"]}) as folder:
        printed, told, status = mend_by(folder, "net.json")
        if status != 0 or json.loads(printed) != row["mended"]:
            yield f"status {status}, {printed}"
        if [it.split(": mended: ")[1].partition(" (")[0] for it in told.splitlines()] != row["told"]:
            yield told
        if row["file"] not in told:
            yield f"it isn't told of {row['file']}: {told}"
    with in_folder({"net.json": {**row["mended"], "name": "pods"}, "pods.json": MENDED}) as folder:
        ended = run(program, ["pods.json", "net.json"], folder)
        if ended.returncode != 0:
            yield f"status {ended.returncode}: {ended.stdout}"
    for change in (it for engine in mending.ENGINES for it in engine["changes"] if row["file"] in it["file"]):
        lines = [it for it in COMPATIBILITY.splitlines() if change["so"] in it and row["file"] in it]
        if not lines:
            yield f"docs/COMPATIBILITY.md doesn't tell of {change}"


def mend(program):
    rows = read_json(TOP / "tests/tools/engine_lists.json")
    for row in rows:
        yield from (f"{row['file']}: {it}" for it in wrong_of_mended(row, program))
    if {pathlib.Path(it["file"]).name for engine in mending.ENGINES for it in engine["changes"]} != {
        row["file"] for row in rows
    }:
        yield "engine_lists.json hasn't a list for each change"
    by_nerdctl = next(it for it in read_json(TOP / "tests/readers/network_lists.json") if "nerdctl" in it["about"])
    isolated = next(it["list"] for it in rows if it["file"] == "isolate.conflist")
    first, *later = isolated["plugins"]
    others = {
        "another engine's": by_nerdctl["input"].encode("utf-8"),
        "with a key of its own": {**isolated, "plugins": [{**first, "x": 1}, *later]},
        "with another fault": {**isolated, "name": "a b"},
        "a pod file": PODS,
        "no JSON": b"{",
    }
    for name, content in others.items():
        with in_folder({"net.json": content}) as folder:
            printed, told, status = mend_by(folder, "net.json")
        if (printed, status) != ("", 1) or not told.startswith("net.json:"):
            yield f"{name}: status {status}, {printed}, {told}"
    with in_folder({"net.json": rows[0]["mended"]}) as folder:
        if (json.loads(mend_by(folder, "net.json")[0]), *mend_by(folder, "net.json")[1:]) != (rows[0]["mended"], "", 0):
            yield "a list that is taken isn't left as it is"
        if mend_by(folder, "net.json", "net.json")[2] != 2:
            yield "two files are mended"


def files(_):
    with in_folder(FILES) as folder:
        if printed_by(folder, ".") != (TOLD, 1):
            yield f"a folder: {printed_by(folder, '.')}"
        alone = ["a.conflist", "c.json"]
        if printed_by(folder, *alone) != ("", 0) or printed_by(folder, "--all", *alone) != (KNOWN, 0):
            yield f"known keys: {printed_by(folder, *alone)}, {printed_by(folder, '--all', *alone)}"
        results = json.loads(printed_by(folder, "--sarif", ".")[0])["runs"][0]["results"]
        lines = [it["message"]["text"] for it in results]
        if lines != [line.split(": ", 2)[2] for line in TOLD.splitlines()]:
            yield f"SARIF: {lines}"
        if printed_by(folder, "no-such-file") != ("", 1):
            yield "a file that isn't there is read"
    other = ("misspelt.json", "small.json", "packets.json")
    good = [str(it) for it in (TOP / "examples").rglob("*.json") if it.name not in other]
    refused = [it for name in good for it in printed_by(TOP, name)[0].splitlines()]
    if refused:
        yield f"the examples: {refused}"


def main():
    program = program_of(sys.argv[1:])
    failed = count_failed((it.__name__, list(it(program))) for it in (readers, told, alike, mend, files))
    print(f"checks: {failed} wrong")
    return 1 if failed else 0


if __name__ == "__main__":
    sys.exit(main())
