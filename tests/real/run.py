#!/usr/bin/env python3
"""Runs a pod file on real plugins beside the program, and names each difference.

    run.py PODS LIST ..             on the plugins of CNI_PATH, /usr/lib/cni where it isn't given, and the program
                                    PROGRAM, the one that ./test built where it isn't given
    run.py --again VERSION [WORD]   makes the recordings of plugins of this version anew, of all scenarios or of those
                                    whose names hold WORD, and says which changed
    run.py --kept [PROGRAM]         holds a program to the recordings, without plugins

The plugins run in namespaces of this program's own, and nothing of the machine's network is touched; where none can be
made it says what is missing. A difference that isn't in differences.json is wrong, and with --kept so is an entry there
that no recording shows.
"""

import collections
import json
import pathlib
import sys

sys.dont_write_bytecode = True

from start import HERE, PLUGINS, begin, given_program

from beside import Beside
from differences import known, read_differences, untold
from host import Host
from program import compact, program_of, read_json
from recording import Recorded, Recorder

RECORDINGS = HERE / "recordings"
# what packets.py compares
OF_PACKETS = ("packet.rewritten", "packet.masqueraded")


def real_host(beside):
    return Host(beside.pods.get("opening", {}), PLUGINS, beside.settings())


def line_of(it, name):
    told = {"n": it.number, "verb": it.verb, "what": it.what, "model": it.model, "real": it.real}
    return compact({**told, "name": name, **({"after": it.after} if it.after else {})})


def once(files):
    """A pod file and its lists, on the plugins that are there."""
    begin()
    pods, *lists = (read_json(pathlib.Path(it)) for it in files)
    beside = Beside(given_program(), pods, lists)
    beside.carry_out(real_host(beside))
    table, wrong = read_differences(), 0
    for it in beside.found:
        name = known(it, table, "", "")
        wrong += name is None
        print(line_of(it, name))
    print(f"real: {beside.same} the same, {len(beside.found)} different, {wrong} of them unnamed")
    return 1 if wrong else 0


def scenarios(word=""):
    return [it for it in sorted(RECORDINGS.glob("*.json")) if word in it.stem]


def is_for(version, lists):
    """Whether plugins of this version take all these lists."""
    return version != "1.1.1" or all(it.get("cniVersion") != "1.1.0" for it in lists)


def again(version, word=""):
    begin()
    changed = 0
    for path in scenarios(word):
        kept = read_json(path)
        if not is_for(version, kept["lists"]):
            continue
        beside = Beside(given_program(), kept["pods"], kept["lists"])
        recorder = Recorder(real_host(beside))
        beside.carry_out(recorder)
        told = recorder.told(compact(kept["lists"]))
        before = kept.setdefault("recorded", {}).get(version)
        if told != before:
            changed += 1
            print(f"{path.stem}: {'new' if before is None else 'changed'}, {len(beside.found)} differences", flush=True)
            kept["recorded"][version] = told
            path.write_text(written(kept), encoding="utf-8")
    print(f"real: {changed} recordings of {version} changed")
    return 0


def written(kept):
    """The text of a recording, whose entries have lines of their own."""
    lines = [f'"pods": {compact(kept["pods"])}', f'"lists": {compact(kept["lists"])}']
    versions = []
    for version, told in sorted(kept["recorded"].items()):
        entries = ",\n  ".join(map(compact, told["entries"]))
        versions.append(f'{compact(version)}: {{"at_first": {compact(told["at_first"])}, "entries": [\n  {entries}]}}')
    return "{" + ",\n".join([*lines, '"recorded": {\n ' + ",\n ".join(versions) + "}"]) + "}\n"


def wrong_in(program, path, table, used, counts):
    """What a recording shows that nothing names, and what the program asks otherwise than it did."""
    kept = read_json(path)
    for version, told in kept.get("recorded", {}).items():
        recorded = Recorded(told)
        beside = Beside(program, kept["pods"], kept["lists"])
        beside.carry_out(recorded)
        counts[version, "scenarios"] += 1
        counts[version, "the same"] += beside.same
        for it in recorded.wrong:
            yield f"{path.stem} {version}: {compact(it)}"
        if not recorded.wrong and recorded.left():
            yield f"{path.stem} {version}: less is asked than was recorded"
        for it in beside.found:
            name = known(it, table, path.stem, version)
            counts[version, "different"] += 1
            used.add(name)
            if name is None and not it.after:
                yield f"{path.stem} {version}: {line_of(it, name)}"


def kept(program):
    table, used, counts, wrong = read_differences(), set(), collections.Counter(), 0
    for path in scenarios():
        for text in wrong_in(program, path, table, used, counts):
            wrong += 1
            print(text)
    due = [it["id"] for it in table if not it.get("chance") and it.get("what") not in OF_PACKETS]
    unused = [it for it in due if it not in used]
    for text in [*(f"no recording shows the difference {it}" for it in unused), *untold(table)]:
        wrong += 1
        print(text)
    for version in sorted({it[0] for it in counts}):
        numbers = ", ".join(f"{counts[version, it]} {it}" for it in ("scenarios", "the same", "different"))
        print(f"real {version}: {numbers}")
    print(f"real: {wrong} wrong")
    return 1 if wrong else 0


def main():
    words = sys.argv[1:]
    if words[:1] == ["--again"] and len(words) in (2, 3):
        return again(*words[1:])
    if words[:1] == ["--kept"] and len(words) <= 2:
        return kept(program_of(words[1:]))
    if not words or words[0].startswith("--"):
        sys.exit(__doc__)
    return once(words)


if __name__ == "__main__":
    sys.exit(main())
