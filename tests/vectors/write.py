#!/usr/bin/env python3
"""Writes vectors/, what each crash of an ADD, a DEL and a GC is answered and leaves, from the lists of sources.json.

    write.py [--check] [PROGRAM [LIST ..]]

A list's file has each command whole, stopped after each of its calls, and with a fault at each of them: a run of the
program each, with all that was commanded before. `--check` compares the files with what would be written. Each run is
judged by the model of ../legal, and each file by vectors/schema.json.
"""

import json
import pathlib
import sys

sys.dont_write_bytecode = True
HERE = pathlib.Path(__file__).resolve().parent
sys.path.insert(0, str(HERE.parent))
sys.path.insert(0, str(HERE.parent / "legal"))

from judge import Run, complaints
from program import TOP, compact, lines_of, program_of, read_json, run_on
from schema import misfits
from written import settle

VECTORS = TOP / "vectors"
WORDS = ["--trace", "--dump", "pods.json", "net.json"]
CASE_END = ",\n"
SPACES = {"a": "/ns/a", "b": "/ns/b", "c": "/ns/c"}


class Source:
    """A list with the commands that are crashed."""

    def __init__(self, name, given):
        self.name, self.about, self.half = name, given["about"], given["half"]
        self.mappings = {"portMappings": given["portMappings"]} if "portMappings" in given else {}
        self.network = given.get("name", "net")
        self.list = {"cniVersion": "1.1.0", "name": self.network, "plugins": given["plugins"]}
        links = {"links": given["links"]} if "links" in given else {}
        self.opening = {"namespaces": [*SPACES.values()], **links}

    def add(self, container, **more):
        names = {"network": self.network, "container": container, "netns": SPACES[container]}
        return {"verb": "ADD", **names, **self.mappings, **more}

    def cases(self):
        """What is commanded before, and the command that is crashed."""
        kept = [{"containerID": "a", "ifname": "eth0"}]
        yield [], self.add("a")
        yield [self.add("a")], {"verb": "DEL", "network": self.network, "container": "a"}
        before = [self.add("a"), self.add("b"), self.add("c", stop=self.half)]
        yield before, {"verb": "GC", "network": self.network, "valid": kept}


class Recording:
    """The runs of a list, and the objects that they left, each once."""

    def __init__(self, program, source):
        self.program, self.source, self.objects, self.unlawful = program, source, [], []

    def carried_out(self, before, command):
        """The command's answer, its calls and what is left, by places among the objects."""
        pods = {"opening": self.source.opening, "rounds": [[it] for it in [*before, command]]}
        done = run_on(self.program, WORDS, {"pods.json": pods, "net.json": self.source.list})
        lines = lines_of(done.stdout)
        wrong = [*complaints(Run(pods, [self.source.list]), WORDS, done.returncode, lines)]
        self.unlawful += [f"{self.source.name}: {compact(command)}: {it}" for it in wrong]
        values = [json.loads(it) for it in lines]
        answer = next(it for it in values if "verb" in it and it["n"] == len(before) + 1)
        calls = [it["call"] for it in values if "call" in it and it["n"] == len(before) + 1]
        left = [self.place_of(it) for it in values if "kind" in it]
        return {"answer": {key: it for key, it in answer.items() if key not in ("n", "verb")}, "left": left}, calls

    def place_of(self, it):
        if it not in self.objects:
            self.objects.append(it)
        return self.objects.index(it)

    def vectors(self, before, command):
        whole, calls = self.carried_out(before, command)
        yield whole, calls
        for number in range(1, len(calls)):
            yield {"stop": number, **self.carried_out(before, {**command, "stop": number})[0]}, None
        for number in range(1, len(calls) + 1):
            yield {"fault": number, **self.carried_out(before, {**command, "faults": [number]})[0]}, None


def lines_in(values):
    return ",\n".join(map(compact, values))


def case_text(recording, before, command):
    vectors = [*recording.vectors(before, command)]
    head = compact({"before": before, "command": command, "calls": vectors[0][1]})[:-1]
    return f'{head},"vectors":[\n{lines_in(it for it, _ in vectors)}]}}'


def text_of(recording):
    """The file of a list, a line a vector and a line an object."""
    source = recording.source
    cases = [case_text(recording, *it) for it in source.cases()]
    head = compact({"about": source.about, "list": source.list, "opening": source.opening})[:-1]
    return f'{head},\n"cases":[\n{CASE_END.join(cases)}],\n"objects":[\n{lines_in(recording.objects)}]}}\n'


def sources(names):
    """The lists of these names; without a name, all."""
    given = read_json(HERE / "sources.json")
    return [Source(name, it) for name, it in given.items() if not names or name in names]


def misquoted(texts):
    """The vectors that README.md shows and no file has."""
    for line in (VECTORS / "README.md").read_text(encoding="utf-8").splitlines():
        if line.startswith('    {"') and not any(line.strip() in text for text in texts):
            yield f"README.md: {line.strip()}"


def main():
    words = [it for it in sys.argv[1:] if it != "--check"]
    schema, texts, wrong = read_json(VECTORS / "schema.json"), {}, []
    for source in sources(words[1:]):
        recording = Recording(program_of(words), source)
        text = text_of(recording)
        texts[VECTORS / f"{source.name}.json"] = text
        wrong += recording.unlawful + [f"{source.name}: {it}" for it in misfits(json.loads(text), schema)]
    wrong += misquoted([texts.get(it) or it.read_text(encoding="utf-8") for it in VECTORS.glob("*.json")])
    vectors = sum(len(case["vectors"]) for it in texts.values() for case in json.loads(it)["cases"])
    for it in wrong:
        print(it)
    print(f"vectors: {vectors} in {len(texts)} files, {len(wrong)} wrong")
    return settle(texts) or bool(wrong)


if __name__ == "__main__":
    sys.exit(main())
