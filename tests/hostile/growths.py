#!/usr/bin/env python3
"""Refuses the program one piece of memory, each of a run in turn, and looks how the run ends.

    growths.py [PROGRAM [EVERY]]

The k-th `malloc` of a run answers that there is none, for k from 1, in steps of EVERY where that is given, until a run
ends without having been refused any. A library that is loaded before the C library does that; the kit's clang compiles
it. Each run prints the whole text (status 0 or 1), an answer that says out of memory (8), or nothing (6). Where
commands or tasks were answered the kernel's objects are sound, and two deletions or collections, of which at least one
has memory, leave nothing that is owned.
"""

import collections
import json
import os
import pathlib
import shutil
import subprocess
import sys

sys.dont_write_bytecode = True
sys.path.insert(0, str(pathlib.Path(__file__).resolve().parent.parent))

from program import (
    COMMAND_MEMORY,
    FAILURE,
    MOST_SECONDS,
    NO_PODS,
    SUCCESS,
    TOP,
    bridge,
    command,
    count_failed,
    in_folder,
    lines_of,
    network_list,
    program_of,
    read_json,
    run,
    session,
    task,
)

MEMORY = 6
# the code of the answer of a command that ran out of memory
OUT_OF_MEMORY = 104
# the members that tell an object of a kind from the others of that kind
KEYS = {
    "namespace": ["name"],
    "link": ["ns", "name"],
    "address": ["ns", "link", "address"],
    "route": ["ns", "dst", "link"],
    "setting": ["ns", "key"],
    "lease": ["network", "address"],
    "cached": ["tag"],
    "last": ["network", "set"],
}
SOURCE = "refusing.c"
LIBRARY = "refusing.so"
REFUSING = """
extern void *__libc_malloc(unsigned long);
extern char *getenv(const char *);
extern long atol(const char *);
extern long write(int, const void *, unsigned long);

static long left = -1;

void *malloc(unsigned long size) {
    if (left < 0) left = atol(getenv("REFUSED"));
    if (left > 0 && --left == 0) {
        write(atol(getenv("TOLD_TO")), "!", 1);
        return 0;
    }
    return __libc_malloc(size);
}
"""


def compile_into(folder):
    """Makes the library whose `malloc` refuses the piece of memory of the number REFUSED, and tells it to TOLD_TO."""
    (folder / SOURCE).write_text(REFUSING, encoding="utf-8")
    clang = pathlib.Path(shutil.which("rt")).resolve().parent.parent / "toolchain/bin/clang"
    flags = ["-shared", "-fPIC", "-nostdlib", "-fuse-ld=lld", "-o", LIBRARY]
    subprocess.run([str(clang), *flags, SOURCE], cwd=folder, check=True)


def refused(program, words, folder, number):
    """The run in which the piece of memory of this number is refused, and whether there was one."""
    told, tell = os.pipe()
    given = {"LD_PRELOAD": str(folder / LIBRARY), "REFUSED": str(number), "TOLD_TO": str(tell)}
    ended = subprocess.run(
        [program, *words],
        cwd=folder,
        stdout=subprocess.PIPE,
        env={**os.environ, **given},
        pass_fds=[tell],
        check=False,
        timeout=MOST_SECONDS,
    )
    os.close(tell)
    with os.fdopen(told, "rb") as pipe:
        return ended, pipe.read() != b""


def is_sound(objects):
    """Whether each key stands once, and each veth end has its peer, which names it."""
    keys = [[it["kind"], *(it.get(key) for key in KEYS[it["kind"]])] for it in objects if it["kind"] in KEYS]
    links = [it for it in objects if it["kind"] == "link"]
    peers = {(it["ns"], it["name"]): it["peer"] for it in links if it["link"] == "veth"}
    paired = all(peers.get((to["ns"], to["name"])) == {"ns": ns, "name": name} for (ns, name), to in peers.items())
    return paired and len(set(map(str, keys))) == len(keys)


def wrong_of(ended, text, swept):
    """What is wrong with how a run ended that was refused a piece of memory."""
    if ended.returncode == MEMORY and ended.stdout == b"":
        return None
    if ended.returncode in (SUCCESS, FAILURE) and ended.stdout == text:
        return None
    if ended.returncode != COMMAND_MEMORY:
        return f"status {ended.returncode}, {len(ended.stdout)} bytes"
    lines = [json.loads(it) for it in lines_of(ended.stdout)]
    if OUT_OF_MEMORY not in [it.get("error", {}).get("code") for it in lines if "verb" in it]:
        return "no answer says out of memory"
    objects = [it for it in lines if "kind" in it]
    if not is_sound(objects):
        return "the objects aren't sound"
    owned = {it["tag"] for it in objects if it.get("tag", "base") not in ("base", "outside")}
    if swept and owned:
        return f"owned at the end: {sorted(owned)}"
    return None


def in_turn(program, every, words, files, swept):
    """Complaints about runs in which each piece of memory is refused in turn, and how often each status came."""
    seen = collections.Counter()
    with in_folder(files) as folder:
        compile_into(folder)
        text = run(program, words, folder).stdout
        number, met = 1, True
        while met:
            ended, met = refused(program, words, folder, number)
            if met:
                seen[ended.returncode] += 1
                wrong = wrong_of(ended, text, swept)
                if wrong:
                    yield f"refused {number}: {wrong}"
            elif ended.stdout != text:
                yield "the run that was refused nothing prints another text"
            number += every
    if not seen:
        yield "no memory was refused: the program takes it from elsewhere"
    print(f"{sum(seen.values())} refused: " + ", ".join(f"status {it} {seen[it]} times" for it in sorted(seen)))


def rounds_of(*commands):
    return {"opening": {"namespaces": ["/ns/a", "/ns/b", "/ns/c"]}, "rounds": [[it] for it in commands]}


def session_runs():
    """The same of sessions."""
    words = ["--trace", "--dump", "reg:session.json"]
    pools = {"type": "host-local", "ranges": [[{"subnet": "10.9.0.0/24"}], [{"subnet": "fd00:9::/64"}]]}
    opening = {"namespaces": ["/ns/a", "/ns/b"], "links": [{"name": "eth1", "kind": "device"}]}
    vlan = task("ADD", "vlan", "c1", "/ns/a", {"master": "eth1", "vlanId": "100"})
    guard = task("ADD", "guard", "c2", "/ns/b", {"from": "192.0.2.7"})
    delete = task("DEL", "vlan", "c1", "/ns/a")
    check = task("CHECK", "vlan", "c1", "/ns/a")
    sweep = {"verb": "GC"}
    halves = [{**vlan, "stop": 4}, {**guard, "stop": 3}]

    def of(*tasks):
        return {"session.json": session(*tasks, ipam=pools, opening=opening)}

    yield "an ADD of vlan, a CHECK and deletions", words, of(vlan, check, delete, delete), True
    yield "collections after half-made ADDs of a session", words, of(*halves, sweep, sweep), True
    yield "no task", ["reg:session.json"], of(), False
    yield "ADDs of a session, and all that is printed of them", words, of(vlan, guard, check), False


def runs():
    """Each run by its name: its words, its files, and whether its last command takes back all that is owned."""
    lists = read_json(TOP / "tests/rows/rows.json")["lists"]
    words = ["--trace", "--dump", "--requests", "pods.json", "net.json"]
    mapped = {"portMappings": [{"hostPort": 8080, "containerPort": 80, "protocol": "tcp"}]}
    add = command("ADD", "podman", "c1", "/ns/a")
    delete = command("DEL", "podman", "c1", "/ns/a")
    sweep = {"verb": "GC", "network": "pods", "valid": []}
    halves = [{**command("ADD", "pods", f"c{it}", f"/ns/{'abc'[it]}"), "stop": 3 + it} for it in range(3)]
    pods = network_list("pods", bridge(subnet="10.88.0.0/16"))
    podman = {"pods.json": rounds_of({**add, **mapped}, delete, delete), "net.json": lists["PODMAN"]}
    swept = {"pods.json": rounds_of(*halves, sweep, sweep), "net.json": pods}
    published = [{**it, "network": "published"} for it in ({**add, **mapped}, delete, delete)]
    packet = {"protocol": "tcp", "src": "192.0.2.7", "dst": "198.51.100.1", "dport": 8080}
    both = {"pods.json": rounds_of(*published), "net.json": lists["DUAL_PUBLISHED"], "packets.json": [packet] * 3}
    added = {**both, "pods.json": rounds_of(published[0])}
    yield "an ADD of four plugins and its deletions", words, podman, True
    yield "an ADD of both families and its deletions", ["--probe", "packets.json", *words], both, True
    yield "collections after half-made ADDs", words, swept, True
    yield "no command", ["pods.json"], {"pods.json": NO_PODS}, False
    yield "an ADD, and all that is printed of it", ["--probe", "packets.json", *words], added, False
    yield from session_runs()


def main():
    program = program_of(sys.argv[1:])
    every = int(sys.argv[2]) if len(sys.argv) > 2 else 1
    failed = count_failed((name, list(in_turn(program, every, *how))) for name, *how in runs())
    print(f"growths: {failed} wrong")
    sys.exit(failed > 0)


if __name__ == "__main__":
    main()
