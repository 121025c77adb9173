#!/usr/bin/env python3
"""Refuses the program memory, output and files as the system does, and looks what it prints and with which status.

    refusals.py [PROGRAM]

- memory:  its data is limited, in steps from where the program begins to where it has enough, once for commands that
           need much, and once for a text that does, and so for a session. Its stack isn't: where that can't grow the
           system ends a program;
- output:  a full device, a pipe that nobody reads, one whose reader stops halfway, and none at all;
- files:   a folder, a file without permission, one that is missing, and files of 16,777,216 and 16,777,217 bytes, in
           place of a list and of a session file; and some of these in place of a packet file.

Nothing may be printed but what the status allows: the whole text (0 and 1), the text with an answer that tells want of
memory (8), one line (3 and 4), a prefix of the text (5), or nothing (6).
"""

import json
import os
import pathlib
import resource
import shutil
import subprocess
import sys

sys.dont_write_bytecode = True
sys.path.insert(0, str(pathlib.Path(__file__).resolve().parent.parent))

from program import (
    COMMAND_MEMORY,
    DIRECTORY,
    MOST_SECONDS,
    REFUSED,
    SUCCESS,
    bridge,
    command,
    compact,
    count_failed,
    in_folder,
    lines_of,
    network_list,
    program_of,
    run,
    session,
    task,
)

READ = 4
OUTPUT = 5
MEMORY = 6
# the loader of the system gave up before the program began
NOT_BEGUN = 127
# the code of the answer of a command that ran out of memory
OUT_OF_MEMORY = 104
MOST_BYTES = 16_777_216
# how many limits of memory are tried below the least that is enough
LIMITS = 41
# the most memory that is tried, and what is left out above the least in which the program begins, in pages
MOST_PAGES = 1 << 16
MARGIN = 4
PODS = 400
ADDS = 4
PORTS = 500
GUARDS = 40
SETS = 100
# the user `nobody`, to whom permissions apply where the script runs as root
NOBODY = 65_534


def publishing(number):
    """An ADD that publishes many ports."""
    ports = range(1 + number * PORTS, 1 + (number + 1) * PORTS)
    mappings = [{"hostPort": port, "containerPort": port} for port in ports]
    return {**command("ADD", "pods", f"c{number}", f"/ns/{number}"), "portMappings": mappings}


FILES = {
    "net.json": network_list("pods", bridge(subnet="10.0.0.0/8")),
    "pods.json": {
        "opening": {"namespaces": [f"/ns/{i}" for i in range(PODS)]},
        "rounds": [[command("ADD", "pods", f"c{i}", f"/ns/{i}") for i in range(PODS)]],
    },
    "ports.json": network_list(
        "pods", bridge(subnet="10.0.0.0/8"), {"type": "portmap", "capabilities": {"portMappings": True}}
    ),
    "published.json": {
        "opening": {"namespaces": [f"/ns/{i}" for i in range(ADDS)]},
        "rounds": [[publishing(i)] for i in range(ADDS)],
    },
    "session.json": session(
        *[task("ADD", "dummy", f"c{i}", f"/ns/{i}") for i in range(PODS)],
        opening={"namespaces": [f"/ns/{i}" for i in range(PODS)]},
        ipam={"type": "host-local", "subnet": "10.0.0.0/8"},
    ),
    "leases.json": session(
        *[task("ADD", "guard", f"c{i}", "/ns/0", {"from": "192.0.2.7"}) for i in range(GUARDS)],
        opening={"namespaces": ["/ns/0"]},
        ipam={"type": "host-local", "ranges": [[{"subnet": f"10.{i}.0.0/16"}] for i in range(SETS)]},
    ),
    "packets.json": [{"protocol": "tcp", "src": f"10.0.0.{i}", "dst": "192.0.2.7", "dport": 443} for i in range(250)],
    "folder": DIRECTORY,
}
WORDS = ["--dump", "--requests", "--probe", "packets.json", "pods.json", "net.json"]
# what answers little: long answers or a dump take more memory than the commands do, so that none would be refused any
SHORT_WORDS = ["published.json", "ports.json"]
# a session, and one that answers little
SESSION_WORDS = ["--trace", "--dump", "reg:session.json"]
SHORT_SESSION_WORDS = ["reg:leases.json"]


def limited(program, words, folder, size):
    """A run with so many bytes of data."""

    def limit():
        resource.setrlimit(resource.RLIMIT_DATA, (size, size))

    return subprocess.run(
        [program, *words],
        cwd=folder,
        stdout=subprocess.PIPE,
        stderr=subprocess.DEVNULL,
        preexec_fn=limit,
        check=False,
        timeout=MOST_SECONDS,
    )


def has_begun(ended):
    return 0 <= ended.returncode < NOT_BEGUN


def first_that(passes, low, high):
    """The least number that passes, where those from some number on do; `high` does."""
    while low < high:
        middle = (low + high) // 2
        low, high = (low, middle) if passes(middle) else (middle + 1, high)
    return low


def steps_between(low, high):
    return [low + (high - low) * step // LIMITS for step in range(LIMITS + 1)]


def error_code(line):
    return json.loads(line).get("error", {}).get("code")


def wrong_of_memory(ended, text, commands):
    """What is wrong with how a run of so many commands ended that has little memory."""
    if ended.returncode == SUCCESS and ended.stdout == text:
        return None
    if ended.returncode == MEMORY and ended.stdout == b"":
        return None
    if ended.returncode == COMMAND_MEMORY:
        answers = [it for it in lines_of(ended.stdout) if "verb" in json.loads(it)]
        if len(answers) == commands and any(error_code(it) == OUT_OF_MEMORY for it in answers):
            return None
    return f"status {ended.returncode}, {len(ended.stdout)} bytes"


def in_little_memory(program, words, commands, folder, wanted):
    """Complaints about runs of so many commands in little memory; how often each status came, of which these must."""
    page = resource.getpagesize()
    text = run(program, words, folder).stdout

    def first_limit(passes, low, high):
        return first_that(lambda it: passes(limited(program, words, folder, it * page)), low, high)

    enough = first_limit(lambda it: it.returncode == SUCCESS, 1, MOST_PAGES)
    none = first_limit(has_begun, 1, enough) + MARGIN
    seen = {}
    for size in steps_between(none, enough):
        ended = limited(program, words, folder, size * page)
        seen[ended.returncode] = seen.get(ended.returncode, 0) + 1
        wrong = wrong_of_memory(ended, text, commands)
        if wrong:
            yield f"{size * page} bytes: {wrong}"
    print(f"memory, {words[-1]}: " + ", ".join(f"status {it} {count} times" for it, count in sorted(seen.items())))
    if not wanted <= seen.keys():
        yield f"not seen: {sorted(wanted - seen.keys())}"


def memory(program, folder):
    yield from in_little_memory(program, SHORT_WORDS, ADDS, folder, {MEMORY, COMMAND_MEMORY})
    yield from in_little_memory(program, SHORT_SESSION_WORDS, GUARDS, folder, {MEMORY, COMMAND_MEMORY})


def memory_of_text(program, folder):
    yield from in_little_memory(program, WORDS, PODS, folder, {MEMORY})
    yield from in_little_memory(program, SESSION_WORDS, PODS, folder, {MEMORY})


def output_to(program, words, folder, stdout, read):
    """The status, and what the reader took, of a run that writes there."""
    child = subprocess.Popen([program, *words], cwd=folder, stdout=stdout)
    taken = read(child)
    return child.wait(timeout=MOST_SECONDS), taken


def read_half(child, size):
    taken = child.stdout.read(size)
    child.stdout.close()
    return taken


def output_of(program, words, folder):
    """How each run ended that can't write, by its status and what was taken, and the text that is to be written."""
    text = run(program, words, folder).stdout

    def to(stdout, size):
        return output_to(program, words, folder, stdout, lambda it: read_half(it, size))

    with open("/dev/full", "wb") as full:
        ended = {"a full device": output_to(program, words, folder, full, lambda _: b"")}
    ended["a pipe that nobody reads"] = to(subprocess.PIPE, 0)
    ended["a reader that stops halfway"] = to(subprocess.PIPE, len(text) // 2)
    closed = subprocess.run(["sh", "-c", '"$0" "$@" >&-', program, *words], cwd=folder, check=False)
    return {**ended, "no output": (closed.returncode, b"")}, text


def output(program, folder):
    for words in (WORDS, SESSION_WORDS):
        ended, text = output_of(program, words, folder)
        for name, (status, taken) in ended.items():
            if status != OUTPUT or not text.startswith(taken):
                yield f"{words[-1]}, {name}: status {status}"


def as_nobody():
    if os.geteuid() == 0:
        os.setuid(NOBODY)


def without_permission(program, words, file, folder):
    """A run in which the file may not be read, by a user to whom that applies."""
    folder.chmod(0o755)
    shutil.copy(program, folder / "program")
    (folder / file).chmod(0)
    words = ["./program", *words]
    ended = subprocess.run(words, cwd=folder, stdout=subprocess.PIPE, preexec_fn=as_nobody, check=False)
    (folder / file).chmod(0o644)
    return ended


def read_error(file):
    return (compact({"error": "read", "file": file}) + "\n").encode()


def padded(file, size):
    """The file's content, and spaces up to so many bytes."""
    content = compact(FILES[file]).encode()
    return content + b" " * (size - len(content))


def files(program, folder):
    for file in ("net", "session"):
        (folder / f"most-{file}.json").write_bytes(padded(f"{file}.json", MOST_BYTES))
    (folder / "more.json").write_bytes(padded("net.json", MOST_BYTES + 1))
    text, of_session = (run(program, it, folder).stdout for it in (WORDS, SESSION_WORDS))
    missing = (compact({"error": "missing", "file": "absent.json"}) + "\n").encode()
    large = (compact({"error": "too large", "file": "more.json"}) + "\n").encode()
    unread = READ, read_error("folder")

    def of(*words):
        return run(program, words, folder)

    def refused(words, file):
        return without_permission(program, words, file, folder), READ, read_error(file)

    wanted = {
        "a folder": (of("pods.json", "folder"), *unread),
        "a missing file": (of("pods.json", "absent.json"), REFUSED, missing),
        "the most bytes": (of(*WORDS[:-1], "most-net.json"), SUCCESS, text),
        "a byte more": (of("pods.json", "more.json"), REFUSED, large),
        "no permission": refused(WORDS, "net.json"),
        "packets in a folder": (of("--probe", "folder", *WORDS[-2:]), *unread),
        "missing packets": (of("--probe", "absent.json", *WORDS[-2:]), REFUSED, missing),
        "a byte of packets more": (of("--probe", "more.json", *WORDS[-2:]), REFUSED, large),
        "a session in a folder": (of("reg:folder"), *unread),
        "a missing session": (of("reg:absent.json"), REFUSED, missing),
        "a session of the most bytes": (of(*SESSION_WORDS[:-1], "reg:most-session.json"), SUCCESS, of_session),
        "a byte of a session more": (of("reg:more.json"), REFUSED, large),
        "no permission for a session": refused(SESSION_WORDS, "session.json"),
    }
    for name, (ended, status, printed) in wanted.items():
        if (ended.returncode, ended.stdout) != (status, printed):
            yield f"{name}: status {ended.returncode}, {ended.stdout[:200]}"


TRIED = {"memory": memory, "memory of the text": memory_of_text, "output": output, "files": files}


def main():
    program = program_of(sys.argv[1:])
    with in_folder(FILES) as folder:
        failed = count_failed((name, list(tried(program, folder))) for name, tried in TRIED.items())
    print(f"refusals: {failed} wrong")
    sys.exit(failed > 0)


if __name__ == "__main__":
    main()
