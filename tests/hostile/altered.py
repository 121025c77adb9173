#!/usr/bin/env python3
"""Whether mutations.py and growths.py find out what is wrong.

    altered.py

Of mutations.py with programs that stand in and end in a wrong way, of growths.py with ends of a run that would be wrong
where memory was refused.
"""

import pathlib
import subprocess
import sys
import tempfile

sys.dont_write_bytecode = True
sys.path.insert(0, str(pathlib.Path(__file__).resolve().parent.parent))

import growths
import mutations
from program import COMMAND_MEMORY, FAILURE, SUCCESS, compact, count_failed

# what a program does that stands in, and whether that is wrong
STAND_INS = {
    "a line": ('echo "{}"', False),
    "a refusal": ('echo "{}"; exit 3', False),
    "a crash": ("kill -SEGV $$", True),
    "another status": ("exit 7", True),
    "a line that isn't JSON": ("echo here", True),
    "a line that is no object": ("echo 1", True),
    "another line each time": ('echo "{\\"a\\":$$}"', True),
    "another status each time": ('[ -e again ] && exit 1; >again', True),
}
WHOLE = b'{"n":1,"ok":true,"verb":"DEL"}\n'
OWNED = {"address": "10.0.0.2", "kind": "lease", "network": "pods", "tag": "pods/c/eth0"}
END = {"kind": "link", "link": "veth", "ns": "", "name": "veth0", "peer": {"ns": "/ns/a", "name": "eth0"}, "tag": "base"}


def out_of_memory(*objects):
    answer = {"error": {"code": growths.OUT_OF_MEMORY}, "n": 1, "verb": "DEL"}
    return COMMAND_MEMORY, "".join(compact(it) + "\n" for it in (answer, *objects)).encode("utf-8")


# how a run ends that is refused memory, and whether that is wrong
ENDS = {
    "the whole text": ((SUCCESS, WHOLE), False),
    "nothing": ((growths.MEMORY, b""), False),
    "an answer that is out of memory": (out_of_memory(), False),
    "the beginning of the text": ((SUCCESS, WHOLE[:9]), True),
    "another text": ((FAILURE, WHOLE + WHOLE), True),
    "a text without memory": ((growths.MEMORY, WHOLE), True),
    "no answer that is out of memory": ((COMMAND_MEMORY, WHOLE), True),
    "a crash": ((-11, b""), True),
    "an object twice": (out_of_memory(*[{**OWNED, "tag": "base"}] * 2), True),
    "an end without its peer": (out_of_memory(END), True),
    "something owned": (out_of_memory(OWNED), True),
}


def of_mutations():
    with tempfile.TemporaryDirectory() as folder:
        path = pathlib.Path(folder) / "program"
        for name, (script, is_wrong) in STAND_INS.items():
            path.write_text(f"#!/bin/sh\n{script}\n", encoding="utf-8")
            path.chmod(0o755)
            yield name, bool(mutations.wrong_of(str(path), [], {})) == is_wrong


def of_growths():
    for name, ((status, text), is_wrong) in ENDS.items():
        ended = subprocess.CompletedProcess([], status, stdout=text)
        yield name, bool(growths.wrong_of(ended, WHOLE, True)) == is_wrong


def main():
    found = [*of_mutations(), *of_growths()]
    failed = count_failed((name, [] if right else ["is judged wrongly"]) for name, right in found)
    print(f"altered ends: {len(found) - failed} passed, {failed} failed")
    return 1 if failed else 0


if __name__ == "__main__":
    sys.exit(main())
