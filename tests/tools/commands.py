#!/usr/bin/env python3
"""Runs `./cnitool` and `./try` in a folder of their own with a script in place of `rt`, and looks what they call and
print, and how they end.

The script notes its words, and a file `refuse` makes it fail. The program that it builds prints its words and ends with
3, or with 0 on the example of crates/cnitool.
"""

import contextlib
import os
import pathlib
import re
import shutil
import subprocess
import sys
import tempfile

sys.dont_write_bytecode = True
sys.path.insert(0, str(pathlib.Path(__file__).resolve().parent.parent))

from program import TOP, count_failed

PROGRAM = """#!/bin/sh
echo "ran $*"
[ "$*" = "data/pods.json data/net.json" ] || exit 3
"""
RT = """#!/bin/sh
top=$(dirname "$0")/..
echo "$*" >>"$top/calls"
if [ -e "$top/refuse" ]; then echo "main: not proved" >&2; exit 1; fi
case $1 in
    run) mkdir -p out && cp "$top/program" out/cnitool && shift 2 && out/cnitool "$@" ;;
    try) echo "tried $*"; echo "run=ended status=3 proved=no" >&2; exit 3 ;;
esac
"""
NOT_RUN = 70
# what the program prints for wrong words
USAGE = '{"error":"usage"}\n'
LOG = "out/build.log"


@contextlib.contextmanager
def a_checkout():
    """A folder with the commands, a source, and a stand-in for `rt`."""
    with tempfile.TemporaryDirectory() as name:
        top = pathlib.Path(name)
        for folder in ("tests", "tools", "bin", "crates/cnitool/src"):
            (top / folder).mkdir(parents=True)
        for file in ("cnitool", "try", "tools/usage.sh", "tools/usage.txt", "tests/built.txt"):
            shutil.copy(TOP / file, top / file)
        for file, text in (("program", PROGRAM), ("bin/rt", RT)):
            (top / file).write_text(text, encoding="utf-8")
            (top / file).chmod(0o755)
        for file in ("crates.txt", "crates/cnitool/src/main.rt", "calls", "pods.json"):
            (top / file).touch()
        yield top


def run(top, command, *words):
    """What a command wrote and ended with, and how `rt` was called."""
    (top / "calls").write_text("", encoding="utf-8")
    how = {"cwd": top, "env": {**os.environ, "PATH": f"{top}/bin:{os.environ['PATH']}"}}
    ended = subprocess.run([command, *words], **how, capture_output=True, encoding="utf-8", check=False)
    return ended, (top / "calls").read_text(encoding="utf-8").splitlines()


def renew(top, file):
    """Makes a file, or makes it newer than the program."""
    path = top / "crates/cnitool" / file
    path.touch()
    later = (top / "crates/cnitool/out/cnitool").stat().st_mtime + 10
    os.utime(path, (later, later))


def builds():
    """Where the program is built, and where it isn't."""
    with a_checkout() as top:
        ended, calls = run(top, "./cnitool", "a", "b c")
        if (ended.stdout, ended.returncode) != ("ran a b c\n", 3) or LOG not in ended.stderr:
            yield f"the first run: {ended}"
        if calls != ["run -- data/pods.json data/net.json"]:
            yield f"the first run calls {calls}"
        for file, due in ((".main.rt.swp", 0), ("main.rt~", 0), (".#main.rt", 0), ("main.rt", 1), ("main.rt", 1)):
            renew(top, f"src/{file}")
            ended, calls = run(top, "./cnitool", "a")
            if len(calls) != due or ended.returncode != 3:
                yield f"after a change of {file} {len(calls)} builds: {ended}"


def refusals():
    with a_checkout() as top:
        run(top, "./cnitool", "a")
        (top / "refuse").touch()
        renew(top, "src/main.rt")
        for _ in range(2):
            ended, calls = run(top, "./cnitool", "a")
            if (ended.stdout, ended.returncode, len(calls)) != ("", NOT_RUN, 1):
                yield f"a build that fails: {ended}"
            if LOG not in ended.stderr or "not proved" not in ended.stderr:
                yield f"a build that fails says {ended.stderr}"
        ended, _ = run(top, "./try", "a")
        if (ended.stdout, ended.returncode) != ("", NOT_RUN) or "not proved" not in ended.stderr:
            yield f"a try that fails: {ended}"


def words():
    with a_checkout() as top:
        run(top, "./cnitool", "a")
        (top / "bin/link").symlink_to(top / "cnitool")
        ended, calls = run(top, "bin/link", "a")
        if (ended.stdout, ended.returncode, calls) != ("ran a\n", 3, []):
            yield f"by a link: {ended}"


def answers():
    """What is answered with nothing built."""
    usage = (TOP / "tools/usage.txt").read_text(encoding="utf-8")
    with a_checkout() as top:
        for command in "./cnitool", "./try":
            told = usage.replace("COMMAND", command)
            due = {(): (USAGE, told, 2), ("-h",): (told, "", 0), ("--help", "a"): (told, "", 0)}
            for given, (stdout, stderr, status) in due.items():
                ended, calls = run(top, command, *given)
                if (ended.stdout, ended.stderr, ended.returncode, calls) != (stdout, stderr, status, []):
                    yield f"{command} with {given}: {ended}"
            ended, calls = run(top, command, "--version")
            if not ended.stdout.startswith("dalecanvas ") or ended.returncode != 0 or calls != ["version"]:
                yield f"{command} --version: {ended}"
    readme = (TOP / "README.md").read_text(encoding="utf-8")
    options = re.findall(r"^\| `(--[a-z-]+(?: [A-Z]+)?)`", readme, re.MULTILINE)
    if [it for it in options if f"\n  {it} " not in usage]:
        yield f"the usage lacks one of {options}"


def tries():
    with a_checkout() as top:
        above = f"{top.name}/pods.json"
        ended, calls = run(top, "./try", "--probe=pods.json", "pods.json", f"../{above}", "none.json")
        whole = os.path.realpath(top / "pods.json")
        if calls != [f"try --data pods.json={top}/pods.json -- --probe={whole} pods.json {whole} none.json"]:
            yield f"try calls {calls}"
        if ended.returncode != 3 or not ended.stdout.startswith("tried") or "nothing is proved" not in ended.stderr:
            yield f"a try: {ended}"


def main():
    failed = count_failed((it.__name__, list(it())) for it in (builds, refusals, words, answers, tries))
    print(f"commands: {failed} wrong")
    return 1 if failed else 0


if __name__ == "__main__":
    sys.exit(main())
