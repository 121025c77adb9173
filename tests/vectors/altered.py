#!/usr/bin/env python3
"""Whether write.py finds out programs that answer or leave something else than vectors/ has.

    altered.py [PROGRAM]

Stands programs in for PROGRAM that run it and alter a line of what it prints, and compares what would be written of
their ADDs with the file of a list.
"""

import pathlib
import sys
import tempfile

sys.dont_write_bytecode = True
sys.path.insert(0, str(pathlib.Path(__file__).resolve().parent.parent))

from program import compact, count_failed, program_of
from write import VECTORS, Recording, case_text, sources

LIST = "macvlan"
# what is altered in the first line that has it, where a line has it
ALTERED = {
    "nothing": ("", ""),
    "an answer": ('"stopped":3', '"stopped":2'),
    "an error's details": ('"details":"call 4"', '"details":"call 5"'),
    "a link that is left": ('"link":"macvlan","mac":"0a', '"link":"macvlan","mac":"0b'),
    "a call": ('"call":"MacvlanAdd"', '"call":"VethAdd"'),
}
STAND_IN = """#!{python}
import subprocess, sys
done = subprocess.run([{program!r}, *sys.argv[1:]], stdout=subprocess.PIPE, check=False)
lines = done.stdout.decode("utf-8").splitlines(keepends=True)
place = next((k for k, line in enumerate(lines) if {old!r} in line), None)
if place is not None:
    lines[place] = lines[place].replace({old!r}, {new!r})
sys.stdout.write("".join(lines))
sys.exit(done.returncode)
"""


def is_in_file(recording):
    """Whether the file of the list has what is written of the first case, with its objects."""
    file = (VECTORS / f"{LIST}.json").read_text(encoding="utf-8")
    case = case_text(recording, *next(recording.source.cases()))
    return all(it in file for it in [case, *map(compact, recording.objects)])


def wrong_of(program, folder, old, new):
    """What is wrong with how the stand-in compares."""
    path = folder / "program"
    path.write_text(STAND_IN.format(python=sys.executable, program=program, old=old, new=new), encoding="utf-8")
    path.chmod(0o755)
    recording = Recording(str(path), *sources([LIST]))
    if is_in_file(recording) != (old == new):
        return ["isn't found out" if old != new else "isn't what the file has"]
    return [] if bool(recording.unlawful) == (old != new) else ["the judge says otherwise"]


def main():
    program = program_of(sys.argv[1:])
    with tempfile.TemporaryDirectory() as folder:
        each = ((name, wrong_of(program, pathlib.Path(folder), *how)) for name, how in ALTERED.items())
        failed = count_failed(each)
    print(f"altered vectors: {len(ALTERED) - failed} passed, {failed} failed")
    return 1 if failed else 0


if __name__ == "__main__":
    sys.exit(main())
