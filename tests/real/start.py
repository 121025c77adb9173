"""How the scripts of tests/real start: where modules are found, the plugins and the program that they run, and what the
words of those that keep findings mean. It is imported before the modules of tests/."""

import os
import pathlib
import sys

HERE = pathlib.Path(__file__).resolve().parent
sys.path += [str(HERE.parent), str(HERE.parent / "legal")]

import private
from program import program_of

PLUGINS = os.environ.get("CNI_PATH", "/usr/lib/cni")


def given_program():
    """The program that PROGRAM names, or the one that ./test built."""
    return program_of([os.environ["PROGRAM"]] if "PROGRAM" in os.environ else [])


def begin():
    """Goes where nothing is shared, or ends and says why it can't."""
    missing = [*private.missing(PLUGINS)] if os.environ.get(private.INSIDE) is None else []
    if missing:
        sys.exit("\n".join(f"{pathlib.Path(sys.argv[0]).name}: {it}" for it in missing))
    private.enter()


def of_words(make, tell, usage):
    """The status of a script that makes findings anew, of plugins of the version that is named, or with --kept tells
    the kept ones of a program."""
    words = sys.argv[1:]
    if words[:1] == ["--kept"]:
        return tell(program_of(words[1:]))
    if len(words) != 1:
        sys.exit(usage)
    begin()
    return make(words[0])
