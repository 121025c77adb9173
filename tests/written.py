"""Files that a script of tests/ writes from others: written, or with `--check` compared with what it would write."""

import pathlib
import sys

from program import TOP


def is_other(path, text):
    """Whether the file isn't there, or holds something else."""
    return not path.exists() or path.read_text(encoding="utf-8") != text


def settle(texts):
    """The status of the script that writes these texts, each by the path of its file."""
    if "--check" not in sys.argv[1:]:
        for path, text in texts.items():
            path.write_text(text, encoding="utf-8")
        return 0
    others = [path for path, text in texts.items() if is_other(path, text)]
    names = "".join(f", {path.relative_to(TOP)}" for path in others)
    print(f"{pathlib.Path(sys.argv[0]).name}: {len(others)} of {len(texts)} files aren't what it writes{names}")
    return 1 if others else 0
