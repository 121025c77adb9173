"""The differences that have a name, in differences.json. An entry has

    id        its name
    what      what differs, as `answer`, `result.dns`, `link.mtu`, `rule`: the first word of it
    about     the rest of it
    verb      the command; a plugin's result is of `ADD PLUGIN`
    model, real   the values, as text
    plugins   the version of the plugins; scenario: the name of the recording
    row       where docs/COMPATIBILITY.md tells it, as `SECTION: SUBJECT`
    right     who is right by the CNI specification and the kernel: model, real or either
    why       in a sentence
    chance    true where it doesn't come each time

A text is compared whole, or, between slashes, searched for. What an entry doesn't name may be anything.
"""

import json
import pathlib
import re

PATH = pathlib.Path(__file__).resolve().parent / "differences.json"
PAGE = PATH.parent.parent.parent / "docs/COMPATIBILITY.md"


def read_differences():
    return json.loads(PATH.read_text(encoding="utf-8"))


def untold(table):
    """The entries whose row docs/COMPATIBILITY.md lacks."""
    sections = dict(it.partition("\n")[::2] for it in PAGE.read_text(encoding="utf-8").split("\n## ")[1:])
    for it in table:
        section, _, subject = it["row"].partition(": ")
        if f"\n| {subject} |" not in sections.get(section, ""):
            yield f"{it['id']}: no row {it['row']}"


def fits(wanted, text):
    if wanted is None:
        return True
    if len(wanted) > 1 and wanted[0] == wanted[-1] == "/":
        return re.search(wanted[1:-1], text) is not None
    return wanted == text


def text_of(value):
    return value if isinstance(value, str) else json.dumps(value, sort_keys=True)


def known(found, table, scenario, plugins):
    """The name of a difference; none where it has none."""
    what, _, about = found.what.partition(" ")
    texts = {
        "what": what,
        "about": about,
        "verb": found.verb,
        "model": text_of(found.model),
        "real": text_of(found.real),
        "plugins": plugins,
        "scenario": scenario,
    }
    return next((it["id"] for it in table if all(fits(it.get(key), text) for key, text in texts.items())), None)
