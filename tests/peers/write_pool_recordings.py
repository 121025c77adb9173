#!/usr/bin/env python3
"""Writes the recordings that pool_trials replays, from what the host-local plugin did.

    write_pool_recordings.py          writes rows.rt into crates/pool_trials/src
    write_pool_recordings.py --check  fails where it isn't what would be written

Of hostlocal.json it takes the rows of the plugin's own tests; its recorded sequences of ADD and DEL are run by run.py.
Sets of IPv6 addresses and rows whose last address is no candidate are left out, and named in the file that is written.
The layout is that of `rt fmt`.
"""

import ipaddress
import pathlib
import sys

sys.dont_write_bytecode = True
sys.path.insert(0, str(pathlib.Path(__file__).resolve().parent.parent))

from program import TOP
from recorded import is_ipv6, recordings
from written import settle

TARGET = TOP / "crates/pool_trials/src"
# the most characters of a slice that stands on one line
MOST_ON_A_LINE = 58


def bits_of(address):
    return int(ipaddress.ip_address(address))


def bounds(given):
    """The start, end and gateway of a range, by the plugin's defaults for IPv4."""
    subnet = ipaddress.ip_network(given["subnet"])
    start = given.get("rangeStart", subnet[1])
    end = given.get("rangeEnd", subnet[-2])
    gateway = given.get("gateway", subnet[1])
    return [bits_of(address) for address in (start, end, gateway)]


def listed(texts):
    """A slice as `rt fmt` lays it out: on a line of its own where it is long."""
    inner = ", ".join(texts)
    if len(inner) <= MOST_ON_A_LINE:
        return f"&[{inner}]"
    return "&[\n" + "".join(f"            {it},\n" for it in texts) + "        ]"


def number(bits):
    return f"{bits:#010x}"


def triple(numbers):
    return f"({', '.join(map(number, numbers))})"


class Recording:
    """One set, what of it is taken, and what is leased then."""

    def __init__(self, row):
        self.name = row["name"]
        self.ranges = [bounds(given) for given in row["set"]]
        self.last = None if row["last"] is None else bits_of(row["last"])
        self.taken = [bits_of(address) for address in row.get("taken", [])]
        picked = row["order"] if "order" in row else [row["given"]] if row["given"] else []
        self.given = [bits_of(address) for address in picked]
        self.is_full = "order" in row or not picked

    def has_last(self):
        """Whether the last address, if there is one, is a candidate."""
        return self.last is None or any(
            start <= self.last <= end and self.last != gateway for start, end, gateway in self.ranges
        )

    def text(self):
        fields = (
            f'name: "{self.name}"',
            f"ranges: {listed([*map(triple, self.ranges)])}",
            f"last: {'None' if self.last is None else f'Some({number(self.last)})'}",
            f"taken: {listed([*map(number, self.taken)])}",
            f"given: {listed([*map(number, self.given)])}",
            f"is_full: {str(self.is_full).lower()}",
        )
        return "\n".join(["    Recording {", *(f"        {it}," for it in fields), "    },"])


def recorded(row):
    """The recording of a row: a pick after others are taken, or picks in order until none is left; or a text that says
    why there is none."""
    if is_ipv6(row["set"]):
        return "IPv6"
    recording = Recording(row)
    return recording if recording.has_last() else "its last address is no candidate"


def text_of(made):
    left_out = [f"//! {name} ({reason});" for name, reason in made if isinstance(reason, str)]
    recordings = [recording.text() for _, recording in made if isinstance(recording, Recording)]
    lines = [
        "//! Written by tests/peers/write_pool_recordings.py: the rows of the `host-local` plugin's own tests of its "
        "allocator.",
        "//!",
        "//! Left out:",
        *left_out,
        "",
        "use crate::replay::Recording;",
        "",
        f"pub(crate) const ROWS: [Recording; {len(recordings)}] = [",
        *recordings,
        "];",
    ]
    return "\n".join(lines) + "\n"


def main():
    data = recordings()
    rows = [(row["name"], recorded(row)) for row in [*data["next_address"], *data["order"]]]
    return settle({TARGET / "rows.rt": text_of(rows)})


if __name__ == "__main__":
    sys.exit(main())
