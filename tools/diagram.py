#!/usr/bin/env python3
"""Draws a dump as an SVG picture.

    ./cnitool --dump PODS LIST .. | tools/diagram.py [--only ATTACHMENT ..] >PICTURE.svg

Each namespace is a box, the host's the lowest. A line joins the two ends of a veth pair, a port and its bridge, or a
macvlan link and its master; an arrow is a published port, one a family; a rule is written as for iptables. What an
attachment owns has its colour, and is dashed where the attachment has no cached result; what all share is black. There
are six colours, which begin anew with the seventh attachment. Hardware addresses, queue lengths and the last leased
addresses aren't drawn. With --only the picture has these attachments, each as NETWORK/CONTAINER/IFNAME, with their
namespaces, and what all share.
"""

import dataclasses
import itertools
import json
import sys
from xml.sax.saxutils import escape

sys.dont_write_bytecode = True

from rules import command_of, is_ipv6

COLOURS = ("#0067a5", "#c4500c", "#00805a", "#9c3d8f", "#8a6500", "#3f51b5")
PLAIN = "#333333"
FAINT = "#777777"
GROUND = "#f4f6f8"
LINE_HEIGHT = 17
PAD = 10
# what is free between boxes, above the host, and between a port and its bridge
GAP = 16
ABOVE_HOST = 40
BELOW_PORTS = 28
HEAD_HEIGHT = 28
USUAL_MTU = 1500
TITLE = "The objects of a host that runs containers"
SVG = (
    '<svg xmlns="http://www.w3.org/2000/svg" width="{0}" height="{1}" viewBox="0 0 {0} {1}" '
    'font-family="DejaVu Sans Mono, Menlo, Consolas, monospace" font-size="12">'
)


def width_of(text):
    """The width of a text, whose letters are all equally wide."""
    return (len(text) * 29 + 3) // 4


@dataclasses.dataclass
class Box:
    """A frame with lines of text, of which the first is a name and a word on what it is."""

    owner: str
    lines: list
    x: int = 0
    y: int = 0
    width: int = 0
    height: int = 0

    def __post_init__(self):
        self.width = max(map(width_of, self.lines)) + 2 * PAD
        self.height = len(self.lines) * LINE_HEIGHT + 2 * PAD - 4

    @property
    def right(self):
        return self.x + self.width

    @property
    def bottom(self):
        return self.y + self.height

    def meets(self, other):
        return self.x < other.right and other.x < self.right and self.y < other.bottom and other.y < self.bottom


@dataclasses.dataclass
class Column:
    """A link in a namespace, the host's end of it where it has one, and the host's link that it leads to."""

    inner: Box
    outer: Box
    master: str
    x: int = 0

    def boxes(self):
        return [it for it in (self.inner, self.outer) if it]

    @property
    def width(self):
        return max(it.width for it in self.boxes())

    @property
    def middle(self):
        return self.x + self.width // 2

    def move_to(self, x):
        self.x = x
        for box in self.boxes():
            box.x = self.middle - box.width // 2


def narrowed(objects, owners):
    """What these attachments own, and what no attachment owns in their namespaces and in the host's."""
    namespaces = {"", *(it["ns"] for it in objects if it.get("tag") in owners and "ns" in it)}

    def is_kept(it):
        place = it["name"] if it["kind"] == "namespace" else it.get("ns", "")
        return it["tag"] in owners if "/" in it.get("tag", "") else place in namespaces

    return [it for it in objects if is_kept(it)]


class Dump:
    """The objects of a dump, by kind; of some attachments alone where any are named."""

    def __init__(self, lines, only=()):
        objects = [value for value in map(json.loads, lines) if "kind" in value]
        objects = narrowed(objects, only) if only else objects
        self.by_kind = {}
        for value in objects:
            self.by_kind.setdefault(value["kind"], []).append(value)
        self.owners = list(dict.fromkeys(it["tag"] for it in objects if "/" in it.get("tag", "")))
        self.left_over = {*self.owners} - {it["tag"] for it in self.of("cached")}

    def of(self, kind, **wanted):
        """The objects of a kind that have these values."""
        return [it for it in self.by_kind.get(kind, []) if all(it.get(key) == wanted[key] for key in wanted)]

    def box_of(self, link):
        """A link with its addresses, its routes, and what is unusual about it."""
        here = {"ns": link["ns"], "link": link["name"]}
        lines = [f"{link['name']} {link['link']}", *(it["address"] for it in self.of("address", **here))]
        for route in self.of("route", **here):
            to = "default" if route["dst"] in ("0.0.0.0/0", "::/0") else route["dst"]
            lines.append(f"route {to}" + (f" via {route['gw']}" if "gw" in route else ""))
        unusual = [it for it in ("hairpin", "promisc", "allmulti") if link[it]]
        unusual += [f"mtu {link['mtu']}"] * (link["mtu"] != USUAL_MTU)
        return Box(link["tag"], lines + [", ".join(unusual)] * bool(unusual))

    def column_of(self, link):
        if "peer" not in link:
            return Column(self.box_of(link), None, link.get("master"))
        end = self.of("link", **link["peer"])[0]
        return Column(self.box_of(link), self.box_of(end), end.get("master"))

    def settings_of(self, place):
        """The settings of a namespace, each with its owner."""
        return [(f"{it['key']} = {it['value']}", it["tag"]) for it in self.of("setting", ns=place)]


def port_of(rule):
    """The host's port that a rule publishes, with its address where that is restricted; none of another rule."""
    if not rule["target"].startswith("DNAT"):
        return ""
    port = f"{rule['dport']}/{rule['protocol']}"
    if "dst" not in rule:
        return f"{port} (IPv6)" if is_ipv6(rule) else port
    address = rule["dst"].split("/")[0]
    return f"[{address}]:{port}" if ":" in address else f"{address}:{port}"


def rows_of(dump):
    """What the host's box tells in words: an owner, the port that is published, and the cells, a row each."""
    for it in dump.of("rule"):
        yield it["tag"], port_of(it), command_of(it)
    for it in dump.of("lease"):
        yield it["tag"], "", [f"lease of {it['network']}", it["address"]]
    for said, owner in dump.settings_of(""):
        yield owner, "", ["setting", said]


def place_namespaces(dump, left):
    """The boxes of the namespaces side by side, each with its columns below its settings."""
    names = [it["name"] for it in dump.of("namespace")]
    top = GAP + HEAD_HEIGHT + LINE_HEIGHT * max((len(dump.settings_of(it)) for it in names), default=0)
    placed = []
    for name in names:
        # behind a setting is a dot of its owner's colour
        box = Box("", [name, *(f"{said}   " for said, _ in dump.settings_of(name))], left, GAP)
        columns = [dump.column_of(it) for it in dump.of("link", ns=name)]
        x = left + PAD
        for column in columns:
            column.move_to(x)
            column.inner.y = top
            x += column.width + GAP
        box.width = max(box.width, x - GAP + PAD - left)
        placed.append((box, columns))
        left = box.right + GAP
    for box, _ in placed:
        box.height = max([top, *(it.inner.bottom for _, columns in placed for it in columns)]) + PAD - GAP
    return placed


def place_shared(dump, columns, left, y):
    """The host's bridges and devices, by name, each below its ports and as wide; below one another where they meet."""
    placed = {}
    for link in (it for it in dump.of("link", ns="") if "peer" not in it):
        box = dump.box_of(link)
        ports = [it for it in columns if it.master == link["name"]]
        box.x, box.y = min((it.x for it in ports), default=left), y
        box.width = max([box.width, *(it.x + it.width - box.x for it in ports)])
        for other in sorted(placed.values(), key=lambda it: it.bottom):
            if box.meets(other):
                box.y = other.bottom + GAP
        placed[link["name"]] = box
    return placed


class Picture:
    """What is drawn, in order."""

    def __init__(self, dump):
        self.dump = dump
        self.drawn = []

    def colour(self, owner):
        owners = self.dump.owners
        return COLOURS[owners.index(owner) % len(COLOURS)] if owner in owners else PLAIN

    def stroke(self, owner):
        dashes = ' stroke-dasharray="5 3"' if owner in self.dump.left_over else ""
        return f'stroke="{self.colour(owner)}" stroke-width="2"{dashes}'

    def frame(self, box, fill, stroke):
        place = f'x="{box.x}" y="{box.y}" width="{box.width}" height="{box.height}"'
        self.drawn.append(f'<rect {place} rx="5" fill="{fill}" {stroke}/>')

    def text(self, x, y, text, fill=PLAIN, weight="normal"):
        self.drawn.append(f'<text x="{x}" y="{y}" fill="{fill}" font-weight="{weight}">{escape(text)}</text>')

    def box(self, box, fill, stroke):
        self.frame(box, fill, stroke)
        name, _, what = box.lines[0].partition(" ")
        x, y = box.x + PAD, box.y + PAD + 10
        self.text(x, y, name, weight="bold")
        if what:
            self.text(x + width_of(name + " "), y, what, FAINT)
        for place, line in enumerate(box.lines[1:], 1):
            self.text(x, y + place * LINE_HEIGHT, line)

    def link(self, box):
        self.box(box, "#ffffff", self.stroke(box.owner))

    def namespace(self, box, settings=()):
        self.box(box, GROUND, f'stroke="{FAINT}"')
        for place, (said, owner) in enumerate(settings, 1):
            self.dot(box.x + PAD + width_of(said + " ") + 4, box.y + PAD + 6 + place * LINE_HEIGHT, owner)

    def line(self, x, y, to, owner):
        self.drawn.append(f'<path d="M{x} {y}V{to}" {self.stroke(owner)}/>')

    def dot(self, x, y, owner):
        fill = "#ffffff" if owner in self.dump.left_over else self.colour(owner)
        self.drawn.append(f'<circle cx="{x}" cy="{y}" r="4" fill="{fill}" stroke="{self.colour(owner)}"/>')

    def arrow(self, x, y, to, owner):
        self.drawn.append(f'<path d="M{x} {y}H{to}m-6 -4l6 4l-6 4" fill="none" {self.stroke(owner)}/>')

    def row(self, place, y, row, widths):
        """A line of the host's box, with an arrow from outside where it publishes a port."""
        owner, port, cells = row
        if port:
            self.text(GAP, y + 4, port)
            self.arrow(GAP + width_of(port) + PAD, y, place, owner)
        self.dot(place + PAD + 4, y, owner)
        x = place + 2 * PAD + 4
        for cell, width in zip(cells, widths):
            self.text(x, y + 4, cell)
            x += width + GAP

    def legend(self, x, y):
        """The attachments, each with its colour; the right end of the longest."""
        right = x
        for owner in self.dump.owners:
            said = owner + " (no cached result)" * (owner in self.dump.left_over)
            self.drawn.append(f'<path d="M{x} {y}h24" {self.stroke(owner)}/>')
            self.text(x + 24 + PAD, y + 4, said, FAINT)
            right = max(right, x + 24 + PAD + width_of(said))
            y += LINE_HEIGHT
        return right

    def svg(self, width, height):
        paper = f'<rect width="{width}" height="{height}" fill="#ffffff"/>'
        title = f"<title>{TITLE}</title>"
        return "\n".join([SVG.format(width, height), title, paper, *self.drawn, "</svg>", ""])


@dataclasses.dataclass
class Scene:
    """Where everything stands."""

    namespaces: list
    columns: list
    shared: dict
    host: Box
    rows: list
    widths: list

    @property
    def rows_top(self):
        return self.host.bottom - PAD - LINE_HEIGHT * len(self.rows)


def scene_of(dump):
    rows = list(rows_of(dump))
    columns_of_rows = itertools.zip_longest(*(cells for _, _, cells in rows), fillvalue="")
    widths = [max(map(width_of, cells)) for cells in columns_of_rows]
    left = GAP + max((width_of(port) + 3 * PAD for _, port, _ in rows if port), default=0)
    namespaces = place_namespaces(dump, left)
    columns = [it for _, found in namespaces for it in found]
    host = Box("", ["host"], left, max((it.bottom for it, _ in namespaces), default=GAP - ABOVE_HOST) + ABOVE_HOST)
    outer = [it.outer for it in columns if it.outer]
    for box in outer:
        box.y = host.y + HEAD_HEIGHT
    ports = max((it.bottom for it in outer), default=host.y + HEAD_HEIGHT - BELOW_PORTS)
    shared = place_shared(dump, columns, left + PAD, ports + BELOW_PORTS)
    bottom = max([host.y + HEAD_HEIGHT, *(it.bottom for it in [*outer, *shared.values()])])
    host.height = bottom + PAD + (LINE_HEIGHT * len(rows) + PAD) * bool(rows) - host.y
    rights = [it.right + PAD for it in shared.values()] + [it.right for it, _ in namespaces]
    host.width = max([host.right, *rights, left + 3 * PAD + 4 + sum(widths) + GAP * len(widths[1:])]) - left
    return Scene(namespaces, columns, shared, host, rows, widths)


def draw(dump):
    scene, picture = scene_of(dump), Picture(dump)
    for box, _ in scene.namespaces:
        picture.namespace(box, dump.settings_of(box.lines[0]))
    picture.namespace(scene.host)
    for column in scene.columns:
        end = scene.shared.get(column.master, column.outer)
        if end:
            picture.line(column.middle, column.inner.bottom, end.y, column.inner.owner)
    for box in [*scene.shared.values(), *(it for column in scene.columns for it in column.boxes())]:
        picture.link(box)
    for column in scene.columns:
        if column.master in scene.shared:
            picture.dot(column.middle, scene.shared[column.master].y, column.inner.owner)
    for place, row in enumerate(scene.rows):
        picture.row(scene.host.x, scene.rows_top + LINE_HEIGHT * place + PAD, row, scene.widths)
    legend = picture.legend(scene.host.x, scene.host.bottom + GAP + PAD)
    height = scene.host.bottom + 2 * GAP + LINE_HEIGHT * len(dump.owners)
    return picture.svg(max(scene.host.right, legend) + GAP, height)


def main():
    option, *only = sys.argv[1:] or [""]
    if option not in ("", "--only") or bool(option) != bool(only):
        sys.exit(__doc__)
    dump = Dump(sys.stdin, only)
    if not dump.by_kind:
        sys.exit("diagram.py: no line of a dump; give the program --dump")
    unknown = [it for it in only if it not in dump.owners]
    if unknown:
        sys.exit(f"diagram.py: no such attachment: {' '.join(unknown)}")
    sys.stdout.write(draw(dump))


if __name__ == "__main__":
    main()
