"""A host on which real plugins run: a network namespace that stands for the host of a dump, and one for each namespace
of a pod file."""

import json
import os
import pathlib
import shutil
import time

from chains import rules_of
from private import PATH, STATE, command
from state import FORWARDING, State, cidr_text, destination_text

HOST = "host"
# where the other ends of an opening's devices are, since not every kernel has links of kind dummy
SPARE = "spare"
LEASES = pathlib.Path("/var/lib/cni/networks")
# an IPv6 address is there at once, without a search for another that has it
NO_SEARCH = """
ip link set lo up
for it in all default; do
    echo 0 >/proc/sys/net/ipv6/conf/$it/accept_dad; echo 0 >/proc/sys/net/ipv6/conf/$it/dad_transmits
done
"""
# how long a namespace's links may take to go, in steps of a fiftieth of a second
STEPS = 100


def ip(namespace, *words):
    return command("ip", "-n", namespace, *words)


def read(namespace, *words):
    return json.loads(ip(namespace, "-j", *words).stdout or "[]")


def make(namespace):
    made = command("ip", "netns", "add", namespace)
    if made.returncode != 0:
        raise OSError(made.stderr)
    command("sh", "-c", NO_SEARCH, namespace=namespace)


def empty():
    """Takes away what an earlier host left."""
    for it in os.listdir("/run/netns"):
        command("ip", "netns", "del", it)
    for folder in map(pathlib.Path, STATE[:2]):
        for it in folder.iterdir():
            shutil.rmtree(it) if it.is_dir() else it.unlink()


class Host:
    """A host with what an opening says, the plugins of a folder, and these settings to look at besides forwarding."""

    def __init__(self, opening, plugins, settings):
        self.plugins, self.settings = pathlib.Path(plugins), sorted({*FORWARDING, *settings})
        self.names, self.devices = {}, set()
        empty()
        make(HOST)
        for it in opening.get("namespaces", []):
            self.add_namespace(it)
        for it in opening.get("links", []):
            self.add_link(it)
        self.at_first = self.state().settings

    # ---- what others do

    def add_namespace(self, name):
        self.names.setdefault(name, f"ns{len(self.names)}")
        make(self.names[name])

    def add_link(self, link):
        where, name = self.names[link["ns"]] if link.get("ns") else HOST, link["name"]
        if link["kind"] == "bridge":
            ip(where, "link", "add", "name", name, "type", "bridge")
        else:
            if not pathlib.Path(f"/run/netns/{SPARE}").exists():
                make(SPARE)
            ip(where, "link", "add", "name", name, "type", "veth", "peer", "name", name, "netns", SPARE)
            ip(SPARE, "link", "set", name, "up", "mtu", "9000")
            self.devices.add((link.get("ns", ""), name))
        # a bridge keeps an MTU that is set, and not one that it is made with
        ip(where, "link", "set", name, "mtu", str(link.get("mtu", 1500)))
        ip(where, "link", "set", name, "up")

    def del_namespace(self, name):
        """The kernel takes the links of a namespace later, which is waited for."""
        inside, before = len(read(self.names[name], "link", "show", "type", "veth")), self.veth_ends()
        command("ip", "netns", "del", self.names[name])
        for _ in range(STEPS):
            if self.veth_ends() <= before - inside:
                return
            time.sleep(0.02)

    @staticmethod
    def veth_ends():
        return len(read(HOST, "link", "show", "type", "veth"))

    def drop(self, name, ifname):
        ip(self.names[name] if name else HOST, "link", "del", ifname)

    @staticmethod
    def flush(table):
        for tool in ("iptables", "ip6tables"):
            command(tool, "-t", table, "-F", namespace=HOST)

    # ---- plugins

    def path_of(self, name):
        return f"/var/run/netns/{self.names.get(name, 'missing')}" if name else ""

    def name_of(self, path):
        return next((it for it in self.names if path == self.path_of(it)), path)

    def environment(self, words):
        told = {key: it for key, it in words.items() if it and key != "CNI_NETNS"}
        netns = self.path_of(words.get("CNI_NETNS", ""))
        return {**told, **({"CNI_NETNS": netns} if netns else {}), "PATH": PATH, "CNI_PATH": str(self.plugins)}

    def call(self, plugin, words, request):
        """What a plugin answers: its status, and the value that it prints, or its text."""
        program = self.plugins / plugin
        if not program.exists():
            return 1, {"code": 2, "msg": "no such plugin"}
        done = command(
            str(program), namespace=HOST, given=json.dumps(request), environment=self.environment(words)
        )
        try:
            return done.returncode, json.loads(done.stdout) if done.stdout.strip() else None
        except ValueError:
            return done.returncode, done.stdout

    # ---- what is there

    def state(self):
        found = State()
        there = {name: it for name, it in self.names.items() if pathlib.Path(f"/run/netns/{it}").exists()}
        spaces = {"": HOST, **there}
        found.namespaces = {*there}
        above = {it["ifindex"]: it["ifname"] for it in read(HOST, "link")}
        for name, it in spaces.items():
            self.look_at_links(found, name, it, above)
            self.look_at_settings(found, name, it)
        found.rules, found.chains = rules_of(HOST)
        look_at_leases(found)
        return found

    def look_at_links(self, found, name, namespace, above):
        for link in read(namespace, "-d", "link"):
            if link["ifname"] != "lo":
                key = name, link["ifname"]
                found.links[key] = link_of(link, above, key in self.devices)
        for link in read(namespace, "addr"):
            for it in link.get("addr_info", []):
                if link["ifname"] != "lo" and it.get("scope") != "link":
                    found.addresses.add((name, link["ifname"], cidr_text(f"{it['local']}/{it['prefixlen']}")))
        for family, default in (("-4", "0.0.0.0/0"), ("-6", "::/0")):
            for it in read(namespace, family, "route"):
                if it.get("protocol") != "kernel" and it.get("dev") != "lo":
                    dst = default if it["dst"] == "default" else destination_text(it["dst"])
                    found.routes.add((name, dst, it.get("gateway", ""), it.get("dev", "")))

    def look_at_settings(self, found, name, namespace):
        for key in (it for it in self.settings if name == "" or it not in FORWARDING):
            value = command("cat", f"/proc/sys/{key.replace('.', '/')}", namespace=namespace).stdout.strip()
            if value:
                found.settings[name, key] = value


def link_of(link, above, is_device):
    """What is compared of a link."""
    about = link.get("linkinfo", {})
    kind = about.get("info_kind", "device")
    over = (link.get("link") or above.get(link.get("link_index"))) if kind == "macvlan" else None
    return {
        "link": "device" if is_device else kind,
        "mtu": link["mtu"],
        "master": link.get("master") or over,
        "promisc": "PROMISC" in link["flags"],
        "allmulti": "ALLMULTI" in link["flags"],
        "hairpin": bool(about.get("info_slave_data", {}).get("hairpin", False)),
        "txqlen": link.get("txqlen", 0),
        "mac": link.get("address"),
        "mode": about.get("info_data", {}).get("mode") if kind == "macvlan" else None,
    }


def look_at_leases(found):
    for file in LEASES.glob("*/*") if LEASES.is_dir() else []:
        network, text = file.parent.name, file.read_bytes().decode("utf-8")
        if file.name.startswith("last_reserved_ip."):
            found.lasts[network, int(file.name.rpartition(".")[2])] = text
        elif file.name != "lock":
            container, _, ifname = text.partition("\r\n")
            found.leases.add((network, file.name, container, ifname))
