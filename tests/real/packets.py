#!/usr/bin/env python3
"""Sends real packets between namespaces that real plugins joined, and compares what becomes of them with --probe.

    packets.py VERSION          on the plugins of CNI_PATH, of this version; writes packets/VERSION.json
    packets.py --kept PROGRAM   holds a program to the kept ones

A server in each namespace says on which port it was reached and from which address. Each packet is sent twice: while
the host forwards all, which tells where it comes out and with which source, and while it forwards nothing of itself,
which tells whether a rule accepts it. An uplink joins the host to a machine outside.
"""

import json
import pathlib
import subprocess
import sys
import tempfile
import time

sys.dont_write_bytecode = True

from start import HERE, PLUGINS, given_program, of_words

from beside import Beside, Difference
from differences import known, read_differences
from host import HOST, Host, ip, make
from private import command
from program import compact, lines_of, read_json, run_on

KEPT = HERE / "packets"
OUTSIDE = "outside"
MACHINE, UPLINK = {4: "198.51.100.9", 6: "2001:db8::9"}, {4: "198.51.100.1", 6: "2001:db8::1"}
PORTS = [80, 443, 53, 8080, 8081, 5300]
# the ports of the host itself; what it would listen on besides is published
HOST_PORTS = [443, 8081]
SERVER = pathlib.Path(__file__).with_name("server.py")
CLIENT = pathlib.Path(__file__).with_name("client.py")
PORTMAP, FIREWALL = {"type": "portmap", "capabilities": {"portMappings": True}}, {"type": "firewall"}
V4, V6 = {"subnet": "10.88.0.0/16"}, {"subnet": "fd00:88::/64"}
MAPPINGS = [
    {"hostPort": 8080, "containerPort": 80, "protocol": "tcp"},
    {"hostPort": 5300, "containerPort": 53, "protocol": "udp"},
]


def bridge(*sets, **keys):
    ipam = {"type": "host-local", "ranges": [[it] for it in sets]}
    return {"type": "bridge", "isDefaultGateway": True, "hairpinMode": True, **keys, "ipam": ipam}


def adds(first, second=()):
    """Two containers, which publish these."""
    for name, mappings in (("a", first), ("b", second)):
        told = {"verb": "ADD", "network": "pods", "container": name, "netns": f"/ns/{name}"}
        yield {**told, "portMappings": [*mappings]}


def packet(src, dst, dport, protocol="tcp"):
    return {"protocol": protocol, "src": src, "dst": dst, "dport": dport}


def usual(a, b, family, gateway):
    """Packets from a machine outside, out of containers, between them, and of the host itself."""
    machine, uplink = MACHINE[family], UPLINK[family]
    yield from (packet(machine, uplink, port) for port in (8080, 8081))
    yield from (packet(it, machine, 443) for it in (a, b))
    yield from (packet(it, uplink, 8080) for it in (a, b))
    yield from (packet(it, machine, 8080) for it in (a, b))
    yield from (packet(it, a, 80) for it in (b, machine, gateway))
    yield packet(a, b, 443)
    yield packet(machine, uplink, 5300, "udp")
    yield packet(a, machine, 443, "udp")
    yield packet(machine, uplink, 8080, "udp")
    yield packet(machine, gateway, 8080)


LOCAL = packet("127.0.0.1", "127.0.0.1", 8080)
FOUR = ("10.88.0.2", "10.88.0.3", 4, "10.88.0.1")
SIX = ("fd00:88::2", "fd00:88::3", 6, "fd00:88::1")
PTP_IPAM = {"type": "host-local", "subnet": "10.4.0.0/24", "routes": [{"dst": "0.0.0.0/0"}]}
PTP = {"type": "ptp", "ipMasq": True, "ipam": PTP_IPAM}
OF_ONE_ADDRESS = [{**MAPPINGS[0], "hostIP": UPLINK[4]}]
# plugins, the mappings of two containers, and packets
CASES = {
    "full": ([bridge(V4, ipMasq=True), PORTMAP, FIREWALL], (MAPPINGS,), [*usual(*FOUR), LOCAL]),
    "without firewall": ([bridge(V4, ipMasq=True), PORTMAP], (MAPPINGS,), [*usual(*FOUR)]),
    "without masquerade": ([bridge(V4), {**PORTMAP, "snat": False}, FIREWALL], (MAPPINGS,), [*usual(*FOUR)]),
    "one port of two": (
        [bridge(V4, ipMasq=True), PORTMAP, FIREWALL],
        (OF_ONE_ADDRESS, MAPPINGS[:1]),
        [*usual(*FOUR), LOCAL],
    ),
    "both families": ([bridge(V4, V6, ipMasq=True), PORTMAP, FIREWALL], (MAPPINGS,), [*usual(*SIX), *usual(*FOUR)]),
    "ptp": ([PTP, PORTMAP, FIREWALL], (MAPPINGS,), [*usual("10.4.0.2", "10.4.0.3", 4, "10.4.0.1"), LOCAL]),
}


def case(name):
    """The lists, the pod file and the packets of a case."""
    plugins, mappings, packets = CASES[name]
    pods = {"opening": {"namespaces": ["/ns/a", "/ns/b"]}, "rounds": [[it] for it in adds(*mappings)]}
    return [{"cniVersion": "1.0.0", "name": "pods", "plugins": plugins}], pods, packets


# ---- real packets


def join_outside():
    """A machine outside, joined to the host by an uplink."""
    make(OUTSIDE)
    ip(HOST, "link", "add", "up0", "type", "veth", "peer", "name", "up1", "netns", OUTSIDE)
    for namespace, link, addresses in ((HOST, "up0", UPLINK), (OUTSIDE, "up1", MACHINE)):
        ip(namespace, "addr", "add", f"{addresses[4]}/24", "dev", link)
        ip(namespace, "addr", "add", f"{addresses[6]}/64", "dev", link, "nodad")
        ip(namespace, "link", "set", link, "up")
    ip(OUTSIDE, "route", "add", "default", "via", UPLINK[4])
    ip(OUTSIDE, "-6", "route", "add", "default", "via", UPLINK[6])


def owner_of(address):
    """Who has an address: `outside`, a container, or the host."""
    if address in MACHINE.values():
        return OUTSIDE
    return {"2": "a", "3": "b"}.get(address[-1], HOST) if address.startswith(("10.", "fd00:")) else HOST


class Servers:
    """A server in each namespace."""

    def __init__(self, spaces, folder):
        self.logs, self.running = {}, []
        for name, namespace in spaces.items():
            self.logs[name] = folder / name
            ports = HOST_PORTS if name == HOST else PORTS
            inside = ["nsenter", f"--net=/run/netns/{namespace}"]
            words = [*inside, sys.executable, "-I", str(SERVER), name, *map(str, ports)]
            with open(self.logs[name], "wb") as log:
                self.running.append(subprocess.Popen(words, stdout=log))
        while not all(it.read_text(encoding="utf-8") for it in self.logs.values()):
            time.sleep(0.05)

    def reached(self, token):
        """Which server a datagram came to, on which port and from where."""
        for log in self.logs.values():
            for line in log.read_text(encoding="utf-8").splitlines():
                if line.endswith(f" {token}"):
                    return line.removesuffix(f" {token}")
        return ""

    def stop(self):
        for it in self.running:
            it.terminate()
            it.wait()


def sent(it, token, spaces, servers):
    """Where a packet came out: the server, its port and the source that it saw; nothing where it came out nowhere."""
    command("conntrack", "-F", namespace=HOST)
    words = [sys.executable, "-I", str(CLIENT), it["protocol"], it["src"], it["dst"], str(it["dport"]), token]
    said = command(*words, namespace=spaces[owner_of(it["src"])]).stdout.strip()
    if it["protocol"] == "udp":
        time.sleep(0.05)
        said = servers.reached(token)
    return said


def real(name):
    """What became of the real packets of a case, while the host forwards all, and while it forwards nothing itself."""
    lists, pods, packets = case(name)
    host = Host(pods["opening"], PLUGINS, [])
    beside = Beside(given_program(), pods, lists)
    beside.carry_out(host)
    join_outside()
    spaces = {OUTSIDE: OUTSIDE, HOST: HOST, **{it[-1]: name for it, name in host.names.items()}}
    for it in ("iptables", "ip6tables"):
        command("sh", "-c", f"echo 0 >/proc/sys/net/bridge/bridge-nf-call-{it}", namespace=HOST)
    found = [[] for _ in packets]
    with tempfile.TemporaryDirectory() as folder:
        servers = Servers(spaces, pathlib.Path(folder))
        for policy in ("ACCEPT", "DROP"):
            for tool in ("iptables", "ip6tables"):
                command(tool, "-P", "FORWARD", policy, namespace=HOST)
            for number, it in enumerate(packets):
                found[number].append(sent(it, f"{policy}-{number}", spaces, servers))
        servers.stop()
    return found


# ---- comparing


def differing(it, fate, forwarded_all, forwarded_none):
    """In what a fate is another than what became of the real packet. One that comes out nowhere though it is forwarded
    says nothing, as one whose answer goes another way; one within the host or a bridge isn't forwarded."""
    if not forwarded_all:
        return []
    server, port, source = forwarded_all.split(" ")
    owner = owner_of(it["dst"]) if it["dst"] not in UPLINK.values() else HOST
    rewritten = (server, int(port)) != (owner, it["dport"])
    found = [] if fate["rewritten"] == rewritten else ["rewritten"]
    if fate["rewritten"] and rewritten and (owner_of(fate["dst"]), fate["dport"]) != (server, int(port)):
        found.append("dst")
    if fate["masqueraded"] != (source != it["src"]):
        found.append("masqueraded")
    bridged = {owner_of(it["src"]), server} <= {"a", "b"} and not rewritten and not it["src"].startswith("10.4.")
    is_forwarded = server != HOST and owner_of(it["src"]) != HOST and not bridged
    if is_forwarded and fate["accepted"] != bool(forwarded_none):
        found.append("accepted")
    return found


def fates(program, lists, pods, packets):
    files = {"packets.json": packets, "pods.json": pods, **{f"{number}.json": it for number, it in enumerate(lists)}}
    done = run_on(program, ["--probe", *files], files)
    return [value for it in lines_of(done.stdout) if "packet" in (value := json.loads(it))]


def differences(program, name, kept):
    """The packets of a case of which a fate is another than what became of the real one."""
    lists, pods, packets = case(name)
    for it, fate, found in zip(packets, fates(program, lists, pods, packets), kept, strict=True):
        for what in differing(it, fate, *found):
            yield Difference(fate["packet"], "PROBE", f"packet.{what} {compact(it)}", compact(fate), found[0])


def make_all(version):
    KEPT.mkdir(exist_ok=True)
    kept = {name: real(name) for name in CASES}
    lines = [f"{compact(name)}: [\n {(',' + chr(10) + ' ').join(map(compact, it))}]" for name, it in kept.items()]
    (KEPT / f"{version}.json").write_text("{" + ",\n".join(lines) + "}\n", encoding="utf-8")
    return tell(given_program())


def tell(program):
    table, count, found, wrong = read_differences(), 0, 0, 0
    for path in sorted(KEPT.glob("*.json")):
        for name, kept in read_json(path).items():
            count += len(kept)
            for it in differences(program, name, kept):
                found += 1
                if known(it, table, name, path.stem) is None:
                    wrong += 1
                    print(f"{path.stem}, {name}: {it.what}: {it.model}, and it came to {it.real}")
    print(f"real packets: {count}, {found} differences, {wrong} of them unnamed")
    return 1 if wrong else 0


if __name__ == "__main__":
    sys.exit(of_words(make_all, tell, __doc__))
