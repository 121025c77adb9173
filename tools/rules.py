"""What the scripts of tools/ share on packet rules: how one is written for iptables, and which packets it matches."""

import ipaddress


def is_ipv6(rule):
    return any(":" in rule.get(it, "").removeprefix("DNAT").rpartition(":")[0] for it in ("src", "dst", "target"))


def match_of(rule):
    """What a rule matches, as iptables takes it."""
    words = [f"-p {rule['protocol']}"] if "protocol" in rule else []
    words += [f"-s {rule['src']}"] if "src" in rule else []
    words += [("! " if "not_dst" in rule else "") + f"-d {rule['dst']}"] if "dst" in rule else []
    words += [f"--dport {rule['dport']}"] if "dport" in rule else []
    words += ["-m conntrack --ctstate RELATED,ESTABLISHED"] if "established" in rule else []
    return " ".join(words)


def jump_of(rule):
    return "-j " + rule["target"].replace("DNAT ", "DNAT --to-destination ")


def command_of(rule):
    """A rule as the command that appends it, in three parts."""
    command = "ip6tables" if is_ipv6(rule) else "iptables"
    return [f"{command} -t {rule['table']} -A {rule['chain']}", match_of(rule), jump_of(rule)]


def destination_of(rule):
    """The address and the port that a rule of a published port sends to."""
    address, _, port = rule["target"].removeprefix("DNAT ").rpartition(":")
    return address.strip("[]"), int(port)


def families_of(rule):
    """The families of its addresses; a rule speaks of packets of these alone."""
    texts = [rule[key].split("/")[0] for key in ("src", "dst") if key in rule]
    if rule["target"].startswith("DNAT"):
        texts.append(destination_of(rule)[0])
    return {ipaddress.ip_address(it).version for it in texts}


def holds(network, address):
    return ipaddress.ip_address(address) in ipaddress.ip_network(network, strict=False)


def matches(rule, packet):
    return (
        families_of(rule) <= {ipaddress.ip_address(packet["dst"]).version}
        and ("src" not in rule or holds(rule["src"], packet["src"]))
        and ("dst" not in rule or holds(rule["dst"], packet["dst"]) != rule.get("not_dst", False))
        and rule.get("protocol", packet["protocol"]) == packet["protocol"]
        and rule.get("dport", packet["dport"]) == packet["dport"]
        and (packet.get("established") or not rule.get("established", False))
    )


def first_match(rules, chain, packet):
    """The first rule of a chain that matches a packet, which decides."""
    return next((it for it in rules if it["chain"] == chain and matches(it, packet)), None)
