"""The rules that real plugins make, read as the rules of a dump. A real plugin makes chains of single attachments, to
which rules of other chains jump; here a rule stands in one of four chains for all."""

import ipaddress
import re
import shlex

from private import command

WITH_VALUE = {"-s", "-d", "-p", "-j", "--dport", "--dports", "--ctstate", "--to-destination", "--comment", "--dst-type"}
WITH_VALUE |= {"--set-xmark", "--mark"}
# the chains of single attachments
OF_MASQUERADES = re.compile(r"CNI-[0-9a-f]{24}$")
OF_PORTS = re.compile(r"CNI-DN-")


def network_text(text):
    return str(ipaddress.ip_network(text, strict=False))


def parsed(words):
    """The options of a rule with their values, and which of them are turned round."""
    rule, turned, negated, place = {}, set(), False, 0
    while place < len(words):
        word = words[place]
        if word in WITH_VALUE:
            rule[word] = words[place + 1]
            turned |= {word} if negated else set()
            place += 1
        negated = word == "!"
        place += 1
    return rule, turned


def saved(tool, host):
    """The rules of each chain of each table, in order."""
    table, found = None, {}
    for line in command(tool, namespace=host).stdout.splitlines():
        if line.startswith("*"):
            table = line[1:]
        elif line.startswith(":"):
            found.setdefault((table, line[1:].split()[0]), [])
        elif line.startswith("-A"):
            _, chain, *words = shlex.split(line)
            found.setdefault((table, chain), []).append(parsed(words))
    return found


def made(table, chain, target, **packets):
    return {"table": table, "chain": chain, "target": target, **{key: it for key, it in packets.items() if it}}


def masquerades(found, used):
    for jump, _ in found.get(("nat", "POSTROUTING"), []):
        chain = ("nat", jump.get("-j"))
        if OF_MASQUERADES.match(chain[1] or ""):
            used.add(chain)
            for rule, turned in found.get(chain, []):
                dst = network_text(rule["-d"]) if "-d" in rule else None
                yield made("nat", "CNI-MASQ", rule["-j"], src=network_text(jump["-s"]), dst=dst, not_dst="-d" in turned)


def published(rule):
    dst = network_text(rule["-d"]) if "-d" in rule else None
    packets = {"dst": dst, "protocol": rule["-p"], "dport": int(rule["--dport"])}
    return made("nat", "CNI-HOSTPORT-DNAT", f"DNAT {rule['--to-destination']}", **packets)


def returning(rule, rules):
    """A mark of packets, as the masquerade of those that come to the target of the next rule of the same port."""
    same = [it for it in rules if it["-j"] == "DNAT" and (it["-p"], it["--dport"]) == (rule["-p"], rule["--dport"])]
    if not same:
        return made("nat", "a mark without a target", "-", src=network_text(rule["-s"]), protocol=rule["-p"])
    address, _, port = same[0]["--to-destination"].rpartition(":")
    packets = {"src": network_text(rule["-s"]), "dst": network_text(address.strip("[]")), "protocol": rule["-p"]}
    return made("nat", "CNI-HOSTPORT-MASQ", "MASQUERADE", **packets, dport=int(port))


def ports(found, used):
    for jump, _ in found.get(("nat", "CNI-HOSTPORT-DNAT"), []):
        chain = ("nat", jump.get("-j"))
        if OF_PORTS.match(chain[1] or ""):
            used.add(chain)
            # a chain has a jump for each protocol, of at most 15 ports
            asked = (jump.get("--dports") or jump.get("--dport") or "").split(",")
            all_of = [it for it, _ in found.get(chain, []) if it.get("--dport") in asked]
            rules = [it for it in all_of if it.get("-p") == jump.get("-p")]
            for place, rule in enumerate(rules):
                if rule["-j"] == "DNAT":
                    yield published(rule)
                elif rule["-j"] == "CNI-HOSTPORT-SETMARK":
                    yield returning(rule, rules[place:])


def forwarded(found):
    for rule, _ in found.get(("filter", "CNI-FORWARD"), []):
        if rule.get("-j") != "CNI-ADMIN":
            ends = {to: network_text(rule[key]) for key, to in (("-s", "src"), ("-d", "dst")) if key in rule}
            established = "ESTABLISHED" in rule.get("--ctstate", "")
            yield made("filter", "CNI-FORWARD", rule["-j"], **ends, established=established)


def rules_of(host):
    """The rules of both families, and the chains of single attachments to which nothing jumps any more."""
    rules, left = [], []
    for family, tool in ((4, "iptables-save"), (6, "ip6tables-save")):
        found, used = saved(tool, host), set()
        rules += [*masquerades(found, used), *ports(found, used), *forwarded(found)]
        for table, chain in found:
            kind = next((it for it in (OF_PORTS, OF_MASQUERADES) if it.match(chain)), None)
            if kind and (table, chain) not in used:
                left.append(f"IPv{family} {table} {'CNI-DN-*' if kind is OF_PORTS else 'CNI-*'}")
    return rules, left
