"""Where the result that a real plugin answers is another than the model's."""

import ipaddress


def settled(result, names=None, name_of=None):
    """A result as it is compared: names and hardware addresses as on the real host, namespaces as in the pod file,
    addresses in one spelling."""
    interfaces = []
    for it in result.get("interfaces") or []:
        if names is not None:
            it = {**it, "name": names.end(it["name"]), "mac": names.mac(it["mac"])}
        if name_of is not None and it.get("sandbox"):
            it = {**it, "sandbox": name_of(it["sandbox"])}
        interfaces.append(it)
    ips = [spelled(it, ("address", "gateway")) for it in result.get("ips") or []]
    routes = [spelled(it, ("dst", "gw")) for it in result.get("routes") or []]
    lists = {"interfaces": interfaces, "ips": ips, "routes": routes}
    return {**result, **{key: it for key, it in lists.items() if it or key == "interfaces"}}


def spelled(value, keys):
    return {key: address_text(it) if key in keys else it for key, it in value.items()}


def address_text(text):
    try:
        return str(ipaddress.ip_interface(text) if "/" in text else ipaddress.ip_address(text))
    except ValueError:
        return text


def members(path, ours, theirs):
    for key in sorted({*ours} | {*theirs}):
        if ours.get(key) != theirs.get(key):
            yield f"{path}.{key}", ours.get(key), theirs.get(key)


def differences(model, real, names, name_of):
    """What it is about, the model's and the real one."""
    if not isinstance(real, dict):
        yield "result", model, real
        return
    ours, theirs = settled(model, names), settled(real, name_of=name_of)
    first, second = ours.pop("interfaces"), theirs.pop("interfaces")
    if len(first) == len(second):
        for place, pair in enumerate(zip(first, second)):
            yield from members(f"result.interfaces[{place}]", *pair)
    else:
        yield "result.interfaces", first, second
    yield from members("result", ours, theirs)
