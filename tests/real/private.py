"""Namespaces of our own: real plugins run in mount and network namespaces that nobody else sees, and nothing of the
machine's network or of its files below /var/lib/cni, /run/cni and /run/netns is touched. No root is needed where the
system lets a user make namespaces."""

import os
import pathlib
import shutil
import subprocess
import sys

# where plugins and `ip netns` keep what they remember
STATE = ("/var/lib/cni", "/run/cni", "/run/netns")
TOOLS = ("unshare", "nsenter", "mount", "ip", "iptables", "ip6tables", "iptables-save", "ip6tables-save")
PLUGINS = ("bridge", "ptp", "macvlan", "host-local", "portmap", "firewall", "tuning")
INSIDE = "REAL_PRIVATE"
PATH = "/usr/sbin:/usr/bin:/sbin:/bin"


def command(*words, namespace=None, given=None, environment=None):
    """A command that was run, in a network namespace of this name where one is named."""
    inside = ["nsenter", f"--net=/run/netns/{namespace}"] if namespace else []
    return subprocess.run(
        [*inside, *words], input=given, env=environment, capture_output=True, encoding="utf-8", check=False
    )


def missing(folder):
    """What is missing to run the plugins of this folder, a text each."""
    yield from (f"no {it} on the path" for it in TOOLS if shutil.which(it, path=PATH) is None)
    yield from (f"no plugin {it} in {folder}" for it in PLUGINS if not (pathlib.Path(folder) / it).exists())
    yield from (f"no folder {it}" for it in STATE if not pathlib.Path(it).is_dir() and os.geteuid() != 0)
    if command("unshare", *as_root(), "-m", "-n", "true").returncode != 0:
        yield "no namespace can be made here"


def as_root():
    """How `unshare` makes who isn't root be it in namespaces of its own."""
    return [] if os.geteuid() == 0 else ["-r"]


def enter():
    """Begins this program again in namespaces of its own, or, where it is in them, hides what the machine keeps."""
    if os.environ.get(INSIDE) is None:
        os.environ[INSIDE] = "1"
        words = ["unshare", *as_root(), "-m", "-n", "--propagation", "private", sys.executable, *sys.argv]
        os.execvp("unshare", words)
    for folder in STATE:
        pathlib.Path(folder).mkdir(parents=True, exist_ok=True)
        subprocess.run(["mount", "-t", "tmpfs", "tmpfs", folder], check=True)
    subprocess.run(["ip", "link", "set", "lo", "up"], check=True)
