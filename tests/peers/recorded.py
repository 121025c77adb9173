"""What the `host-local` plugin did, as hostlocal.json has it: its own tests of its allocator, and sequences that were
run."""

from program import TOP, read_json


def recordings():
    return read_json(TOP / "tests/peers/hostlocal.json")


def is_ipv6(given_set):
    return ":" in given_set[0]["subnet"]
