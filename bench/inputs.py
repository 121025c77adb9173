"""The inputs of the other benchmarks, each by its name: words and files, to time two builds of the program on them."""

import asked
import readers
import rounds
import scale
from program import NO_PODS


def of_rounds(part):
    for kind in rounds.STEPS:
        pods, _ = rounds.files(kind, 10000 // part)
        yield f"rounds, {kind}", {"pods.json": pods, "net.json": rounds.NET}


def of_scale(part):
    for kind in (scale.mappings, scale.routes, scale.collected):
        files, _ = kind(20000 // part)
        yield f"scale, {kind.__name__}", files
    yield "scale, opening", {"pods.json": scale.opened(20000 // part), "net.json": scale.NET}


def of_readers(part):
    yield "readers, pod file", {"pods.json": readers.pod_file(readers.MOST_BYTES // part)}
    yield "readers, network list", {"pods.json": NO_PODS, "net.json": readers.list_of_sets()}


def of_asked(part):
    yield "asked, ADDs", {"pods.json": asked.added(10000 // part), "net.json": asked.NET}


def words_and_files(part):
    """Each input by its name."""
    for of_one in (of_rounds, of_scale, of_readers, of_asked):
        for name, files in of_one(part):
            yield name, [*files], files
    yield "asked, requests", ["--requests", "pods.json", "net.json"], dict(of_asked(part))["asked, ADDs"]
    packets = [asked.packet(number, False) for number in range(65536 // part)]
    files = {**dict(of_asked(part))["asked, ADDs"], "packets.json": packets}
    yield "asked, packets", ["--probe", "packets.json", "pods.json", "net.json"], files
