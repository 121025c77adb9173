"""What the scripts of tests/ and bench/ share: the program, the files that it reads in a folder of their own, a run of
it, and network lists and commands as values."""

import contextlib
import json
import pathlib
import subprocess
import tempfile

TOP = pathlib.Path(__file__).resolve().parent.parent
BUILT = TOP / (TOP / "tests/built.txt").read_text(encoding="utf-8").strip()
# in place of a file's content: a folder is to have that name
DIRECTORY = object()
# the most seconds that a run may take
MOST_SECONDS = 120
# the statuses: no command failed, some command was refused or stopped, a file or a plan is refused, and some command
# ran out of memory
SUCCESS = 0
FAILURE = 1
REFUSED = 3
COMMAND_MEMORY = 8


def program_of(words):
    """The program that the first word names, or the one that `./test` built."""
    return str(pathlib.Path(words[0]).resolve() if words else BUILT)


def compact(value, ensure_ascii=True):
    return json.dumps(value, separators=(",", ":"), ensure_ascii=ensure_ascii)


def read_json(path):
    return json.loads(path.read_text(encoding="utf-8"))


@contextlib.contextmanager
def in_folder(files):
    """A fresh folder with these files, each of which is bytes, a value that is written as JSON, or DIRECTORY."""
    with tempfile.TemporaryDirectory() as name:
        folder = pathlib.Path(name)
        for file, content in files.items():
            if content is DIRECTORY:
                (folder / file).mkdir()
            else:
                (folder / file).write_bytes(content if isinstance(content, bytes) else compact(content).encode("utf-8"))
        yield folder


def run(program, words, folder, stdout=subprocess.PIPE):
    """The run of the program with these words in this folder, as it ended."""
    return subprocess.run([program, *words], cwd=folder, stdout=stdout, check=False, timeout=MOST_SECONDS)


def run_on(program, words, files, stdout=subprocess.PIPE):
    """The run of the program with these words in a folder with these files, as it ended."""
    with in_folder(files) as folder:
        return run(program, words, folder, stdout)


def lines_of(printed):
    """The lines, which line feeds alone end: a text may have other characters that part lines."""
    return printed.decode("utf-8").removesuffix("\n").split("\n") if printed else []


def least(runs, seconds, program, files):
    """The least of the seconds of so many runs with these files, fewer where they take long; none where one isn't over
    in time."""
    times = []
    with in_folder(files) as folder:
        while len(times) < runs and sum(times) < MOST_SECONDS / 8:
            taken = seconds(program, files, folder)
            if taken is None:
                return None
            times.append(taken)
    return min(times)


def count_failed(found):
    """Prints what is other than expected, each text behind the name that it is found of, and counts the names that have
    one."""
    failed = 0
    for name, texts in found:
        failed += bool(texts)
        for text in texts:
            print(f"{name}: {text}")
    return failed


def bridge(**ipam):
    """A plugin `bridge` whose addresses are `host-local`'s, by these keys."""
    return {"type": "bridge", "ipam": {"type": "host-local", **ipam}}


def network_list(name, *plugins):
    return {"cniVersion": "1.1.0", "name": name, "plugins": [*plugins]}


# a pod file without commands
NO_PODS = {"rounds": []}


def command(verb, network, container, netns):
    """A command of a pod file."""
    return {"verb": verb, "network": network, "container": container, "netns": netns}


def task(verb, kind, container, netns, options=None):
    """A task of a session."""
    return {"verb": verb, "type": kind, "container": container, "netns": netns, "options": options or {}}


def session(*tasks, **more):
    """A session file of these tasks on the network `s`."""
    return {"network": "s", **more, "tasks": [*tasks]}
