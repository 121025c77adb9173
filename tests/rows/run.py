#!/usr/bin/env python3
"""Runs a built program on the rows of rows.json, requests.json, packets.json, sessions.json and of ../readers, and on a
list, a pod file and a session file that are cut off behind each of their bytes, and compares what it writes and its
status.

    run.py [PROGRAM [WORD]]    the rows whose names hold WORD; without one, all; fails where there is none

A row has the files that lie where the program runs, the words, and what is expected:

    status      the exit status
    stdout      all lines
    answers     the lines of the commands, which come first
    packets     the lines of the packets, which come last
    ends_with   the last of these lines
    calls       by command number: how many calls it made, or their kinds in order (the words ask for a trace)
    replies     by command number: the replies to its calls, in order (the words ask for a trace)
    leased      the addresses that the results have, in any order; the answers write each as `<LEASED>`
    dump        the lines of the dump, or the kinds of its objects where they are single words
    objects     by kind: the lines of the dump that are of that kind
    later       instead of what is printed: the file is read, so a refusal is one that comes after reading
    owners      whose objects the dump has, each attachment once
    stdout_to   the file that standard output goes to, in place of a pipe that is read
    for_each    the row stands for as many as these lists have places: `<K>` is what the list K has at the row's place

A file is a JSON value that is written compactly, or `@NAME`, one of the lists of rows.json; or {"text": ..},
{"size": N} or {"directory": true}; or {"before": .., "repeated": .., "times": N, "after": ..}, texts, of which the
second stands N times, between commas.
In a line `<HV N/C/I>`, `<MH N/C/I>` and `<MC N/C/I>` are the host end's name, its MAC and the container end's MAC of
the attachment of container C to network N by interface I, and `<ML NAME>` is the MAC of another link; they are derived
here.
"""

import contextlib
import hashlib
import json
import pathlib
import re
import subprocess
import sys

sys.dont_write_bytecode = True
sys.path.insert(0, str(pathlib.Path(__file__).resolve().parent.parent))

from program import (
    COMMAND_MEMORY,
    DIRECTORY,
    FAILURE,
    NO_PODS,
    REFUSED,
    SUCCESS,
    TOP,
    compact,
    count_failed,
    lines_of,
    program_of,
    read_json,
    run_on,
)

LATER = re.compile(r"invalid pod file: no network for command \d+")
# the words by which each table's files are read, which the last one names
READ_BY = {
    "network_lists": ["pods.json", "net.json"],
    "pod_files": ["pods.json"],
    "session_files": ["reg:session.json"],
}
# the rows whose files are cut off: a list of four plugins with a pod file, and a session file
CUT = ("podman_list", "vlan_added_checked_and_deleted")
# the `ipam` of a list that has one plugin
IPAM = re.compile(r'"ipam":(.*)}\]}')
LEASED = re.compile(r'(?<="ips":\[{"address":")([^"]*)')


def mac(digest):
    return ":".join(f"{byte:02x}" for byte in b"\x0a" + digest)


def derive(match):
    kind, of = match.group(1), match.group(2)
    if kind == "ML":
        return mac(hashlib.sha256(of.encode()).digest()[:5])
    digest = hashlib.sha256("\n".join(of.split("/")).encode()).digest()
    if kind == "HV":
        return "veth" + digest[:4].hex()
    return mac(digest[9:14] if kind == "MH" else digest[4:9])


def expanded(line):
    return re.sub(r"<(HV|MH|MC|ML) ([^>]*)>", derive, line)


def content_of(given, lists):
    """What a file of a row holds."""
    if isinstance(given, str) and given.startswith("@"):
        return lists[given[1:]]
    if isinstance(given, dict) and given.get("directory"):
        return DIRECTORY
    if isinstance(given, dict) and "size" in given:
        return b" " * given["size"]
    if isinstance(given, dict) and "repeated" in given:
        members = ",".join([given["repeated"]] * given["times"])
        return f"{given['before']}{members}{given['after']}".encode("utf-8")
    if isinstance(given, dict) and "text" in given:
        return given["text"].encode("utf-8")
    return given


def filled(value, of_place):
    """A value of a row with what a place's lists have in it. A text that is a list's name alone becomes what it has."""
    if isinstance(value, dict):
        return {key: filled(each, of_place) for key, each in value.items()}
    if isinstance(value, list):
        return [filled(each, of_place) for each in value]
    if not isinstance(value, str):
        return value
    if value in of_place:
        return of_place[value]
    for name, given in of_place.items():
        value = value.replace(name, str(given))
    return value


def each_of(row):
    """The rows that a row stands for."""
    lists = row.get("for_each")
    if lists is None:
        yield row
        return
    for place in zip(*lists.values(), strict=True):
        of_place = dict(zip((f"<{name}>" for name in lists), place))
        told = ", ".join(f"{name} {given}" for name, given in zip(lists, place))
        yield {**filled(row, of_place), "name": f"{row['name']} {told}"}


def worked_rows():
    """The rows that were worked out by hand, and the lists that their files may be."""
    table = read_json(TOP / "tests/rows/rows.json")
    more = [row for file in ("requests", "packets", "sessions") for row in read_json(TOP / f"tests/rows/{file}.json")]
    return [each for row in [*table["rows"], *more] for each in each_of(row)], table["lists"]


def by_command(lines, key):
    """What the trace's lines have under that key, in order, by command number."""
    found = {}
    for line in lines:
        found.setdefault(str(line["n"]), []).append(line[key])
    return found


def session_files(tables):
    """Session files with the `ipam` of each list whose row tells of one, and with the opening of each pod file without
    rounds whose row tells of one."""
    for row in tables["network_lists"]:
        if row["about"].startswith("ipam"):
            refused = {"code": 7, "msg": "invalid pod file: ipam"} if "code" in row else {}
            pools = IPAM.search(row["input"])[1]
            yield {"about": row["about"], "input": f'{{"network":"s","ipam":{pools},"tasks":[]}}', **refused}
    for row in tables["pod_files"]:
        if row["about"].startswith("opening") and '"rounds":[]' in row["input"]:
            yield {**row, "input": row["input"].replace('"rounds":[]', '"network":"s","tasks":[]')}


def reader_rows():
    """The tables of what readers take and refuse, each row as a run."""
    tables = {table: read_json(TOP / f"tests/readers/{table}.json") for table in READ_BY}
    tables["session_files"] += session_files(tables)
    for table, words in READ_BY.items():
        file = words[-1].removeprefix("reg:")
        for number, row in enumerate(tables[table], 1):
            files = {"pods.json": NO_PODS, file: {"text": row["input"]}}
            run_row = {"name": f"{table} {number}, {row['about']}", "files": files, "words": words}
            if "code" in row:
                error = {"cniVersion": "1.1.0", "code": row["code"], "details": "", "msg": row["msg"]}
                line = compact({"error": error, "file": file}, ensure_ascii=False)
                yield {**run_row, "status": REFUSED, "stdout": [line]}
            elif table == "network_lists":
                yield {**run_row, "status": SUCCESS, "stdout": []}
            else:
                yield {**run_row, "later": True}


def cut_rows(row, lists):
    """The files of a row, cut off behind each of their bytes but the last, each as a run."""
    whole = {name: compact(content_of(it, lists)) for name, it in row["files"].items()}
    words = [it for it in row["words"] if not it.startswith("--")]
    error = {"cniVersion": "1.1.0", "code": 6, "details": "", "msg": "decoding failed"}
    for file, text in whole.items():
        for length in range(len(text)):
            files = {name: {"text": text[:length] if name == file else it} for name, it in whole.items()}
            run_row = {"name": f"{file} cut off behind {length} bytes", "files": files, "words": words}
            yield {**run_row, "status": REFUSED, "stdout": [compact({"error": error, "file": file})]}


def is_read(status, lines):
    if status != REFUSED:
        return status in (SUCCESS, FAILURE, COMMAND_MEMORY)
    error = json.loads(lines[0])["error"] if lines else ""
    return isinstance(error, dict) and LATER.fullmatch(error["msg"]) is not None


def trace_differences(row, trace):
    calls, replies = by_command(trace, "call"), by_command(trace, "reply")
    for number, made in row.get("calls", {}).items():
        got = calls.get(number, [])
        if (len(got) if isinstance(made, int) else got) != made:
            yield f"calls of command {number}: {got}"
    for number, due in row.get("replies", {}).items():
        if replies.get(number, []) != due:
            yield f"replies to command {number}: {replies.get(number, [])}"


def dump_differences(row, dump):
    read = [json.loads(line) for line in dump]
    if "owners" in row:
        got = sorted({tag for value in read if (tag := value.get("tag", "base")) not in ("base", "outside")})
        if got != row["owners"]:
            yield f"owners: {got}"
    for kind, due in row.get("objects", {}).items():
        got = [line for line, value in zip(dump, read) if value["kind"] == kind]
        if got != [expanded(line) for line in due]:
            yield f"objects {kind}: {json.dumps(got)}"
    if "dump" in row:
        got = [value["kind"] for value in read] if all(line.isalpha() for line in row["dump"]) else dump
        if got != [expanded(line) for line in row["dump"]]:
            yield f"dump: {json.dumps(got)}"


def differences(row, status, out):
    """What is other than expected, a text each."""
    if "later" in row:
        if not is_read(status, lines_of(out)):
            yield f"status {status}: {out.decode('utf-8')}"
        return
    if status != row["status"]:
        yield f"status {status} and not {row['status']}"
    lines = lines_of(out)
    if out and not out.endswith(b"\n"):
        yield "no line feed at the end"
    read = [json.loads(line) for line in lines]
    answers = [line for line, value in zip(lines, read) if "verb" in value]
    if "leased" in row:
        got = sorted(address for line in answers for address in LEASED.findall(line))
        if got != sorted(row["leased"]):
            yield f"leased: {got}"
        answers = [LEASED.sub("<LEASED>", line) for line in answers]
    last = answers[-len(row.get("ends_with", answers)) :]
    packets = [line for line, value in zip(lines, read) if "packet" in value]
    for key, got in (("stdout", lines), ("answers", answers), ("packets", packets), ("ends_with", last)):
        if key in row and got != [expanded(line) for line in row[key]]:
            yield f"{key}: {json.dumps(got)}"
    yield from trace_differences(row, [value for value in read if "call" in value])
    yield from dump_differences(row, [line for line, value in zip(lines, read) if "kind" in value])


def output_of(row):
    return open(row["stdout_to"], "wb") if "stdout_to" in row else contextlib.nullcontext(subprocess.PIPE)


def wrong_in(program, row, lists):
    files = {name: content_of(given, lists) for name, given in row.get("files", {}).items()}
    with output_of(row) as out:
        done = run_on(program, row["words"], files, out)
    return [*differences(row, done.returncode, done.stdout or b"")]


def main():
    program = program_of(sys.argv[1:])
    word = sys.argv[2] if len(sys.argv) > 2 else ""
    told, lists = worked_rows()
    cut = [it for row in told if row["name"] in CUT for it in cut_rows(row, lists)]
    rows = [row for row in [*told, *reader_rows(), *cut] if word in row["name"]]
    failed = count_failed((row["name"], wrong_in(program, row, lists)) for row in rows)
    print(f"rows: {len(rows) - failed} passed, {failed} failed")
    return 1 if failed or not rows else 0


if __name__ == "__main__":
    sys.exit(main())
