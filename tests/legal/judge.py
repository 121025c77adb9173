#!/usr/bin/env python3
"""Whether a run is lawful: each entry of its trace is the next call of its command, given the replies so far, and is
replied as the kernel must after the calls before it; rounds come in order, and in a round the commands of a container
in file order; stops and faults are where they were asked for; and answers, status, requests and dump follow.

A model of its own says so (kernel.py, plugins.py, scripts.py), which knows nothing of the program's sources.

    cnitool --trace WORDS | judge.py --trace WORDS

says it of one run, by what that prints, and ends with 1 where it isn't lawful.
"""

import json
import pathlib
import sys

sys.dont_write_bytecode = True

from kernel import FAULT, Host
from plugins import NetList, without_null
from protocol import request_lines
from scripts import script_of

SUCCESS, FAILURE = 0, 1


def line_of(value):
    return json.dumps(value, sort_keys=True, separators=(",", ":"), ensure_ascii=False)


class Command:
    """A command as it is carried out: how many calls it made, and its next call, or its answer where it is over."""

    def __init__(self, number, place, given, script):
        self.number, self.round, self.given, self.script = number, place, given, script
        self.container = given.get("container", "")
        self.made, self.call, self.answer = 0, None, None
        self.resume(None)

    def resume(self, reply):
        try:
            self.call = self.script.send(reply)
        except StopIteration as end:
            self.call, self.answer = None, end.value
        if "stop" in self.given and self.made >= self.given["stop"]:
            self.halt()

    def halt(self):
        """A command that has a call to make is stopped before it."""
        if self.call is not None:
            self.call, self.answer = None, {"stopped": self.made}

    def is_fault(self):
        return self.made + 1 in self.given.get("faults", [])

    def line(self):
        return line_of({**self.answer, "n": self.number, "verb": self.given["verb"]})


class Entry:
    """An entry of the trace, with the host before it and after it."""

    def __init__(self, command, call, before):
        self.command, self.call, self.before = command, call, before
        self.reply, self.after = None, None


class Run:
    """A run, carried out again entry by entry as its trace tells."""

    def __init__(self, pods, lists, words=()):
        pods = without_null(pods)
        self.lists = {it.name: it for it in map(NetList, lists)}
        self.host, self.stop_at = Host(pods.get("opening", {})), number_of(words, "--stop-at")
        self.is_alone = number_of(words, "--threads") in (None, 1)
        self.opening = self.host.copy()
        self.rounds, self.commands, self.entries, self.round = [], [], [], 0
        for place, given in enumerate(pods["rounds"]):
            first = len(self.commands) + 1
            self.rounds.append([Command(k, place, it, self.script(it)) for k, it in enumerate(given, first)])
            self.commands += self.rounds[-1]

    def script(self, given):
        return script_of(self.lists, given)

    def close_rounds(self):
        """Each round of which all commands are over."""
        while self.round < len(self.rounds) and all(it.call is None for it in self.rounds[self.round]):
            self.round += 1

    def wrong_turn(self, command):
        """Why the command may not make a call now."""
        self.close_rounds()
        if command.round != self.round:
            return "its round isn't current"
        ahead = [it for it in self.rounds[self.round] if it.number < command.number]
        if any(it.container == command.container and it.call is not None for it in ahead):
            return "an earlier command of its container isn't over"
        return "its command is over" if command.call is None else None

    def make(self, command):
        """The value of the line of its next call, which is made."""
        entry = Entry(command, command.call, self.host.copy())
        name, *given = command.call
        entry.reply = FAULT if command.is_fault() else getattr(self.host, name)(*given)
        entry.after = self.host.copy()
        self.entries.append(entry)
        command.made += 1
        command.resume(entry.reply)
        if len(self.entries) == self.stop_at:
            for it in self.rounds[command.round]:
                it.halt()
        return {"call": name, "i": len(self.entries), "n": command.number, "reply": entry.reply[0]}

    def step(self, told):
        """What is wrong with the next entry, told as the value of its line."""
        if not 1 <= told.get("n", 0) <= len(self.commands):
            return "no such command"
        command = self.commands[told["n"] - 1]
        wrong = self.wrong_turn(command)
        if wrong:
            return wrong
        due = self.make(command)
        return None if told == due else f"due is {line_of(due)}"

    def status(self):
        failed = any("error" in it.answer or "stopped" in it.answer for it in self.commands)
        return FAILURE if failed else SUCCESS

    def open_commands(self):
        return [it.number for it in self.commands if it.call is not None]


def number_of(words, option):
    return int(words[words.index(option) + 1]) if option in words else None


def parts_of(lines):
    """The lines of the answers, of the requests, of the trace and of the dump."""
    values = [json.loads(it) for it in lines]
    keys = ("verb", "request", "call", "kind")
    return [[it for it, value in zip(lines, values) if key in value] for key in keys]


def differences(what, got, due):
    """The first line that is another than due."""
    for place, (line, it) in enumerate(zip(got, due), 1):
        if line != it:
            yield f"{what} {place} is {line}, due is {it}"
            return
    if len(got) != len(due):
        yield f"{len(got)} lines of {what}, due are {len(due)}"


def complaints(run, words, status, lines):
    """What isn't lawful, a text each; the run is carried out as far as it is. The words ask for a trace. No status is
    given where it isn't known."""
    answers, requests, trace, dump = parts_of(lines)
    if lines != [*answers, *requests, *trace, *dump]:
        yield "lines of another kind or order"
    for line in trace:
        wrong = run.step(json.loads(line))
        if wrong or line_of(json.loads(line)) != line:
            yield f"{line}: {wrong or 'its keys are in another order'}"
            return
    if run.open_commands():
        yield f"commands {run.open_commands()} aren't over at the end"
        return
    yield from differences("answer", answers, [it.line() for it in run.commands])
    if status not in (None, run.status()):
        yield f"status {status}, due is {run.status()}"
    yield from differences("request", requests, [*map(line_of, request_lines(run))] if "--requests" in words else [])
    yield from differences("dump", dump, [*map(line_of, run.host.dump())] if "--dump" in words else [])


def files_in(words):
    """The files among the program's words."""
    numbers = [place + 1 for place, it in enumerate(words) if it in ("--threads", "--stop-at")]
    return [it for place, it in enumerate(words) if place not in numbers and not it.startswith("--")]


def tell(run, words):
    """Prints what isn't lawful of the run, by the lines that come in; 1 where something isn't."""
    lines = sys.stdin.read().split("\n")[:-1]
    wrong = [*complaints(run, words, None, lines)]
    for it in wrong:
        print(it)
    print(f"judge: {len(run.entries)} calls, {'not lawful' if wrong else 'lawful'}")
    return 1 if wrong else 0


def read(file):
    return json.loads(pathlib.Path(file).read_text(encoding="utf-8"))


def main():
    words = sys.argv[1:]
    pods, *lists = map(read, files_in(words))
    return tell(Run(pods, lists, words), words)


if __name__ == "__main__":
    sys.exit(main())
