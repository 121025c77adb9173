"""Runs a program under ptrace, counts the changes that it and its children make to the machine, and can kill them all
right before one. A change is a message to the kernel that makes, sets or takes away links, addresses, routes or
neighbours; a batch of packet rules; a file below /var/lib/cni that is made, written, renamed or removed; and a write
below /proc/sys. For Linux on x86-64, without other tools.
"""

import ctypes
import os
import re
import signal
import struct

LIBC = ctypes.CDLL(None, use_errno=True)
LIBC.ptrace.argtypes = [ctypes.c_long, ctypes.c_long, ctypes.c_void_p, ctypes.c_void_p]
LIBC.ptrace.restype = ctypes.c_long

# requests of ptrace(2)
SYSCALL, SEIZE, INTERRUPT, LISTEN, GET_SYSCALL_INFO = 24, 0x4206, 0x4207, 0x4208, 0x420E
# stops of system calls told apart, forks, clones and exec followed, and all killed where the tracer ends
OPTIONS = 0x1 | 0x2 | 0x4 | 0x8 | 0x10 | 0x100000
AT_SYSCALL = signal.SIGTRAP | 0x80
GROUP_STOP = 128
ALL_CHILDREN = 0x40000000
INFO_SIZE = 88
AT_ENTRY = 1

# system calls by number
WRITE, SENDTO, SENDMSG, RENAME, MKDIR, UNLINK = 1, 44, 46, 82, 83, 87
OPENAT, MKDIRAT, UNLINKAT, RENAMEAT, RENAMEAT2 = 257, 258, 263, 264, 316
# the argument that has the path
PATH_OF = {MKDIR: 0, MKDIRAT: 1, UNLINK: 0, UNLINKAT: 1, RENAME: 1, RENAMEAT: 3, RENAMEAT2: 3}
SAID = {MKDIR: "mkdir", MKDIRAT: "mkdir", UNLINK: "unlink", UNLINKAT: "unlink"}
CREATE = 0o100
NETLINK = 16
MOST = 2048
STATE = "/var/lib/cni"
# messages of rtnetlink(7)
MESSAGES = {16: "link new", 17: "link del", 19: "link set", 20: "address new", 21: "address del"}
MESSAGES |= {24: "route new", 25: "route del", 28: "neighbour new"}
OF_LINKS = (16, 17, 19)
LINK_NAME = 3
RULES = re.compile(r"(^|/)(xtables-nft-multi|ip6?tables)")


def ptrace(request, pid, address=0, data=0):
    if LIBC.ptrace(request, pid, address, data) < 0:
        return -ctypes.get_errno()
    return 0


def memory(pid, address, size):
    try:
        with open(f"/proc/{pid}/mem", "rb", buffering=0) as file:
            file.seek(address)
            return file.read(size) or b""
    except OSError:
        return b""


def text_at(pid, address):
    return memory(pid, address, 256).split(b"\0")[0].decode(errors="replace")


def command_line(pid):
    try:
        with open(f"/proc/{pid}/cmdline", encoding="utf-8") as file:
            return file.read().replace("\0", " ").strip()
    except OSError:
        return ""


def link_name(message):
    """The name that a message on a link has among its attributes."""
    place = 32
    while place + 4 <= len(message):
        size, kind = struct.unpack_from("HH", message, place)
        if size < 4:
            break
        if kind == LINK_NAME:
            return message[place + 4 : place + size].split(b"\0")[0].decode(errors="replace")
        place += (size + 3) & ~3
    return ""


def message_of(pid, number, arguments):
    """The bytes that are sent to the kernel; none to others."""
    if number == SENDTO:
        family = memory(pid, arguments[4], 2) if arguments[4] else b""
        is_other = len(family) == 2 and struct.unpack("H", family)[0] != NETLINK
        return b"" if is_other else memory(pid, arguments[1], min(arguments[2], MOST))
    head = memory(pid, arguments[1], 56)
    if len(head) < 56:
        return b""
    start, size = struct.unpack("QQ", memory(pid, struct.unpack_from("Q", head, 16)[0], 16).ljust(16, b"\0"))
    return memory(pid, start, min(size, MOST))


def sent(pid, number, arguments):
    message = message_of(pid, number, arguments)
    if len(message) < 16:
        return None
    kind, line = struct.unpack_from("H", message, 4)[0], command_line(pid)
    if RULES.search(line.split(" ")[0]):
        return re.sub(r"^\S*/", "", line) if kind == NETLINK else None
    if kind not in MESSAGES:
        return None
    return f"{MESSAGES[kind]} {link_name(message) if kind in OF_LINKS else ''}".strip()


def written(pid, descriptor):
    try:
        path = os.readlink(f"/proc/{pid}/fd/{descriptor}")
    except OSError:
        return None
    return f"write {path}" if path.startswith((STATE, "/proc/sys")) else None


def change(pid, number, arguments):
    """What a system call changes, in words; none where it changes nothing."""
    if number in (SENDTO, SENDMSG):
        return sent(pid, number, arguments)
    if number == WRITE:
        return written(pid, arguments[0])
    if number == OPENAT:
        path = text_at(pid, arguments[1]) if arguments[2] & CREATE else ""
        return f"create {path}" if path.startswith(STATE) and not os.path.exists(path) else None
    if number not in PATH_OF:
        return None
    path = text_at(pid, arguments[PATH_OF[number]])
    if not path.startswith(STATE) or (number in (MKDIR, MKDIRAT) and os.path.exists(path)):
        return None
    return f"{SAID.get(number, 'rename')} {path}"


def begin(words, environment, given, enter):
    """A child that waits to be traced, and where it reads and writes."""
    (read_in, write_in), (read_out, write_out), (read_go, write_go) = os.pipe(), os.pipe(), os.pipe()
    pid = os.fork()
    if pid == 0:
        try:
            os.dup2(read_in, 0)
            os.dup2(write_out, 1)
            os.dup2(os.open("/dev/null", os.O_WRONLY), 2)
            os.read(read_go, 1)
            os.closerange(3, 64)
            enter()
            os.execve(words[0], words, environment)
        finally:
            os._exit(126)
    for it in (read_in, write_out, read_go):
        os.close(it)
    os.write(write_in, given)
    os.close(write_in)
    return pid, read_out, write_go


class Traced:
    """A traced program: the changes that it made, and whether it was killed before one."""

    def __init__(self, before):
        self.before, self.changes, self.killed, self.live = before, [], False, set()
        self.info = ctypes.create_string_buffer(INFO_SIZE)

    def look(self, pid):
        """Notes a change, or kills all before it."""
        told = LIBC.ptrace(GET_SYSCALL_INFO, pid, INFO_SIZE, ctypes.addressof(self.info))
        if told <= 0 or self.info.raw[0] != AT_ENTRY or self.killed:
            return
        number = struct.unpack_from("Q", self.info.raw, 24)[0]
        found = change(pid, number, struct.unpack_from("6Q", self.info.raw, 32))
        if found:
            self.changes.append(found)
            if len(self.changes) == self.before:
                self.killed = True
                for it in self.live:
                    os.kill(it, signal.SIGKILL)

    def follow(self, first):
        """Follows all of its processes to their end, and gives the status of the first."""
        status = None
        while self.live:
            try:
                pid, state = os.waitpid(-1, ALL_CHILDREN)
            except ChildProcessError:
                break
            self.live.add(pid)
            if os.WIFEXITED(state) or os.WIFSIGNALED(state):
                self.live.discard(pid)
                status = os.waitstatus_to_exitcode(state) if pid == first else status
                continue
            self.go_on(pid, os.WSTOPSIG(state), state >> 16)
        return status

    def go_on(self, pid, stop, event):
        if stop == AT_SYSCALL:
            self.look(pid)
        elif event == GROUP_STOP and stop in (signal.SIGSTOP, signal.SIGTSTP, signal.SIGTTIN, signal.SIGTTOU):
            ptrace(LISTEN, pid)
            return
        ptrace(SYSCALL, pid, 0, 0 if event or stop in (AT_SYSCALL, signal.SIGTRAP) else stop)


def traced(words, environment, given, before=None, enter=lambda: None):
    """The changes that a program makes, its status, none where it was killed right before the change of the number
    `before`, and what it wrote. The child calls `enter` first."""
    pid, output, go = begin(words, environment, given, enter)
    run = Traced(before)
    if ptrace(SEIZE, pid, 0, OPTIONS) < 0:
        raise OSError("a child can't be traced here")
    ptrace(INTERRUPT, pid)
    os.write(go, b"x")
    os.close(go)
    run.live.add(pid)
    status = run.follow(pid)
    with os.fdopen(output, "rb") as file:
        return run.changes, None if run.killed else status, file.read()
