"""The program, stopped at each call that it makes of the system: something can happen right before one, and one can be
answered otherwise than by the system. For Linux, where the program is one thread. On ARM that is untried: what stands for it here is
from the system's headers.
"""
import ctypes
import os
import platform
import signal
import socket
import struct
import subprocess

import outside


class X86:
    """The numbers of the calls that tests know by name, and where a process's registers have a call."""

    NAMES = {0: "read", 1: "write", 2: "open", 3: "close", 8: "lseek", 16: "ioctl", 41: "socket", 42: "connect", 44: "sendto", 45: "recvfrom", 54: "setsockopt",
             72: "fcntl", 73: "flock", 74: "fsync", 75: "fdatasync", 77: "ftruncate", 82: "rename", 86: "link", 87: "unlink", 91: "fchmod", 257: "openat",
             263: "unlink", 264: "renameat", 265: "link", 316: "renameat2", 332: "statx"}
    POKE, NUMBER, ANSWER, ARGUMENTS = 6, 8 * 15, 8 * 10, (8 * 14, 8 * 13, 8 * 12, 8 * 7)

    def put(self, process, place, value):
        ptrace(self.POKE, process, place, value)


class Arm:
    """The same of 64-bit ARM: its registers come and go as a whole, and a call's number is none of them."""

    NAMES = {25: "fcntl", 29: "ioctl", 32: "flock", 35: "unlink", 37: "link", 38: "renameat", 46: "ftruncate", 52: "fchmod", 56: "openat", 57: "close",
             62: "lseek", 63: "read", 64: "write", 82: "fsync", 83: "fdatasync", 198: "socket", 203: "connect", 206: "sendto", 207: "recvfrom", 208: "setsockopt",
             276: "renameat2", 291: "statx"}
    GET, SET, REGISTERS, COUNT = 0x4204, 0x4205, 1, 34
    NUMBER, ANSWER, ARGUMENTS = 0x404, 0, (0, 1, 2, 3)

    def put(self, process, place, value):
        if place == self.NUMBER:
            self.pass_on(self.SET, process, place, ctypes.c_int(value))
        else:
            registers = (ctypes.c_int64 * self.COUNT)()
            self.pass_on(self.GET, process, self.REGISTERS, registers)
            registers[place] = value
            self.pass_on(self.SET, process, self.REGISTERS, registers)

    def pass_on(self, request, process, which, data):
        """Hands over some of a process's registers: a place and a length tell where they are."""
        place = (ctypes.c_uint64 * 2)(ctypes.addressof(data), ctypes.sizeof(data))
        ptrace(request, process, which, ctypes.addressof(place))


PROCESSOR = {"x86_64": X86, "aarch64": Arm}.get(platform.machine(), X86)()

# Where in what a look tells of a file its number stands, of eight bytes, and its file system's number, of two times four.
INODE, DEVICE = 32, 136

TRACED, TO_NEXT_CALL, OPTIONS, CALL = 0, 24, 0x4200, 0x420E
TELL_CALLS, ENDS_WITH_US = 1, 0x100000
AT_A_CALL = signal.SIGTRAP | 0x80
IS_BEFORE = 1

LIBRARY = ctypes.CDLL(None, use_errno=True)
LIBRARY.ptrace.argtypes = [ctypes.c_long, ctypes.c_long, ctypes.c_long, ctypes.c_void_p]
LIBRARY.ptrace.restype = ctypes.c_long


def ptrace(request, process=0, place=0, data=None):
    if LIBRARY.ptrace(request, process, place, data) < 0:
        raise OSError(ctypes.get_errno(), "ptrace")


class Call:
    """A call that a process is about to make."""

    def __init__(self, process, number, arguments):
        self.process, self.name, self.arguments = process, PROCESSOR.NAMES.get(number), arguments

    def opened(self):
        """The name of the file that it opens, where it opens one."""
        return self.text(self.arguments[self.name == "openat"]) if self.name in ("open", "openat") else None

    def looked_at(self):
        """The name that it looks at, where it looks at one."""
        return self.text(self.arguments[1]) if self.name == "statx" else None

    def bytes(self, place, count):
        """As many bytes, or fewer, as stand at a place of the process's memory."""
        with open(f"/proc/{self.process}/mem", "rb") as memory:
            memory.seek(place)
            return memory.read(count)

    def text(self, place):
        """The text that stands there."""
        return self.bytes(place, 256).split(b"\0")[0].decode()

    def option(self):
        """The number that it gives a socket's option."""
        return int.from_bytes(self.bytes(self.arguments[3], 4), "little")

    def path(self):
        """What its first argument has open: a file's path, or what the system calls it."""
        return os.readlink(f"/proc/{self.process}/fd/{self.arguments[0]}")

    def file(self):
        """The same without the folder."""
        return os.path.basename(self.path())

    def takes(self, count):
        """A write is of so many bytes at most."""
        PROCESSOR.put(self.process, PROCESSOR.ARGUMENTS[2], min(count, self.arguments[2]))

    def waits_for_nothing(self):
        """A read of a socket is answered at once: by what has come, or as one whose time is over."""
        PROCESSOR.put(self.process, PROCESSOR.ARGUMENTS[3], self.arguments[3] | socket.MSG_DONTWAIT)

    def fails(self, error):
        """The system is not asked; the call's answer is this error."""
        PROCESSOR.put(self.process, PROCESSOR.NUMBER, -1)
        return -error

    def finds_another_file(self, place):
        """A look at a name finds a file of which the byte at a place, as told of it, is another one."""
        def after():
            with open(f"/proc/{self.process}/mem", "r+b", buffering=0) as memory:
                memory.seek(self.arguments[4] + place)
                byte = memory.read(1)[0]
                memory.seek(self.arguments[4] + place)
                memory.write(bytes([byte ^ 1]))
        return after


def follow(process, before):
    """Lets a process go on from call to call until it ends; returns how it ended."""
    os.waitpid(process, 0)
    ptrace(OPTIONS, process, 0, TELL_CALLS | ENDS_WITH_US)
    answer, sign, told = None, 0, ctypes.create_string_buffer(88)
    while True:
        ptrace(TO_NEXT_CALL, process, 0, sign)
        _, status = os.waitpid(process, 0)
        if not os.WIFSTOPPED(status):
            return os.waitstatus_to_exitcode(status)
        sign = os.WSTOPSIG(status)
        if sign != AT_A_CALL:
            continue
        sign = 0
        ptrace(CALL, process, len(told), told)
        is_before, number, *arguments = struct.unpack_from("=B23x7Q", told)
        if is_before == IS_BEFORE:
            answer = before(Call(process, number, arguments))
        elif callable(answer):
            answer()
        elif answer is not None:
            PROCESSOR.put(process, PROCESSOR.ANSWER, answer)


def run(words, before, seconds=60, **more):
    """Runs the program; `before` is told of each call before it is made, and what it returns is the call's answer in place of
    the system's, or is called once the system has answered. The thread that calls this follows the process, which is killed
    where it does not end in time."""
    how = {"stdin": subprocess.DEVNULL, "stdout": subprocess.PIPE, "stderr": subprocess.PIPE, **more}
    with subprocess.Popen([outside.PROGRAM, *words], **how, preexec_fn=lambda: (signal.alarm(seconds), ptrace(TRACED))) as process:
        process.returncode = follow(process.pid, before)
        out, err = (outside.text_of(pipe.read()) if pipe else "" for pipe in (process.stdout, process.stderr))
    return outside.Answer(process.returncode, out, err)


def is_possible():
    """Whether a process can be traced here, so that its calls can be told and answered."""
    calls = []
    try:
        return run(["--version"], lambda call: calls.append(call.name)).status == 0 and "write" in calls
    except (OSError, ValueError, struct.error):
        return False
