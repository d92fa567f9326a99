"""The built program, run from outside: what tests/ and tools/hostile share."""
import collections
import errno
import glob
import os
import re
import select
import shutil
import signal
import subprocess
import sys
import tempfile
import threading
import time

TOP = os.path.dirname(os.path.dirname(os.path.realpath(__file__)))
PROGRAM = f"{TOP}/ldaodt"
FIRST = f"{TOP}/examples/first.lda"
HELLO = f"{TOP}/examples/hello.lda"
BAD_TAPE = f"{TOP}/examples/refused/bad-sum.lda"
LOST_DIGIT = f"{TOP}/examples/losses/third-digit-lost.script"
NO_OUTPUT = "ldaodt: cannot write output\n"

# Why a line failed, and what stands behind the system's words where there is no connection.
LINE_FAILED = {
    "send": "a key could not be sent: is its output stopped, or the other end gone?",
    "closed": "the other end closed it, or the adapter was pulled",
    "receive": "nothing more could be read: was the adapter pulled?",
    "noise": "nothing but zeroes came: are speed and parity the console's?",
}
HINTS = {
    errno.ENOENT: ": 'ls /dev/tty*' shows what is there",
    errno.EACCES: ": you may lack the group dialout",
    errno.ECONNREFUSED: ": nobody listens there",
    errno.EINVAL: ": LINE is HOST:PORT or a path with a slash",
}
NO_TERMINAL, IN_USE = "no terminal", "in use by another program: 'fuser -v' shows which"
NO_ADDRESS, NO_PORT = (f"invalid {it}{HINTS[errno.EINVAL]}" for it in ("socket address", "port value"))


def fault(text, why=None):
    """What standard error has of a fault, and where there is a reason a second line: the program's words, or a number of
    the system's errors."""
    if isinstance(why, int):
        why = os.strerror(why) + (HINTS.get(why, "") if text.startswith("cannot connect") else "")
    return f"ldaodt: {text}\n" + (f"ldaodt: {why}\n" if why else "")


def line_failed(why):
    """The same of a line that failed."""
    return fault("line failed", LINE_FAILED[why])


def came_changed(count):
    """The line that tells of so many characters which no loss explains; none where there are none."""
    many = "1 character" if count == 1 else f"{count} characters"
    return f"ldaodt: {many} came changed, or not from ODT: docs/REAL-MACHINE.md, step 7\n" if count else ""


def beside_changes(given):
    """An answer without such a line, which is its last on standard error."""
    return given and given._replace(err=re.sub(came_changed(r"\d+").replace("characters", "characters?").replace(".md", r"\.md") + r"\Z", "", given.err))


NO_MEMORY = "ldaodt: out of memory\n"

Answer = collections.namedtuple("Answer", "status out err")


def text_of(written):
    """What was written, as a text in which each byte can still be told."""
    return written.decode("utf-8", "surrogateescape")


# Starts a program that can't write past a place in a file, and is not killed for trying.
SMALL_FILES = """
import os, resource, signal, sys
signal.signal(signal.SIGXFSZ, signal.SIG_IGN)
resource.setrlimit(resource.RLIMIT_FSIZE, (int(sys.argv[1]), int(sys.argv[1])))
os.execv(sys.argv[2], sys.argv[2:])
"""


def late(words, seconds):
    """What is said of a run that was ended, since it took longer than that: which it was."""
    said = " ".join(text_of(it) if isinstance(it, bytes) else it for it in words)
    return Answer(None, "", f"ldaodt {said:.300} did not end within {seconds} seconds")


def run(words, keys=b"", before="", file_size=None, name=PROGRAM, starter=(), setup=None, seconds=120, **more):
    """Runs ldaodt on these words and keys: after redirections by a shell, with a limit to how long a file may get,
    under another name, by another command that starts it, or after a setup of the process."""
    command = [*starter, name, *(it if isinstance(it, bytes) else it.encode() for it in words)]
    if before:
        command = ["bash", "-c", f'exec "$@" {before}', "bash", *command]
    elif file_size is not None:
        command = [sys.executable, "-c", SMALL_FILES, str(file_size), *command]
    elif name != PROGRAM:
        more["executable"] = PROGRAM
    given = {"stdout": subprocess.PIPE, "stderr": subprocess.PIPE, **({} if "stdin" in more else {"input": keys}), **more}
    try:
        ran = subprocess.run(command, preexec_fn=setup, timeout=seconds, **given)
    except subprocess.TimeoutExpired:
        return late(words, seconds)
    return Answer(ran.returncode, text_of(ran.stdout or b""), text_of(ran.stderr or b""))


def run_often(words, stdin=None, keys=b"", seconds=120):
    """The same for who runs ldaodt thousands of times, in half the time: its streams are files in memory, but for a
    standard input that is given."""
    files = [os.memfd_create(name) for name in ("stdin", "stdout", "stderr")]
    try:
        os.write(files[0], keys)
        os.lseek(files[0], 0, os.SEEK_SET)
        streams = [files[0] if stdin is None else stdin.fileno(), *files[1:]]
        actions = [(os.POSIX_SPAWN_DUP2, file, number) for number, file in enumerate(streams)]
        status = status_of(os.posix_spawn(PROGRAM, [PROGRAM, *words], os.environ, file_actions=actions), seconds)
        if status is None:
            return late(words, seconds)
        return Answer(status, *(text_of(os.pread(file, os.fstat(file).st_size, 0)) for file in files[1:]))
    finally:
        for file in files:
            os.close(file)


def status_of(process, seconds):
    """The status with which a process ends; none where it had to be killed after so many seconds."""
    waiting, told = select.poll(), os.pidfd_open(process)
    waiting.register(told, select.POLLIN)
    has_ended = bool(waiting.poll(seconds * 1000))
    os.close(told)
    if not has_ended:
        os.kill(process, signal.SIGKILL)
    status = os.waitstatus_to_exitcode(os.waitpid(process, 0)[1])
    return status if has_ended else None


def block(address, data):
    """A block of a tape; without data it is the transfer block."""
    head = [1, 0, (len(data) + 6) & 255, (len(data) + 6) >> 8, address & 255, address >> 8, *data]
    return bytes([*head, -sum(head) & 255])


def tape_of(blocks, start=1):
    """The plain tape of blocks, each an address and its bytes. An odd start is none."""
    return b"".join(block(*one) for one in [*blocks, (start, b"")])


def bytes_of(path):
    """What a file holds; none where it is not there."""
    try:
        with open(path, "rb") as file:
            return file.read()
    except FileNotFoundError:
        return b""


def kept_in(path):
    """What a record tells, of either version: its words as address, mask and value, and whether the mark is there."""
    lines = bytes_of(path).decode("latin-1").split("\n")
    whole, torn, words, mark = lines[:-1], lines[-1], [], False
    if not whole:
        return [], False
    if whole[0] not in ("LDAODT 1", "LDAODT 2"):
        raise ValueError(f"a record begins with {whole[0]!r}")
    for line in whole[1:]:
        fields = line.split(" ")
        if line == "G":
            mark = True
        elif whole[0] == "LDAODT 1":
            words.append(tuple(int(it, 8) for it in fields))
        elif fields[0] == "H":
            words.append(tuple(int(it, 8) for it in fields[1:]))
        else:
            words.extend((int(fields[0], 8) + 2 * i, 0o177777, int(it, 8)) for i, it in enumerate(fields[1:]))
    if whole[0] == "LDAODT 2" and torn[:1] in "01":
        address, *values = torn.split(" ")
        words.extend((int(address, 8) + 2 * i, 0o177777, int(it, 8)) for i, it in enumerate(values) if len(it) == 6)
    return words, mark


# ---------------------------------------------------------------- a busy computer

class HeldUp(threading.Thread):
    """A watch that looks at the clock every few milliseconds, and knows for how long this process did not run at most:
    so long an answer of its machines may have been late."""

    def __init__(self, pause=0.005):
        super().__init__(daemon=True)
        self.pause, self.longest, self.is_over = pause, 0.0, False

    def run(self):
        last = time.monotonic()
        while not self.is_over:
            time.sleep(self.pause)
            now = time.monotonic()
            self.longest, last = max(self.longest, now - last - self.pause), now


# ---------------------------------------------------------------- want of memory

PAGE = 4 << 10
MOST = 256 << 20


class Loader:
    """The system's loader, which tells in a file whether it gave the program control.

    Where memory is too short for that, it is the loader that fails or is killed, and not the program.
    """

    def __init__(self):
        self.room = tempfile.mkdtemp(prefix="loader-")

    def start(self, once, size):
        """Runs the program once with so many bytes of address space; returns whether it began, and its answer."""
        env = {**os.environ, "LD_DEBUG": "files", "LD_DEBUG_OUTPUT": f"{self.room}/told"}
        starter = [] if size is None else ["prlimit", f"--as={size}:{size}"]
        try:
            given = once(starter, env)
        except subprocess.SubprocessError:
            given = None
        has_begun = False
        for name in glob.glob(f"{self.room}/told.*"):
            with open(name, encoding="latin-1") as file:
                has_begun |= f"transferring control: {PROGRAM}\n" in file.read()
            os.remove(name)
        return has_begun, given

    def least(self, once):
        """The fewest bytes, in whole pages, with which the program begins."""
        too_few, enough = 0, MOST
        while enough - too_few > PAGE:
            middle = (too_few + enough) // 2 // PAGE * PAGE
            has_begun, _ = self.start(once, middle)
            too_few, enough = (too_few, middle) if has_begun else (middle, enough)
        return enough

    def close(self):
        shutil.rmtree(self.room)


def is_want(given, whole):
    """Whether a run ended for want of memory as it has to, where the other had ample memory."""
    return given is not None and given.status == 7 and given.err == NO_MEMORY and whole.out.startswith(given.out)


def sweep(once, whole, step=PAGE, enough=64):
    """Runs the program with more and more memory: `once` does it, with a command that starts it and an environment.

    From the least with which it begins at all, until it has ended as with ample memory so many times in
    turn. In between nothing is right but status 7 with its line, and a front of the output. Returns how often
    memory was wanting, and what was wrong, if anything was.
    """
    loader = Loader()
    try:
        has_begun, ample = loader.start(once, None)
        if not has_begun or ample != whole:
            return 0, f"with no limit: {ample}, {'begun' if has_begun else 'and the loader told of no beginning'}"
        wanting = in_turn = 0
        size = loader.least(once)
        while in_turn < enough and size < MOST:
            has_begun, given = loader.start(once, size)
            if given == whole:
                in_turn += 1
            elif is_want(given, whole):
                wanting, in_turn = wanting + 1, 0
            elif has_begun:
                return wanting, f"with {size >> 10} KiB: {given}"
            size += step
        return wanting, None if in_turn == enough else f"not ample with {size >> 10} KiB"
    finally:
        loader.close()
