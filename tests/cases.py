"""What the tests share: a folder for each test, the program run in it, and a machine to load."""
import functools
import io
import multiprocessing
import os
import pty
import re
import shutil
import signal
import socket
import subprocess
import sys
import tempfile
import time
import unittest
from concurrent.futures import ProcessPoolExecutor

sys.path.insert(0, os.path.join(os.path.dirname(os.path.dirname(os.path.realpath(__file__))), "tools"))
import odt_peer
from lsi11 import RunningMachine
from outside import FIRST, LINE_FAILED, PROGRAM, TOP, Answer, HeldUp, bytes_of, run, run_often

# The tapes that the tests name, by the names that they have in a test's folder.
TAPES = {
    "first.lda": FIRST,
    "no-word.lda": f"{TOP}/examples/losses/no-start.lda",
    "two-words.lda": f"{TOP}/tests/tapes/two-words.lda",
    "bad-sum.lda": f"{TOP}/examples/refused/bad-sum.lda",
}

# A silence long enough for a console on this computer, one for a test that failed and runs by itself, and one that is so on a computer
# which is very busy.
QUIET, PATIENT_QUIET, LONG_QUIET = 200, 1000, 3000


class Keeping:
    """A machine that keeps which keys were typed at it, and when, and how many characters it answered."""

    # The machines of the test under way.
    made = []

    # What is typed behind the start, where a test says that something is; None where nobody asks.
    behind_start = ""

    # The keys of the start; where others are started before the program, its address belongs to them.
    start_keys = "G"

    def __init__(self, words=28672, memory=None, style=0, says=()):
        super().__init__(words, style, says)
        self.typed, self.times, self.answered = "", [], 0
        Keeping.made.append(self)
        for address, value in (memory or {}).items():
            self.words[address // 2] = value

    # A text that grows by a key would be copied for each of a load's two hundred thousand.
    @property
    def typed(self):
        return self.kept.getvalue()

    @typed.setter
    def typed(self, text):
        self.kept = io.StringIO()
        self.kept.write(text)

    def take(self, key):
        self.kept.write(key)
        self.times.append(time.monotonic())
        answer = super().take(key)
        self.answered += len(answer)
        return answer

    def go_on(self):
        answer = super().go_on()
        self.answered += len(answer)
        return answer


class Losing:
    """A machine behind a line that loses one character: the key or the answer's character that comes as this one."""

    def __init__(self, lost_key=None, lost_answer=None, **named):
        super().__init__(**named)
        self.lost_key, self.lost_answer = lost_key, lost_answer

    def take(self, key):
        if len(self.typed) == self.lost_key:
            self.typed += key
            return ""
        return self.passed(self.answered, super().take(key))

    def go_on(self):
        return self.passed(self.answered, super().go_on())

    def passed(self, before, answer):
        """What passes of an answer, before which so many characters were answered."""
        place = None if self.lost_answer is None else self.lost_answer - before
        return answer if place is None or not 0 <= place < len(answer) else answer[:place] + answer[place + 1:]


class Console(Keeping, odt_peer.Machine):
    """ODT, as docs/CONSOLE.md has it."""


class LossyConsole(Losing, Console):
    """ODT behind such a line."""


class RunningConsole(Keeping, RunningMachine):
    """ODT, and the program that is started runs, which is what the keys behind the start are for."""

    behind_start = None


class LossyRunningConsole(Losing, RunningConsole):
    """The same behind such a line."""


class StoringConsole(Losing, Keeping, odt_peer.StoringMachine):
    """An illegal key stores the digits that were typed."""


class SlowConsole(Console):
    """It takes its time for each key."""

    def take(self, key):
        time.sleep(0.01)
        return super().take(key)


class DeafConsole(Keeping, odt_peer.DeadMachine):
    """It answers nothing."""


class LateConsole(Console):
    """It answers its fifth key late."""

    def __init__(self, seconds):
        super().__init__()
        self.seconds = seconds

    def take(self, key):
        answer = super().take(key)
        if len(self.typed) == 5:
            time.sleep(self.seconds)
        return answer


class BabblingPeer(odt_peer.Peer):
    """Before it is a console, it sends so many characters that nobody asked for."""

    def __init__(self, machine, count):
        super().__init__(machine)
        self.babble = count

    def talk(self, receive, send):
        send(b"@" * self.babble)
        return super().talk(receive, send)


def heed_signals():
    """In a process that begins: it heeds what a gate in the background, or one that outlives its terminal, does not."""
    for number in (signal.SIGINT, signal.SIGHUP):
        signal.signal(number, signal.SIG_DFL)


def pace(words):
    """The two lines of a probe's pace, without what varies in them."""
    return f"a key and a load of {words} words"


def timeless(text):
    """What a probe has printed, with its pace so."""
    return re.sub(r"^key \d+\.\d ms\na load of (\d+) words takes \d+ (?:seconds|minutes|hours) at this pace$", pace(r"\1"), text, flags=re.MULTILINE)


class Noted(unittest.TestResult):
    """A result that is told to another one later, if at all."""

    def __init__(self):
        super().__init__()
        self.told = []

    def tell(self, result):
        for name, *rest in self.told:
            getattr(result, name)(*rest)


def noting(name):
    def note(self, *rest):
        self.told.append((name, *rest))
        getattr(unittest.TestResult, name)(self, *rest)
    return note


for it in ("startTest", "stopTest", "addSuccess", "addError", "addFailure", "addSkip", "addSubTest"):
    setattr(Noted, it, noting(it))


class Case(unittest.TestCase):
    """A test with a folder of its own, in which the program is run.

    A test that counts mishaps is right only where no answer of its machine was late. So one that fails while this
    computer held it up for a tenth of the quiet time is run once more, with a quiet time that is ten times as long as that.
    """

    quiet = QUIET

    # What a load asks for where its test says nothing else.
    usual = "first.lda"

    def run(self, result=None):
        result = result if result is not None else self.defaultTestResult()
        noted, watch = Noted(), HeldUp()
        watch.start()
        super().run(noted)
        watch.is_over = True
        if not noted.wasSuccessful() and watch.longest * 1000 > self.quiet / 10:
            print(f"held up: {self.id()}, for {watch.longest * 1000:.0f} ms; once more", flush=True)
            self.quiet = min(LONG_QUIET, max(3 * self.quiet, round(10_000 * watch.longest)))
            noted = Noted()
            super().run(noted)
        noted.tell(result)
        return result

    def setUp(self):
        self.room = tempfile.mkdtemp(prefix="outside-")
        self.addCleanup(shutil.rmtree, self.room)
        Keeping.made.clear()
        self.addCleanup(self.were_started_once)

    def were_started_once(self):
        """Asserts of each machine of the test, whatever that is about: its program's start was typed once at most, and
        nothing behind it but what the test says."""
        for machine in Keeping.made:
            if machine.behind_start is not None:
                self.is_so(machine.typed.partition(machine.start_keys)[2], machine.behind_start)

    def path(self, name):
        return os.path.join(self.room, name)

    def put(self, name, data):
        """Puts a file into the test's folder."""
        with open(self.path(name), "wb") as file:
            file.write(data)

    def put_tapes(self, *names):
        for name in names:
            shutil.copyfile(TAPES[name], self.path(name))

    def ldaodt(self, words, keys=b"", **more):
        """Runs the program in the test's folder; words that stand in one text have no spaces in them."""
        words = words.split() if isinstance(words, str) else words
        return run(words, keys, cwd=self.room, seconds=300, **more)

    def words_at(self, line, command, quiet=None):
        """The words of a command at a line, for which LINE stands."""
        return [*(line.address if it == "LINE" else it for it in command.split()), "--quiet", str(quiet or self.quiet)]

    def load_words(self, line, words=None, quiet=None):
        """The words of a load at a line; these are the tape and all that stands behind LINE."""
        tape, _, more = (words or self.usual).partition(" ")
        return self.words_at(line, f"load {tape} LINE {more}", quiet)

    def load(self, line, words=None, quiet=None, **more):
        """Loads at a line."""
        given = self.ldaodt(self.load_words(line, words, quiet), **more)
        line.settle()
        return given

    def begin(self, words):
        """Begins a run of the program in the test's folder, which the test then meets on its way, and which ends with it."""
        process = subprocess.Popen([PROGRAM, *words], cwd=self.room, stdin=subprocess.DEVNULL, stdout=subprocess.PIPE, stderr=subprocess.PIPE, text=True,
                                   preexec_fn=heed_signals)
        self.addCleanup(self.let_go, process)
        return process

    def let_go(self, process):
        """Ends a run that has not ended."""
        process.kill()
        process.wait()
        for end in (process.stdout, process.stderr):
            if end:
                end.close()

    def until(self, is_so):
        """Waits until something is so."""
        end = time.monotonic() + 60
        while not is_so():
            self.assertLess(time.monotonic(), end, "it never came to that")
            time.sleep(0.002)

    def is_so(self, given, wanted):
        """Asserts that what came is what was wanted, and shows no more of either than a person would read: unittest
        would look for what differs in a mebibyte, too, and not come to an end. Whether a line that the other end closes is at
        its end or broken depends on what was under way."""
        if given != wanted and as_closed(given) != as_closed(wanted):
            self.fail(f"it is\n  {given!r:.2000}\nand not\n  {wanted!r:.2000}")

    def ends(self, given, status, out="", err=""):
        """Asserts how a run ended."""
        self.is_so(given, Answer(status, out, err))

    def leads_nowhere(self, given, address):
        """Asserts that a run could not connect to an address, and says why: what a resolver says of a name is its own."""
        first, why, *rest = given.err.split("\n")
        self.is_so((given.status, given.out, first, why[:8], rest), (4, "", f"ldaodt: cannot connect to {address}", "ldaodt: ", [""]))

    def console_at(self, machine, **named):
        """Puts a machine behind a port; `named` says after how many characters the line breaks."""
        return self.until_the_end(odt_peer.Peer(machine, **named))

    def at_a_terminal(self, load):
        """Does a load whose standard error is a terminal, which it is given; returns the answer, and all that came to
        the terminal, which writes a return before each line feed."""
        ours, theirs = pty.openpty()
        try:
            given = load(theirs)
        finally:
            os.close(theirs)
        shown = b""
        try:
            while piece := os.read(ours, 4096):
                shown += piece
        except OSError:
            pass  # Linux ends a terminal that nobody has open so.
        os.close(ours)
        return given, shown.decode()

    def device_at(self, machine, **named):
        """Puts a machine at a serial device; `named` says how it is set, and after how many characters it hangs up."""
        return self.until_the_end(odt_peer.Device(machine, **named))

    def until_the_end(self, line):
        """Closes a line to a machine once the test is over."""
        self.addCleanup(line.close)
        self.addCleanup(line.settle)
        line.address = line.name
        return line

    def lines(self, machine, **named):
        """The two kinds of line to such a machine, each with one of its own."""
        yield self.console_at(machine(), **named)
        yield self.device_at(machine(), **named)

    def taken_port(self):
        """An address at which nobody listens, and which nobody else can have."""
        taken = socket.socket()
        self.addCleanup(taken.close)
        taken.bind(("127.0.0.1", 0))
        return f"127.0.0.1:{taken.getsockname()[1]}"

    def holds(self, files):
        """Asserts that the test's folder has these files, and no others but tapes."""
        there = {name: bytes_of(self.path(name)).decode() for name in os.listdir(self.room) if name not in TAPES}
        self.is_so(there, files)

    def leaves_what_is_there(self, refuses, *more):
        """Asserts that no file that is there becomes another one, whatever it is: `refuses` tries a name, and is told what
        has to be said of it."""
        self.put("plain", b"hello")
        self.put("empty", b"")
        os.mkdir(self.path("folder"))
        os.mkfifo(self.path("pipe"))
        os.symlink("nowhere", self.path("link"))
        there = set(os.listdir(self.room))
        for name in ("plain", "empty", "folder", "pipe", "link", "/dev/null", ".", *more):
            with self.subTest(name):
                refuses(name, f"{name} is there already")
        self.is_so((bytes_of(self.path("plain")), bytes_of(self.path("empty")), set(os.listdir(self.room))), (b"hello", b"", there))


def as_closed(given):
    """What came, with a line that was broken, or took no key any more, taken for one that was closed."""
    return repr(given).replace(LINE_FAILED["receive"], LINE_FAILED["closed"]).replace(LINE_FAILED["send"], LINE_FAILED["closed"])


PROCESSES = 4


def answer_at(words, path):
    return run_often([*words, path])


def each_file(room, words, names):
    """Runs the program once for each of these files in a folder, with its path behind these words; returns the answers.
    Processes of their own start it, so that thousands of runs take seconds."""
    with ProcessPoolExecutor(PROCESSES, multiprocessing.get_context("fork")) as pool:
        return list(pool.map(functools.partial(answer_at, words), [os.path.join(room, name) for name in names], chunksize=16))


def changes(text, others):
    """A text cut at each byte, and with each byte changed to each of the others, left out, or doubled."""
    found = {text[:length] for length in range(len(text) + 1)}
    for place, byte in enumerate(text):
        before, after = text[:place], text[place + 1:]
        found.update(before + bytes([other]) + after for other in others)
        found.update((before + after, before + bytes([byte, byte]) + after))
    return sorted(found)
