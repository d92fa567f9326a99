"""Want of memory: each command with more and more of it, from the least with which it begins to where it is ample.

It ends with its ample answer, or with status 7, the line that says so, and a front of its ample output: never
by a signal, and never in another way.
"""
import multiprocessing
import os
import resource
import subprocess
import tempfile
import unittest
from concurrent.futures import ProcessPoolExecutor, ThreadPoolExecutor

from cases import Case, Console, timeless
from commands import AT_A_MACHINE, READING
from outside import FIRST, PAGE, PROGRAM, Answer, block, bytes_of, is_want, run, sweep

# Words of a large tape, which is loaded at 001000 and starts there: more than what the program has room for at once.
LARGE = [(0o1000 + 2 * place, 0o12345 + place) for place in range(5000)]

# The records say that the start was typed in an earlier life.
FILES = {
    "small.lda": bytes_of(FIRST),
    "small.script": b"clean",
    "small.record": b"LDAODT 2\n001000 011064\nG\n",
    "large.lda": block(0o1000, b"".join(value.to_bytes(2, "little") for _, value in LARGE)) + block(0o1000, b""),
    "full.lda": block(0, b"\x55" * 57344) + block(0, b""),
    "wordless.lda": block(1, b""),
    "blocks.lda": b"".join(block(2 * place, b"\1") for place in range(5000)) + block(1, b""),
    "large.script": b"# nothing\n" * 20000 + b"clean",
    "large.record": "".join(["LDAODT 1\n", *(f"{address:06o} 177777 {value:06o}\n" for address, value in LARGE), "G\n"]).encode(),
}

# Command lines, what stands on standard input, and the status with ample memory. Nothing is connected to: a load or a look has its
# end already, or nobody answers. First those of each command of a kind, then those of one alone, of help and of refusals.
LINES = (
    *((it.line("small.lda", "small.lda", script="small.script"), b"", 0) for it in READING),
    *((it.line("large.lda", "large.lda", script="large.script"), b"", 0) for it in READING),
    *((it.line("small.lda", line="127.0.0.1:1"), b"", 4) for it in AT_A_MACHINE),
    *((it.line("full.lda", line="./nothing"), b"", 4) for it in AT_A_MACHINE),
    ("", FILES["small.lda"], 0),
    ("", FILES["large.lda"], 0),
    ("check --blocks large.lda blocks.lda", b"", 0),
    ("make new.lda", b"1000/1\n" * 5000 + b"1001 1\n", 3),
    ("make small.lda", b"0 " + b"125 " * 28672, 4),
    ("dialogue small.lda --words 512", b"", 0),
    ("dialogue large.lda", b"", 0),
    ("rehearse small.lda small.script", b"", 0),
    ("rehearse large.lda large.script small.lda", b"", 0),
    ("type --words 512", b"001000/", 0),
    ("type", b"001000/" * 10000, 0),
    ("load --record small.record small.lda [::1]:1", b"", 6),
    ("load --record large.record large.lda [::1]:1", b"", 6),
    ("load full.lda 127.0.0.1:1 --record none.record", b"", 4),
    ("verify wordless.lda [::1]:1", b"", 0),
    ("save new.lda 127.0.0.1:1 0 157776", b"", 4),
    ("help load", b"", 0),
    ("load small.lda", b"", 2),
    ("x" * 100000, b"", 2),
    ("\x1b" * 20000, b"", 2),
)

# The same where so few files may be open, two of the loader's among them, that each but the last is read ahead.
FILES_OPEN = 6
READ_AHEAD = (
    ("check full.lda full.lda full.lda small.lda", b"", 0),
    ("rehearse small.lda large.script small.lda small.lda small.lda", b"", 0),
)

PROCESSES = 4
FEWEST = 20


def may_open_few():
    resource.setrlimit(resource.RLIMIT_NOFILE, (FILES_OPEN, FILES_OPEN))


def swept(line):
    """Runs a command line with more and more memory; returns how often it was wanting, and what was wrong."""
    words, keys, status = line
    setup = may_open_few if line in READ_AHEAD else None
    with tempfile.TemporaryDirectory(prefix="scarce-") as room:
        for name, data in FILES.items():
            with open(os.path.join(room, name), "wb") as file:
                file.write(data)
        once = lambda starter=(), env=None: run(words.split(), keys, starter=starter, env=env, setup=setup, cwd=room, seconds=60)
        whole = once()
        if whole.status != status:
            return 0, f"with no limit: {whole}"
        return sweep(once, whole, enough=16)


class Memory(Case):
    """Several processes try the command lines."""

    def test_each_command_with_more_and_more_memory(self):
        with ProcessPoolExecutor(PROCESSES, multiprocessing.get_context("fork")) as pool:
            lines = LINES + READ_AHEAD
            for line, (wanting, wrong) in zip(lines, pool.map(swept, lines)):
                with self.subTest(line[0][:60]):
                    self.assertIsNone(wrong)
                    self.assertGreaterEqual(wanting, FEWEST)


class Starving(Console):
    """At one key it takes from the process at the other end all memory but what that has and so many bytes more."""

    def __init__(self, spare, at_key, **named):
        super().__init__(**named)
        self.spare, self.at_key, self.process = spare, at_key, None

    def take(self, key):
        if len(self.typed) == self.at_key:
            limit = self.size() + self.spare
            resource.prlimit(self.process.pid, resource.RLIMIT_AS, (limit, limit))
        return super().take(key)

    def size(self):
        with open(f"/proc/{self.process.pid}/statm", encoding="ascii") as told:
            return int(told.read().split()[0]) * PAGE


class BehindTheConnection(Case):
    """Loads, looks and probes that get no more memory once they have begun to type. A load and a `verify` need none; else
    there is a whole answer, or the line that memory is wanting, and a tape that is whole or not there. The machine's memory
    is what it was."""

    WORDS = 1024

    def setUp(self):
        super().setUp()
        words = [0o12345 + it for it in range(self.WORDS)]
        self.tape = block(0, b"".join(it.to_bytes(2, "little") for it in words)) + block(1, b"")
        self.memory = {2 * number: it ^ 1 for number, it in enumerate(words)}
        self.put("a.lda", self.tape)

    def look(self, words, spare=1 << 30, at_key=0):
        """Loads, looks or probes, with so much memory more from one key on."""
        machine = Starving(spare, at_key, words=self.WORDS, memory=self.memory)
        before, line = list(machine.words), self.console_at(machine)
        command = [PROGRAM, *(line.address if it == "LINE" else it for it in words), "--quiet", str(self.quiet)]
        machine.process = subprocess.Popen(command, cwd=self.room, stdin=subprocess.DEVNULL, stdout=subprocess.PIPE, stderr=subprocess.PIPE, text=True)
        out, err = machine.process.communicate(timeout=120)
        line.settle()
        self.is_so((machine.words == before, machine.starts), (True, []))
        return Answer(machine.process.returncode, timeless(out), err)

    def each(self, words):
        """Such runs with nothing more from the first key on, from one in the middle, and from the last."""
        rows = [(0, at_key) for at_key in (0, 4 * self.WORDS, 8 * self.WORDS)]
        with ThreadPoolExecutor(len(rows)) as pool:
            yield from zip(rows, pool.map(lambda row: self.look([it.format(*row) for it in words], *row), rows))

    def test_verify(self):
        ample = self.look(["verify", "a.lda", "LINE"])
        self.is_so((ample.status, ample.out.count(" differs ")), (1, self.WORDS))
        for row, given in self.each(["verify", "a.lda", "LINE"]):
            with self.subTest(row):
                self.is_so(given, ample)

    def test_load(self):
        """Its words stand, so that each has 8 keys, with a record that it makes and without one."""
        self.memory = {address: value ^ 1 for address, value in self.memory.items()}
        loaded = Answer(0, f"sent {1 + 8 * self.WORDS} spent 0 verified {self.WORDS} of {self.WORDS}\nend Loaded\n", "")
        for record in ([], ["--record", "{}-{}.record"]):
            for row, given in self.each(["load", "a.lda", "LINE", *record]):
                with self.subTest(row, record=record):
                    self.is_so(given, loaded)

    def test_probe(self):
        """With nothing more from its first key on, from its trial, and from its search."""
        ample = self.look(["probe", "LINE"])
        self.is_so((ample.status, ample.out.split("\n")[-2]), (0, "end Probed"))
        for at_key in (0, 9, 31):
            with self.subTest(at_key):
                given = self.look(["probe", "LINE"], 0, at_key)
                self.assertTrue(given == ample or is_want(given, ample), f"{given!r:.2000}")

    def test_save(self):
        words = ["LINE", "0", f"{2 * self.WORDS - 2:o}"]
        ample = self.look(["save", "ample.lda", *words])
        tape = bytes_of(self.path("ample.lda"))
        self.is_so((ample.status, ample.err), (0, ""))
        for row, given in self.each(["save", "{}-{}.lda", *words]):
            with self.subTest(row):
                kept = bytes_of(self.path("{}-{}.lda".format(*row)))
                self.assertTrue((given, kept) == (ample, tape) or is_want(given, ample) and kept in (b"", tape), f"{given!r:.2000}")


if __name__ == "__main__":
    unittest.main()
