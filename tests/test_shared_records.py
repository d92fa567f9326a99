"""Several loads with one record: one at a time has it, by whatever name, and the others say that it is in use.

Loads are begun at once, also stopped and killed at odd moments, and judged at the machine's end: what was typed, what
memory holds, how often the program was started; and by the record, which in the end has every word and the mark. In which
orders the system's calls of such loads can come, and that each of them is sound, is walked by `test_record_model.py`.
"""
import os
import random
import signal
import socket
import subprocess
import threading
import time
import unittest
from concurrent.futures import ThreadPoolExecutor

from cases import TAPES, Case, Console
from outside import PROGRAM, Answer, bytes_of, text_of

# The tape has a whole word and a byte, and starts at 001000.
TAPE = "two-words.lda"
MEMORY = {0o1000: 0o031421, 0o1002: 0o104}
WHOLE = "LDAODT 2\n001000 031421\nH 001002 000377 000104\nG\n"
ONE_WORD = "LDAODT 2\n001000 031421\n"
MAYBE = Answer(6, "sent 0 spent 0 verified 2 of 2\nend MaybeStarted\n", "")

NEW = "a.record.ldaodt-new"

# How FILE stands before the loads, and what memory holds then.
STATES = {
    "absent": ({}, {}),
    "empty": ({"a.record": ""}, {}),
    "torn": ({"a.record": "LDAODT 2\n001000 0314"}, {}),
    "a word": ({"a.record": ONE_WORD}, {0o1000: 0o031421}),
    "the mark": ({"a.record": WHOLE}, MEMORY),
    "a stale new file": ({NEW: "LDAODT 2\n001000 031421\n"}, {}),
    "empty, and a stale new file": ({"a.record": "", NEW: "cut"}, {}),
}

# Other names of a.record.
NAMES = {
    "the same name": "a.record",
    "a path from here": "./a.record",
    "a path through a folder": "folder/../a.record",
    "a whole path": None,
    "a linked folder": "linked/a.record",
    "a link": "a.link",
    "a link to a link": "folder/a.link",
    "a hard name": "hard.record",
}

# Silence on a computer that is busy with ten loads and their machines.
BUSY_QUIET = 1000
ROUNDS_AT_ONCE = 12


class HeldConsole(Console):
    """It keeps its answer to a key, counted from 1, until it is let go on."""

    def __init__(self, key, **named):
        super().__init__(**named)
        self.key, self.has_come, self.may_go_on = key, threading.Event(), threading.Event()

    def take(self, key):
        answer = super().take(key)
        if len(self.typed) == self.key:
            self.has_come.set()
            self.may_go_on.wait(60)
        return answer


class Round:
    """A folder with a record as it stands, and a machine."""

    def __init__(self, case, state, name, console=None):
        files, memory = STATES[state]
        self.room, self.state = case.path(f"{state}, {name}, {random.random()}"), state
        self.quiet = ["--quiet", str(max(BUSY_QUIET, case.quiet))]
        os.makedirs(f"{self.room}/folder")
        os.symlink(TAPES[TAPE], f"{self.room}/{TAPE}")
        os.symlink(".", f"{self.room}/linked")
        os.symlink("a.record", f"{self.room}/a.link")
        os.symlink("../a.link", f"{self.room}/folder/a.link")
        for file, text in files.items():
            with open(f"{self.room}/{file}", "w", encoding="ascii") as it:
                it.write(text)
        if "hard" in name:
            os.link(f"{self.room}/a.record", f"{self.room}/hard.record")
        self.peer = case.console_at(console or Console(memory=memory))

    def name(self, kind):
        return NAMES[kind] or f"{self.room}/a.record"

    def begin(self, kind, options=None, setup=None):
        """Begins a load; `kind` is the name that it has for the record."""
        words = [PROGRAM, "load", TAPE, self.peer.address, *(options or self.quiet), "--record", self.name(kind)]
        return subprocess.Popen(words, cwd=self.room, stdin=subprocess.DEVNULL, stdout=subprocess.PIPE, stderr=subprocess.PIPE,
                                preexec_fn=setup)

    def answer(self, load):
        """How a load ended: within a minute."""
        try:
            out, err = load.communicate(timeout=60)
        except subprocess.TimeoutExpired:
            load.kill()
            load.communicate()
            return Answer(None, "", f"{' '.join(load.args)} did not end within 60 seconds")
        return Answer(load.returncode, text_of(out), text_of(err))

    def load(self, kind="the same name", options=None):
        return self.answer(self.begin(kind, options))

    def files(self):
        """The files that belong to the record, and their texts."""
        there = [name for name in sorted(os.listdir(self.room)) if "record" in name]
        return {name: bytes_of(f"{self.room}/{name}").decode() for name in there}

    def in_use(self, kind):
        return Answer(4, "", f"ldaodt: record in use: {self.name(kind)}\n")


def kinds_of(state):
    """The names that a record in a state can have: a file that is not there has no second hard name."""
    return [kind for kind in NAMES if kind != "a hard name" or "a.record" in STATES[state][0]]


class Shared(Case):
    """What is asked of loads that share a record."""

    def rounds(self, cases, judge):
        """Does some rounds at a time, and judges each: what is wrong is told with its case."""
        with ThreadPoolExecutor(ROUNDS_AT_ONCE) as pool:
            done = [(case, pool.submit(judge, *case)) for case in cases]
            for case, ran in done:
                with self.subTest(case):
                    ran.result()

    def is_loaded_once(self, it, may_be_unstarted=False):
        """Asserts that the program was started once, over the whole memory, and that the record says so."""
        it.peer.settle()
        machine = it.peer.machine
        starts = [] if it.state == "the mark" else [0o1000]
        if not (may_be_unstarted and not machine.starts):
            self.is_so(machine.starts, starts)
        self.is_so(machine.typed.count("G"), len(machine.starts))
        self.is_so({address: machine.word(address) for address in MEMORY}, MEMORY)
        texts = it.files()
        self.is_so({name: text for name, text in texts.items() if name != NEW}, {name: WHOLE for name in texts if name != NEW})
        self.assertIn("a.record", texts)

    def is_one(self, it, kinds, answers):
        """Asserts that of some loads, of which none was stopped, exactly one loaded."""
        started = [given for given in answers if given.status == 0]
        self.is_so(len(started), 0 if it.state == "the mark" else 1)
        for kind, given in zip(kinds, answers):
            if given.status == 0:
                self.is_so((given.out.split("\n")[1:], given.err), (["end Started", ""], ""))
            elif given != MAYBE:
                self.is_so(given, it.in_use(kind))
        self.is_loaded_once(it)
        self.is_so(it.peer.connections, len(started))


class SecondLoads(Shared):
    """A load while another one, which the machine keeps waiting at a key, has the record."""

    def is_refused(self, it, first, kinds, key=10):
        console = it.peer.machine
        under_way = it.begin(first)
        self.assertTrue(console.has_come.wait(60))
        before = it.files()
        for kind in kinds:
            self.is_so(it.load(kind), it.in_use(kind))
            self.is_so(it.files(), before)
        self.is_so(len(console.typed), key)
        console.may_go_on.set()
        self.is_so(it.answer(under_way).status, 0)
        it.peer.settle()
        self.is_so(it.peer.connections, 1)
        for kind in kinds:
            self.is_so(it.load(kind), MAYBE)
        self.is_so(it.peer.connections, 1)

    def refused_by_each_name(self, state, first):
        kinds = kinds_of(state)
        it = Round(self, state, f"{first}, hard" if "a hard name" in kinds else first, HeldConsole(5, memory=STATES[state][1]))
        self.is_refused(it, first, kinds, 5)
        self.is_loaded_once(it)

    def test_a_second_load_is_refused_by_each_name(self):
        """The first one has the record by each name in its turn."""
        states = ("absent", "a word", "empty, and a stale new file")
        self.rounds([(state, first) for state in states for first in kinds_of(state)], self.refused_by_each_name)

    def refused_at(self, key):
        it = Round(self, "absent", f"key {key}", HeldConsole(key))
        self.is_refused(it, "the same name", ("the same name", "a link"), key)
        self.is_loaded_once(it)

    def test_from_the_first_key_to_the_last(self):
        """The first and the last key of `Z`, of a word, and of the start, `G` among them."""
        self.rounds([(key,) for key in (1, 2, 23, 24, 45, 46, 52)], self.refused_at)

    def test_before_the_first_key(self):
        """While a load waits for silence, and while it connects, which a port that is full makes it do."""
        it = Round(self, "absent", "quiet")
        under_way = it.begin("the same name", ["--quiet", "3000"])
        self.until(lambda: it.files().get("a.record"))
        self.is_so(it.load(), it.in_use("the same name"))
        self.is_so(it.files(), {"a.record": "LDAODT 2\n"})
        self.is_so(it.answer(under_way).status, 0)
        self.is_loaded_once(it)

    def test_while_it_connects(self):
        """A port whose callers nobody takes keeps further ones waiting. Killed there, a first load leaves an empty record."""
        for how in (signal.SIGKILL, signal.SIGINT):
            it = Round(self, "absent", "connecting")
            with socket.socket() as full, socket.socket() as one, socket.socket() as another:
                full.bind(("127.0.0.1", 0))
                full.listen(0)
                for caller in (one, another):
                    caller.setblocking(False)
                    caller.connect_ex(full.getsockname())
                ours, it.peer.address = it.peer.address, f"127.0.0.1:{full.getsockname()[1]}"
                under_way = it.begin("the same name", setup=lambda: signal.signal(how, signal.SIG_DFL) if how == signal.SIGINT else None)
                self.until(lambda: "a.record" in it.files())
                time.sleep(0.3)
                for kind in ("the same name", "a link"):
                    self.is_so(it.load(kind), it.in_use(kind))
                self.is_so(it.files(), {"a.record": ""})
                under_way.send_signal(how)
                self.is_so(it.answer(under_way).status, -how)
            self.is_so(it.files(), {"a.record": ""})
            it.peer.address = ours
            self.is_so(it.load().status, 0)
            self.is_loaded_once(it)

    def loads_beside(self, it, record):
        """A load of another machine, with such a record, comes to its end beside the one under way."""
        other = self.console_at(Console())
        given = self.ldaodt(["load", f"{it.room}/{TAPE}", other.address, *it.quiet, "--record", f"{it.room}/{record}"])
        other.settle()
        self.is_so((given.status, other.machine.starts), (0, [0o1000]))

    def test_two_records_are_two(self):
        """A load with another record, in the same folder, is none of its business."""
        it = Round(self, "absent", "two", HeldConsole(30))
        under_way = it.begin("the same name")
        self.assertTrue(it.peer.machine.has_come.wait(60))
        self.loads_beside(it, "b.record")
        it.peer.machine.may_go_on.set()
        self.is_so(it.answer(under_way).status, 0)
        self.is_so(it.files(), {"a.record": WHOLE, "b.record": WHOLE})

    def test_a_device_is_nobodys(self):
        """Two loads at once that have the null device for a record, named by a link."""
        it = Round(self, "absent", "device", HeldConsole(30))
        os.symlink("/dev/null", f"{it.room}/a.record")
        under_way = it.begin("the same name")
        self.assertTrue(it.peer.machine.has_come.wait(60))
        self.loads_beside(it, "a.record")
        it.peer.machine.may_go_on.set()
        self.is_so(it.answer(under_way).status, 0)
        self.is_so(os.readlink(f"{it.room}/a.record"), "/dev/null")


class AtOnce(Shared):
    """Loads that are begun at once."""

    def begun_at_once(self, state, kind, count):
        """The loads have the record by the first name and by another one, in turn; or each by the next of all names."""
        kinds = kinds_of(state) if kind == "each name" else ["the same name", kind]
        kinds = [kinds[place % len(kinds)] for place in range(count)]
        it = Round(self, state, f"{kind}, {count}{', hard' if 'a hard name' in kinds else ''}")
        loads = [it.begin(each) for each in kinds]
        self.is_one(it, kinds, [it.answer(load) for load in loads])

    def test_two_and_three_loads(self):
        self.rounds([(state, kind, count) for state in STATES for kind in kinds_of(state) for count in (2, 3)], self.begun_at_once)

    def test_ten_loads(self):
        self.rounds([(state, kind, 10) for state in STATES for kind in ("the same name", "a link", "each name")], self.begun_at_once)

    def held_up(self, seed):
        """Two loads that are stopped for a while at odd moments of their first hundredths of a second."""
        chance = random.Random(seed)
        state, kind = chance.choice(list(STATES)), chance.choice(list(NAMES))
        kind = kind if kind in kinds_of(state) else "a link"
        it = Round(self, state, f"{kind}, held up, {seed}")
        kinds = ["the same name", kind]
        loads = [it.begin(each) for each in kinds]
        for _ in range(3):
            for load in loads:
                time.sleep(chance.uniform(0, 0.004))
                load.send_signal(signal.SIGSTOP)
            for load in chance.sample(loads, 2):
                time.sleep(chance.uniform(0, 0.004))
                load.send_signal(signal.SIGCONT)
        self.is_one(it, kinds, [it.answer(load) for load in loads])

    def test_loads_that_are_held_up(self):
        self.rounds([(seed,) for seed in range(40)], self.held_up)


class Kills(Shared):
    """Loads that are killed: none leaves the record held, and none leaves one that is not true."""

    def is_true(self, it):
        """Asserts that each whole word that the record has stands in memory, and that a start has its mark."""
        text = it.files().get("a.record", "")
        lines = {ONE_WORD[9:-1]: 0o1000, "H 001002 000377 000104": 0o1002}
        for line, address in lines.items():
            if line in text:
                self.is_so(it.peer.machine.word(address), MEMORY[address])
        if it.peer.machine.starts:
            self.is_so(text, WHOLE)

    def killed_at(self, key):
        """A load that is killed while the machine keeps its answer to a key; the next one is begun at once."""
        it = Round(self, "absent", f"killed at {key}", HeldConsole(key))
        under_way = it.begin("the same name")
        self.assertTrue(it.peer.machine.has_come.wait(60))
        under_way.kill()
        under_way.communicate()
        before = it.peer.machine.typed
        it.peer.machine.may_go_on.set()
        it.peer.settle()
        self.is_true(it)
        given = it.load("a link")
        self.is_so((given, it.peer.machine.typed) if before[-1] == "G" else given.status, (MAYBE, before) if before[-1] == "G" else 0)
        self.is_loaded_once(it)

    def test_a_load_is_killed_at_a_key(self):
        self.rounds([(key,) for key in (1, 2, 9, 15, 23, 24, 30, 45, 46, 51, 52)], self.killed_at)

    def killed_at_once(self, seed):
        """Three loads, each killed at an odd moment, before the first key or behind it; and a last one that is not."""
        chance = random.Random(seed)
        state = chance.choice([state for state in STATES if state != "the mark"])
        kinds = [chance.choice(kinds_of(state)) for _ in range(4)]
        it = Round(self, state, f"killed, {seed}{', hard' if 'a hard name' in kinds else ''}")
        loads = [it.begin(kind, ["--quiet", "200", "--patience", "20"]) for kind in kinds[:3]]
        for load in chance.sample(loads, 3):
            time.sleep(chance.choice((chance.uniform(0, 0.01), chance.uniform(0, 0.3))))
            load.kill()
        for kind, load in zip(kinds, loads):
            given = it.answer(load)
            if given.status not in (-signal.SIGKILL, 0, 6):
                self.is_so(given, it.in_use(kind))
        it.peer.settle()
        self.is_true(it)
        starts = list(it.peer.machine.starts)
        given = it.load(kinds[3])
        if given.status:
            self.is_so(given, MAYBE)
        else:
            self.is_so(starts, [])
        self.is_loaded_once(it, may_be_unstarted=given == MAYBE)

    def test_loads_are_killed_at_odd_moments(self):
        self.rounds([(seed,) for seed in range(40)], self.killed_at_once)


if __name__ == "__main__":
    unittest.main()
