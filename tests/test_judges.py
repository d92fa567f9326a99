"""The helpers that judge, each beside one wrong machine, load or line for each of their answers, and beside right ones: what a test finds by
them would else be right where they had gone blind."""
import contextlib
import importlib.machinery
import importlib.util
import types
import unittest

from cases import Case, Console, Keeping, RunningConsole
from chip_cases import NUMBERS, OTHER_NUMBER, ChipCase, ChipConsole, Chips
from fast_cases import BACKGROUND, GAIN, IMAGE, PLACE, START, WHOLE, WORDS, FastConsole, memory_with, record_of, wrong_with
from outside import TOP, Answer

# tools/hostile, whose name is none of a module.
LOADER = importlib.machinery.SourceFileLoader("hostile", f"{TOP}/tools/hostile")
hostile = importlib.util.module_from_spec(importlib.util.spec_from_loader("hostile", LOADER))
LOADER.exec_module(hostile)


class Started(Case):
    """`were_started_once`, which each test asks of each of its machines."""

    def is_seen(self, *machines):
        """Whether it fails of a test that has made these."""
        Keeping.made[:] = machines
        try:
            self.were_started_once()
        except AssertionError:
            return True
        finally:
            Keeping.made.clear()
        return False

    def machine(self, typed, kind=Console, **named):
        made = kind()
        made.typed = typed
        for name, value in named.items():
            setattr(made, name, value)
        return made

    def test_one_start_at_most(self):
        once, never = "Z001000/\r001000G", "Z001000/\r"
        for typed in (once, never):
            self.is_so(self.is_seen(self.machine(typed)), False)
        for behind in ("G", "001000G", "Z", "\r"):
            with self.subTest(behind):
                self.is_so(self.is_seen(self.machine(once + behind)), True)

    def test_each_machine_of_several(self):
        right, wrong = (self.machine(f"001000G{it}") for it in ("", "001000G"))
        for machines in ((wrong, right, right), (right, wrong, right), (right, right, wrong)):
            self.is_so(self.is_seen(*machines), True)
        self.is_so(self.is_seen(right, right, right), False)

    def test_what_a_test_says_of_its_machine(self):
        """Which keys stand behind the start, or that nobody asks; and which keys start the program, where others are started before."""
        for typed, named, seen in (
            ("001000G", {"behind_start": "x"}, True),
            ("001000Gx", {"behind_start": "x"}, False),
            ("002000G001000G", {"start_keys": "001000G"}, False),
            ("002000G001000GZ", {"start_keys": "001000G"}, True),
        ):
            with self.subTest(typed, named=named):
                self.is_so(self.is_seen(self.machine(typed, **named)), seen)
        self.is_so(self.is_seen(self.machine("001000Gabc", RunningConsole)), False)


class Fast(Case):
    """`wrong_with`, which is asked wherever a fast load was stopped."""

    START_KEYS = f"{START:06o}G"

    def wrong(self, record=WHOLE, typed=f"{PLACE:06o}G{START:06o}G", words=None, strays=(), image=IMAGE):
        """What it says of such a machine; of a whole load where nothing else is said."""
        machine = FastConsole(image)
        machine.words.set_all(memory_with(IMAGE, 4096))
        for address, value in (words or {}).items():
            machine.words[address // 2] = value
        machine.typed, machine.strays = typed, [*strays]
        self.put("a.record", record.encode())
        said = wrong_with(machine, self.path("a.record"))
        Keeping.made.clear()
        return said

    def test_right_ones(self):
        """A whole load, and those that were stopped: before the start was typed, its mark in the record or not, in the words, and at the very beginning."""
        last = WORDS[-1].address
        part = {"record": record_of(WORDS[:GAIN]), "words": {last: BACKGROUND}}
        for named in ({}, {"typed": ""}, {"typed": "", "record": record_of(WORDS)}, {"typed": "", **part}, {"typed": "", "record": ""}):
            with self.subTest(named=list(named)):
                self.is_so(self.wrong(**named), None)

    def test_each_that_is_wrong(self):
        first, last, behind = WORDS[0], WORDS[-1].address, WORDS[-1].address + 2
        lacking = "the start was typed, or was about to be, and memory has not the whole image"
        for said, named in (
            (f"the record has {first.address:06o} 177777 {first.value:06o}, and memory {first.value ^ 1:06o}", {"words": {first.address: first.value ^ 1}}),
            (f"outside the image {behind:06o} holds 253", {"words": {behind: BACKGROUND ^ 1}}),
            (f"outside the image {behind + 1:06o} holds 253", {"words": {behind: BACKGROUND ^ 1 << 8}}),
            ("at [1024] neither a stub nor the program was started", {"strays": [0o2000]}),
            ("behind the start 'Z' was typed", {"typed": f"{self.START_KEYS}Z"}),
            (f"behind the start '{self.START_KEYS}' was typed", {"typed": 2 * self.START_KEYS}),
            ("the start was typed, and the record has no mark", {"record": record_of(WORDS)}),
            ("the start was typed, and the record has no mark", {"record": ""}),
            (lacking, {"record": record_of(WORDS[:GAIN], mark=True), "words": {last: BACKGROUND}}),
            (lacking, {"record": record_of(WORDS[:GAIN], mark=True), "words": {last: BACKGROUND}, "typed": ""}),
        ):
            with self.subTest(said):
                self.is_so(self.wrong(**named), said)


# The word at which a bus is tested here, and another one.
BUS, OTHER = 0o1000, 0o1002


class Harmless(ChipCase):
    """`is_harmless`, which is asked of each test of memory."""

    def is_seen(self, typed="Z001000/\r", starts=(), stored=(), turned=(), but=(), bus=BUS):
        """Whether it fails where this was typed, started and stored, each as an address and a number, and some words read otherwise at last."""
        machine = ChipConsole(Chips(count=1024))
        before = machine.words.readings()
        machine.typed, machine.starts, machine.words.stored = typed, [*starts], [(it, number(before[it // 2])) for it, number in stored]
        for it in turned:
            machine.words.cells[it // 2] ^= 1
        Keeping.made.clear()
        try:
            self.is_harmless(types.SimpleNamespace(machine=machine), before, but, bus)
        except AssertionError:
            return True
        return False

    def test_right_ones(self):
        """What a word held, and its complement; at the bus's word its numbers; and a word that is named may read otherwise."""
        held, turned = (lambda it: it), (lambda it: it ^ 0o177777)
        numbers = [(BUS, lambda _, it=it: it) for it in NUMBERS]
        for named in ({}, {"stored": [(OTHER, turned), (OTHER, held)]}, {"stored": numbers},
                      {"turned": [OTHER], "but": [OTHER]}, {"turned": [BUS], "but": [BUS]}):
            with self.subTest(named=str(named)):
                self.is_so(self.is_seen(**named), False)

    def test_each_that_is_wrong(self):
        """A key that starts or stores otherwise, a start, another number, one of the bus's at another word or where no bus is tested, and a
        word that reads otherwise and is not named, the bus's too."""
        other = lambda it: it ^ 1
        for named in (
            {"typed": "Z001000G"}, {"typed": "001000/b"}, {"starts": [0o1000]},
            {"stored": [(OTHER, other)]}, {"stored": [(BUS, other)]}, {"stored": [(BUS, lambda _: OTHER_NUMBER)]},
            {"stored": [(OTHER, lambda _: NUMBERS[0])]}, {"stored": [(BUS, lambda _: NUMBERS[0])], "bus": None},
            {"turned": [OTHER]}, {"turned": [BUS]}, {"turned": [BUS, OTHER], "but": [OTHER]}, {"turned": [BUS, OTHER], "but": [BUS]},
        ):
            with self.subTest(named=str(named)):
                self.is_so(self.is_seen(**named), True)

    def test_the_last_number_of_a_bus(self):
        """It is another one where the word held it before."""
        for held, number, is_right in ((NUMBERS[3], OTHER_NUMBER, True), (0, OTHER_NUMBER, False)):
            machine = ChipConsole(Chips(count=1024))
            machine.words.cells[BUS // 2] = held
            before, machine.words.stored = machine.words.readings(), [(BUS, number)]
            Keeping.made.clear()
            with contextlib.nullcontext() if is_right else self.assertRaises(AssertionError):
                self.is_harmless(types.SimpleNamespace(machine=machine), before, bus=BUS)


# A tape of three bytes, and where its program starts.
BYTES, BYTES_START = {0o1000: 0o101, 0o1001: 0o102, 0o1002: 0o103}, 0o1000
RECORD = "LDAODT 2\n001000 041101\nH 001002 000377 000103\n"


class Hostile(Case):
    """What tools/hostile, which no gate runs, looks for behind each life of a load."""

    def complaints(self, judge, *given):
        hostile.TRIAL.wrong = []
        judge(*given, "here")
        return hostile.TRIAL.wrong

    def machine(self, loaded=BYTES, starts=()):
        """A machine that held other bytes and was loaded with these; and what it held."""
        made = Console(words=512)
        made.words[:] = earlier = [0o125125] * 512
        for address, byte in loaded.items():
            shift = 8 * (address % 2)
            made.words[address // 2] = made.words[address // 2] & ~(255 << shift) | byte << shift
        made.starts = [*starts]
        Keeping.made.clear()
        return made, earlier

    def test_a_memory_behind_a_life(self):
        """A byte that is neither's; a start that is another, or a second one; and a start, or a good end, where a byte lacks."""
        part = {0o1000: 0o101, 0o1001: 0o102}
        lacks, at = "here: memory does not hold the whole image", lambda starts: f"here: started at {starts}, and the tape at 512"
        for loaded, starts, last, wanted in (
            (BYTES, (), "killed", []), ({}, (), "killed", []), (part, (), "killed", []), (BYTES, [512], "killed", []), (BYTES, [512], "Started", []),
            (part, (), "GaveUp", []),
            ({**BYTES, 0o1001: 0o377}, (), "killed", ["here: 001001 holds 377, neither the tape's byte nor the earlier one"]),
            ({**BYTES, 0o1003: 1}, (), "Loaded", ["here: 001003 holds 001, neither the tape's byte nor the earlier one"]),
            (BYTES, [514], "Started", [at([514])]), (BYTES, [512, 512], "killed", [at([512, 512])]),
            (part, [512], "killed", [lacks]), (part, [512], "Started", [lacks]),
            *((part, (), last, [lacks]) for last in ("Loaded", "Started", "Uncertain", "MaybeStarted")),
        ):
            with self.subTest(loaded=loaded, starts=starts, last=last):
                machine, earlier = self.machine(loaded, starts)
                self.is_so(self.complaints(hostile.memory_is_right, machine, earlier, BYTES, BYTES_START, last), wanted)

    def test_a_record_behind_a_life(self):
        """A word that memory has not, a start without its mark, and what is no record."""
        for record, loaded, starts, wanted in (
            (RECORD, BYTES, (), []), (f"{RECORD}G\n", BYTES, [512], []), ("", {}, (), []),
            (RECORD, {**BYTES, 0o1002: 0}, (), ["here: the record has 001002 000377 000103, memory 125000"]),
            (RECORD, BYTES, [512], ["here: the program was started, and the record has no mark"]),
            ("LDAODT 3\n", {}, (), ["here: a record begins with 'LDAODT 3'"]),
        ):
            with self.subTest(record, loaded=loaded, starts=starts):
                self.put("a.record", record.encode())
                self.is_so(self.complaints(hostile.record_is_true, self.path("a.record"), self.machine(loaded, starts)[0]), wanted)

    def test_the_end_of_the_last_life(self):
        """A good one, with its status and count, a whole record, its mark where it started, and `Loaded` where there is nothing to start."""
        report = lambda end, words=2: f"sent 1 spent 0 verified {words} of 2\nend {end}\n"
        started, marked = Answer(0, report("Started"), ""), f"{RECORD}G\n"
        for given, last, starts, record, start, count in (
            (started, "Started", [512], marked, 512, 0),
            (Answer(6, report("MaybeStarted"), ""), "MaybeStarted", [], marked, 512, 0),
            (Answer(0, report("Loaded"), ""), "Loaded", [], RECORD, None, 0),
            (Answer(5, report("GaveUp"), ""), "GaveUp", [], RECORD, 512, 1),
            (started._replace(status=6), "Started", [512], marked, 512, 1),
            (started._replace(err="x"), "Started", [512], marked, 512, 1),
            (started._replace(out=report("Started", 1)), "Started", [512], marked, 512, 1),
            (started, "Started", [512], RECORD, 512, 1),
            (started, "Started", [512], "LDAODT 2\n001000 041101\nG\n", 512, 1),
            (started, "Started", [], marked, 512, 1),
            (started, "Started", [512], marked, None, 1),
            (Answer(0, report("Loaded"), ""), "Loaded", [], RECORD, 512, 1),
        ):
            with self.subTest(last, given=given, starts=starts, record=record, start=start):
                self.put("a.record", record.encode())
                machine = self.machine(BYTES, starts)[0]
                self.is_so(len(self.complaints(hostile.end_is_right, given, last, machine, self.path("a.record"), BYTES, start)), count)

    def test_what_all_lives_typed(self):
        for typed, count, is_started in ((b"Z001000/\r", 0, False), (b"001000G", 0, True), (b"001000GG", 1, True), (b"001000GZ", 1, True)):
            hostile.TRIAL.wrong = []
            self.is_so((hostile.typed_once(types.SimpleNamespace(typed=typed), "here"), len(hostile.TRIAL.wrong)), (is_started, count))

    def test_a_line_that_changes_each_character(self):
        """All of them but an echo that would become the key again; and it counts those that came changed."""
        line = self.until_the_end(hostile.HeardPeer(Console(), change=1, seed=1))
        changed, kept = 0, 0
        for key in "001000/011064\r" * 50:
            came = line.passed(key)
            echo = line.passed(came)
            self.assertNotEqual(came, key)
            self.assertNotEqual(echo, key)
            changed, kept = changed + 1 + (echo != came), kept + (echo == came)
        self.is_so(line.changes, changed)
        # One bit of seven is that which was changed before.
        self.assertTrue(50 < kept < 150, kept)
        holding = self.until_the_end(hostile.HeardPeer(Console(), change=0))
        self.is_so(("".join(map(holding.passed, "001000G")), holding.changes), ("001000G", 0))


if __name__ == "__main__":
    unittest.main()
