"""A line that changes characters: one bit of one in a hundred, each way. A look that is careful bears it: each word of a saved tape is
what memory holds, and `verify` lists no word that stands. One that looks only once does not, but ends as `Changed` where a character
came that no loss explains. A careful load bears it, but for two in one attempt at a word: of one in 300 no two are in an attempt that
matters.
"""
import os
import random
import unittest
from concurrent.futures import ThreadPoolExecutor

from cases import Case, Console, LossyConsole
from outside import beside_changes, bytes_of, came_changed, kept_in, tape_of
from test_looks import Looks, as_memory, as_tape, numbers

WORDS = numbers("changed", 12)
LAST = 0o1000 + 2 * len(WORDS) - 2
OFTEN = 0.01


class ChangedCharacters(Case):
    """A machine with words behind such a line."""

    def line(self, seed, change=OFTEN):
        return self.console_at(Console(memory=as_memory(0o1000, WORDS)), change=change, seed=seed)

    def ends(self, seed, command, change=OFTEN):
        """Runs a command over such a line; memory is what it was, and nothing was started. Returns what it printed."""
        line = self.line(seed, change)
        before = list(line.machine.words)
        given = self.ldaodt(self.words_at(line, f"{command} --patience 1000"))
        line.settle()
        self.is_so((line.machine.words == before, line.machine.starts), (True, []))
        return given

    def test_each_word_of_a_saved_tape_is_right(self):
        """Fifty saves, each with changes of its own."""
        def save(seed):
            given = self.ends(seed, f"save {seed}.lda LINE 1000 {LAST:o}")
            self.is_so((given.status, given.out.split("\n")[1], beside_changes(given).err), (0, "end Saved", ""))
            self.is_so(bytes_of(self.path(f"{seed}.lda")), as_tape(0o1000, WORDS))

        with ThreadPoolExecutor(4) as pool:
            list(pool.map(save, range(50)))

    def test_a_save_that_looks_once_says_so(self):
        """Where it sees it: then there is no tape. Most of twenty do."""
        def changed(seed):
            name = f"once{seed}.lda"
            given = self.ends(seed, f"save {name} LINE 1000 {LAST:o} --once")
            end = given.out.split("\n")[1]
            self.is_so((given.status, os.path.exists(self.path(name))), (0, True) if end == "end Saved" else (5, False))
            return end == "end Changed"

        with ThreadPoolExecutor(4) as pool:
            self.assertGreater(sum(pool.map(changed, range(20))), 10)

    def test_no_word_that_stands_is_listed(self):
        """One that is not careful may end as `Changed`."""
        self.put("words.lda", as_tape(0o1000, WORDS))
        for option, ends in (("", {(0, "end Same"), (5, "end Changed")}), (" --careful", {(0, "end Same")})):
            def verify(seed, option=option):
                given = self.ends(seed, f"verify words.lda LINE{option}")
                self.is_so("differs" in given.out, False)
                return given.status, given.out.split("\n")[1]

            with ThreadPoolExecutor(4) as pool:
                self.is_so(set(pool.map(verify, range(20))), ends)

    def test_over_a_line_that_changes_nothing_there_is_no_mishap(self):
        given = self.ends(0, f"save a.lda LINE 1000 {LAST:o}", change=0)
        self.is_so((given.status, given.out), (0, f"sent {1 + 16 * len(WORDS)} spent 0 read 12 of 12\nend Saved\n"))


class ChangedOnce(Console):
    """A console of whose answers to a look one has another bit: the one with this number, of those that come to be."""

    def __init__(self, number, bit=0, **named):
        super().__init__(**named)
        self.number_changed, self.bit, self.looks = number, bit, 0

    def take(self, key):
        answer = super().take(key)
        if "/" not in answer:
            return answer
        self.looks += 1
        # Its last digit, behind which is a blank.
        return answer if self.looks != self.number_changed else f"{answer[:-2]}{chr(ord(answer[-2]) ^ 1 << self.bit)} "


class Samples(Case):
    """What an earlier load or save has left is looked at with the care of the load, or the save, that goes on with it."""

    # So many words does the tape have, and one fewer the record.
    COUNT = 4

    def left(self):
        """A tape of whole words, and a record of all but the last; memory holds them all."""
        words = WORDS[:self.COUNT]
        self.put("a.lda", tape_of([(0o1000, b"".join(it.to_bytes(2, "little") for it in words))], 1))
        lines = " ".join(f"{it:06o}" for it in [0o1000, *words[:-1]])
        self.put("a.record", f"LDAODT 2\n{lines}".encode())
        return as_memory(0o1000, words)

    def goes_on(self, number, option, changed=None):
        """Loads over a line that changes a bit of the answer with this number, where memory holds the words but for these; nothing is
        typed that stores. Returns what it printed, and the machine."""
        memory = self.left() | (changed or {})
        line = self.console_at(ChangedOnce(number, memory=memory))
        before = list(line.machine.words)
        given = self.ldaodt(self.words_at(line, f"load a.lda LINE --record a.record{option}"))
        line.settle()
        self.is_so((line.machine.words == before, set(line.machine.typed) <= set("01234567/\rZU")), (True, True))
        return given, line.machine

    def test_a_careful_load_goes_on(self):
        """Whichever look is changed, the first at a word or the second, also at the highest, which the record has not: one mishap, and
        the load comes to its end."""
        for number in range(1, 2 * self.COUNT + 1):
            given, machine = self.goes_on(number, " --careful")
            self.ends(given, 0, f"sent {len(machine.typed)} spent 1 verified {self.COUNT} of {self.COUNT}\nend Loaded\n")

    def test_a_careful_load_is_not_told_that_a_word_stands(self):
        """Memory has another bit than the record, and the first look at it is changed so that it seems to stand."""
        for place in range(self.COUNT - 1):
            given, _ = self.goes_on(2 * place + 1, " --careful", {0o1000 + 2 * place: WORDS[place] ^ 1})
            self.is_so((given.status, given.out.split("\n")[1]), (5, f"end Stale {0o1000 + 2 * place:06o}"))

    def test_a_plain_load_looks_once(self):
        given, machine = self.goes_on(2, "")
        self.is_so((given.status, given.out, machine.typed), (5, "sent 25 spent 0 verified 0 of 4\nend Stale 001002\n", "Z001000/\r001002/\r001004/\r"))

    def test_a_save_goes_on(self):
        """Of a block, and of a save that looks twice; one that looks once ends."""
        words = numbers("part", 260)
        tape, last = as_tape(0o1000, words), 0o1000 + 2 * 259

        def save(number, option=""):
            name = f"{number}{option[2:]}.lda"
            self.put(f"{name}.part", tape[:519] + bytes(len(tape) - 519))
            line = self.console_at(ChangedOnce(number, memory=as_memory(0o1000, words)))
            given = self.ldaodt(self.words_at(line, f"save {name} LINE 1000 {last:o}{' ' * bool(option)}{option}"))
            line.settle()
            return given, len(line.machine.typed), name

        for number in (1, 2, 7, 8, 15, 16):
            given, typed, name = save(number)
            self.ends(given, 0, f"sent {typed} spent 1 read 260 of 260\nend Saved\n")
            self.is_so(bytes_of(self.path(name)), tape)
        given, _, _ = save(4, "--once")
        self.is_so((given.status, given.out.split("\n")[1]), (5, f"end Stale {0o1000 + 2 * (3 * 255 // 7):06o}"))


class ChangingConsole(Console):
    """The first echo of a digit comes as that of another: behind `Z`, with which the host begins."""

    def take(self, key):
        answer = super().take(key)
        return "1" if len(self.typed) == 2 else answer


# 256 words fill a block, so that a save that ends as `Changed` leaves all of them.
FULL = numbers("full", 256)


class ChangedEchoes(Looks):
    """One echo is changed, and all that is read is right. Two keys and a mishap more are typed: the digit that is echoed so, and `Z`."""

    def machine(self, kind=ChangingConsole, words=WORDS):
        return self.console_at(kind(memory=as_memory(0o1000, words)))

    def is_there(self, *names):
        self.is_so({it for it in os.listdir(self.room) if it.startswith("a.lda")}, set(names))

    def save(self, option, kind=ChangingConsole, words=WORDS):
        return self.look(self.machine(kind, words), f"save a.lda LINE 1000 {0o1000 + 2 * len(words) - 2:o}{option}")

    def test_a_save_that_looks_once_ends_as_changed(self):
        """What it leaves are its blocks that are full."""
        for words, part in ((WORDS, []), (FULL, ["a.lda.part"])):
            with self.subTest(words=len(words)):
                self.ends(self.save(" --once", words=words), 5, f"sent {3 + 8 * len(words)} spent 1 read {len(words)} of {len(words)}\nend Changed\n", came_changed(1))
                self.is_there(*part)
                # A later one goes on behind them: it looks at samples of them.
                given = self.save("", Console, words)
                self.is_so((given.status, given.out.split("\n")[1]), (0, "end Saved"))
                self.is_there("a.lda")
                self.is_so(bytes_of(self.path("a.lda")), as_tape(0o1000, words))
                os.remove(self.path("a.lda"))

    def test_a_save_that_looks_twice_does_not(self):
        self.ends(self.save(""), 0, f"sent {3 + 16 * len(WORDS)} spent 1 read 12 of 12\nend Saved\n", came_changed(1))
        self.is_so(bytes_of(self.path("a.lda")), as_tape(0o1000, WORDS))

    def test_a_verification_ends_as_changed_where_it_looks_once(self):
        self.put("words.lda", as_tape(0o1000, WORDS))
        for option, looks, status, end in (("", 1, 5, "Changed"), (" --careful", 2, 0, "Same")):
            given = self.look(self.machine(), f"verify words.lda LINE{option}")
            self.ends(given, status, f"sent {3 + 8 * looks * len(WORDS)} spent 1 looked 12 of 12 differ 0\nend {end}\n", came_changed(1))

    def test_a_word_that_differs_is_told_as_ever(self):
        """A difference was read twice."""
        self.put("words.lda", as_tape(0o1000, [WORDS[0] ^ 1, *WORDS[1:]]))
        given = self.look(self.machine(), "verify words.lda LINE")
        self.is_so((given.status, given.out.split("\n")[-2]), (1, "end Differs"))

    def test_a_lost_echo_changes_nothing(self):
        """It is a mishap, no more."""
        line = self.console_at(LossyConsole(memory=as_memory(0o1000, WORDS), lost_answer=4))
        self.ends(self.look(line, f"save a.lda LINE 1000 {LAST:o} --once"), 0, f"sent {3 + 8 * len(WORDS)} spent 1 read 12 of 12\nend Saved\n")


# A tape that begins and ends with half a word, and what a program's start is called.
IMAGE = random.Random("image").randbytes(45)
FIRST_BYTE, START = 0o1001, 0o1002
RARELY = 1 / 300

# So many words are loaded where characters are counted.
COUNTED = 10


class CarefulLoads(Case):
    """Loads over such a line, by turns of memory that holds anything, and of one that differs from the tape by single bits."""

    def before(self, seed):
        """The bytes of memory's words of which the tape has a byte."""
        chance = random.Random(f"before {seed}")
        if seed % 2:
            return chance.randbytes(len(IMAGE) + 3)
        return bytes([0o252, *(it ^ (chance.random() < 0.2) << chance.randrange(8) for it in IMAGE), 0o125, 0o252])

    def image_stands(self, machine, before):
        """Whether the bytes beside the tape's are as before, and whether all of the tape's are there."""
        after = b"".join(machine.word(address).to_bytes(2, "little") for address in range(FIRST_BYTE - 1, FIRST_BYTE + len(IMAGE) + 2, 2))
        return (after[:1], after[len(IMAGE) + 1:]) == (before[:1], before[len(IMAGE) + 1:]), after[1:len(IMAGE) + 1] == IMAGE

    def load(self, seed):
        """Does one load; what its record has stands, the bytes beside the tape's are as before, and it was started once at most, whole."""
        before = self.before(seed)
        words = [int.from_bytes(before[place:place + 2], "little") for place in range(0, len(before), 2)]
        line = self.console_at(Console(memory=as_memory(FIRST_BYTE - 1, words)), change=RARELY, seed=seed)
        given = self.ldaodt(self.words_at(line, f"load half.lda LINE --careful --patience 1000 --record {seed}.record"))
        line.settle()
        kept, mark = kept_in(self.path(f"{seed}.record"))
        for address, mask, value in kept:
            self.is_so((seed, address, line.machine.word(address) & mask), (seed, address, value))
        beside, whole = self.image_stands(line.machine, before)
        self.is_so((seed, beside), (seed, True))
        if line.machine.starts:
            self.is_so((seed, line.machine.starts, mark, whole), (seed, [START], True, True))
        return given.out.rstrip().split("\n")[-1]

    def test_a_careful_load_bears_it(self):
        self.put("half.lda", tape_of([(FIRST_BYTE, IMAGE)], START))
        with ThreadPoolExecutor(4) as pool:
            ends = list(pool.map(self.load, range(40)))
        self.is_so([it for it in ends if it not in ("end Started", "end Uncertain")], [])

    def passes(self, tape, memory, style, option):
        """How many keys come to a console in this style, as the report says, too, and how many characters it answers."""
        line = self.console_at(Console(memory=memory, style=style))
        given = self.ldaodt(self.words_at(line, f"load {tape} LINE{option}"))
        line.settle()
        self.ends(given, 0, f"sent {line.keys} spent 0 verified {COUNTED} of {COUNTED}\nend Loaded\n")
        return line.keys, line.answered

    def test_how_many_characters_pass(self):
        """Counted at the console, in each style, over a line that changes nothing: with `--careful` a whole word that is deposited costs
        62 characters as without it, or 66, one that stands 50 in place of 25, and half a word that is deposited 87 in place of 62; and
        before the first the highest is looked at, twice."""
        self.put("whole.lda", tape_of([(0o1000, bytes(range(1, 2 * COUNTED + 1)))], 1))
        self.put("half.lda", tape_of([(0o1001 + 2 * number, b"\1") for number in range(COUNTED)], 1))
        stands = {0o1000 + 2 * number: 2 * number + 1 + (2 * number + 2 << 8) for number in range(COUNTED)}
        # What a word costs: keys, characters answered in style 0, and how many looks it has, each of which is closed.
        rows = (
            ("whole.lda", {}, "", 22, 40, 2),
            ("whole.lda", {}, " --careful", 22, 40, 2),
            ("whole.lda", stands, "", 8, 17, 1),
            ("whole.lda", stands, " --careful", 16, 34, 2),
            ("half.lda", {}, "", 22, 40, 2),
            ("half.lda", {}, " --careful", 30, 57, 3),
        )

        def trial(row):
            (tape, memory, option, keys, answers, looks), style = row
            space, second_return, echo = style & 1, style >> 1 & 1, style >> 2
            # Behind a key that resynchronises.
            prompted = 4 + second_return + echo
            each = space + second_return
            first = (1 + 2 * 8, prompted + 2 * (17 + each)) if option else (0, 0)
            wanted = first[0] + 1 + COUNTED * keys, first[1] + prompted + COUNTED * (answers + looks * each)
            self.is_so((row, self.passes(tape, memory, style, option)), (row, wanted))

        with ThreadPoolExecutor(8) as pool:
            list(pool.map(trial, [(row, style) for row in rows for style in range(8)]))


if __name__ == "__main__":
    unittest.main()
