"""`ldaodt memory`: the picture of bad chips, boards and lines, beside what is worked out from the list of what is bad; lines that lose and
break, and runs that are killed at each stage; and that no good word is another one afterwards."""
import itertools
import re
import signal
import subprocess
import threading
import unittest
from concurrent.futures import ThreadPoolExecutor

from cases import StoringConsole, heed_signals
from chip_cases import (BANK, BITS, EVERY, HEADER, LINES, NUMBERS, WORDS, ChipCase, ChipConsole, Chips, Fault, Test, changed, chip, named_in, row,
                        shown_at_last, word)
from outside import PROGRAM, line_failed
from paced_line import PacedLine, PacedMachine

FIRST, LAST = 0o1000, 0o1006

# A memory of these words is enough where none lies above.
FEW = 1024

# Keys: of the trial of a console, a look, an open word with three digits, a letter, and a look; and of a word that is looked at twice, turned over,
# looked at, put back and looked at. The characters of both ways: of the trial's first look, and of all of it; of `Z`; of a word, up to where
# its number is known, and up to where it is tested.
TRIAL, KEYS = 31, 44
DEPOSIT, LOOK = 22, 8
LOOKED, TRIED, PROMPTED, WORD, KNOWN, DONE = 30, 102, 5, 124, 46, 120

# The same of a word that is deposited by a load, and of one that is looked at alone.
DEPOSITED, LOOKED_AT = 62, 25


class Chip(ChipCase):
    """What a memory's test says."""

    def tried(self, test, line=None, more="", **named):
        """Tests a memory that has what the test says, and nothing else; returns the line, what it read before, and the answer."""
        line = line or self.console_at(ChipConsole(Chips(test.faults, test.missing, test.count, **named)))
        before = line.machine.words.readings()
        given = self.ldaodt(self.words_at(line, f"{test.words()} {more}"))
        line.settle()
        return line, before, given

    def is_shown(self, test, line=None, more="", **named):
        """Asserts that all of a test is right."""
        line, before, given = self.tried(test, line, more, **named)
        self.ends(given, int(bool(test.bad())), test.report(before))
        self.is_harmless(line, before, bus=test.good())
        return line

    def at_once(self, trial, rows, threads=8):
        """Tries all rows, some side by side."""
        rows = list(rows)
        with ThreadPoolExecutor(threads) as pool:
            for given_row, failed in zip(rows, pool.map(lambda it: why_wrong(trial, it), rows)):
                with self.subTest(given_row):
                    if failed:
                        raise failed


def why_wrong(trial, given_row):
    try:
        trial(given_row)
    except Exception as failed:
        return failed
    return None


class Pictures(Chip):
    """Lines that lose nothing."""

    def test_good_memory(self):
        for line in self.lines(lambda: ChipConsole(Chips())):
            self.is_shown(Test(), line=line)

    def test_the_eight_styles(self):
        test = Test(FIRST, LAST, 1, (word(0o1002, 3, "0"),), count=FEW)
        self.at_once(lambda style: self.is_shown(test, line=self.console_at(ChipConsole(Chips(test.faults, count=FEW), style=style))), range(8))

    def test_each_bit_that_is_stuck(self):
        """Of a word among good ones, and of a range of them."""
        def trial(row):
            bit, sign, last = row
            self.is_shown(Test(FIRST, last, 1, (Fault(range(0o1002, 0o1006, 2), bit, sign),), count=FEW))

        self.at_once(trial, [(bit, sign, last) for bit in range(BITS) for sign in "01" for last in (0o1006,)])
        self.at_once(lambda bit: self.is_shown(Test(0o1002, 0o1004, 1, (Fault(range(0o1002, 0o1006, 2), bit, "1"),), count=FEW)), range(BITS))

    def test_dead_chips(self):
        """Two of them, one that lost a quarter of its rows, and one word of two that no sample meets."""
        self.is_shown(Test(faults=(chip(1, 2, "0"), chip(3, 11, "1"), Fault(range(0o104000, 0o106000, 2), 7, "0"), word(0o120002, 5, "1"))))

    def test_a_chip_that_reads_either(self):
        """Some of its words read 0, the others 1."""
        self.is_shown(Test(0o1000, 0o1016, 1, (Fault(range(0o1000, 0o1010, 2), 4, "0"), Fault(range(0o1010, 0o1020, 2), 4, "1")), count=FEW))

    def test_many_bits_of_a_word(self):
        self.is_shown(Test(FIRST, LAST, 1, (word(0o1004, 0, "1"), word(0o1004, 7, "0"), word(0o1004, 15, "1"), word(0o1006, 7, "0")), count=FEW))

    def test_a_bank_of_ones(self):
        """It answers, and all of it reads 1."""
        self.is_shown(Test(faults=tuple(chip(4, bit, "1") for bit in range(BITS))))

    def test_nothing_holds(self):
        """Each bit of each word reads 0."""
        self.is_shown(Test(FIRST, LAST, 1, tuple(Fault(range(0, 2 * FEW, 2), bit, "0") for bit in range(BITS)), count=FEW))

    def test_the_most_words_that_are_told(self):
        """Eight of them."""
        for count in (7, 8, 9):
            faults = (Fault(range(0o1002, 0o1002 + 2 * count, 2), 9, "0"),)
            self.is_shown(Test(0o1000, 0o1040, 1, faults, count=FEW))

    def test_a_bank_that_does_not_answer(self):
        """In the middle; the test goes on behind it."""
        self.is_shown(Test(missing=(2,)))
        self.is_shown(Test(missing=(1, 3, 6), faults=(chip(2, 14, "1"),)))

    def test_memory_that_ends(self):
        """At the end of a bank, and in a bank."""
        self.is_shown(Test(count=2 * BANK))
        self.is_shown(Test(count=BANK + 1000))

    def test_each_so_many_words(self):
        """Nothing else is typed at."""
        for first, last, every in ((0o1000, 0o1016, 3), (0o1000, 0o1000, 1), (0o1000, 0o1002, 2), (0o157700, 0o157776, 16), (0, 0o157776, 4096)):
            with self.subTest(every):
                line = self.is_shown(Test(first, last, every))
                opened = {int(it, 8) for it in re.findall(r"([0-7]{6})/", line.machine.typed)}
                around = Test(first, last).around(first) if every == 1 else ()
                self.is_so(sorted(opened - {*range(first, last + 1, 2 * every), *around}), [])

    def test_a_range_over_two_banks(self):
        self.is_shown(Test(0o17770, 0o20006, 1, (word(0o17774, 1, "0"), word(0o20000, 12, "1"))))


class Flickering(Chip):
    """A bit that is read wrong at some looks. Each word is looked at four times, the first one by the trial of the console, too."""

    TEST = Test(FIRST, LAST, 1, (), count=FEW)

    def shown(self, *wrong_looks):
        fault = word(0o1004, 6, "x", *wrong_looks)
        line, before, given = self.tried(self.TEST._replace(faults=(fault,)))
        self.is_harmless(line, before, bus=FIRST)
        return given, before[0o1004 // 2]

    def test_when_it_is_put_back(self):
        given, held = self.shown(4)
        turned = held ^ 0o177777
        text = self.TEST._replace(faults=(word(0o1004, 6, "x"),))
        line = f"001004 held {held:06o}; {turned:06o} reads {turned:06o}, {held:06o} reads {held ^ 1 << 6:06o}\n"
        rows = "".join(f"{it}\n" for it in (HEADER, *text.rows()))
        bus = "".join(f"{it}\n" for it in text.bus())
        self.ends(given, 1, f"{rows}{line}tested 4 words, 1 do not hold\n{bus}end Tested\n")

    def test_when_it_is_turned_over(self):
        """It shows as one that always reads the same."""
        given, held = self.shown(3)
        sign = str(held >> 6 & 1)
        self.ends(given, 1, self.TEST._replace(faults=(word(0o1004, 6, sign),)).report({0o1004 // 2: held}))

    def test_when_it_is_looked_at_first(self):
        """Nothing is deposited where two looks differ, so that nothing wrong is put back: it is a bad word, and costs no patience."""
        text = self.TEST._replace(faults=(word(0o1004, 6, "x"),))
        rows, bus = ("".join(f"{it}\n" for it in lines) for lines in ((HEADER, *text.rows()), text.bus()))
        for looks in ((1,), (2,), (1, 3), range(1, 100, 2)):
            with self.subTest(looks):
                fault = word(0o1004, 6, "x", *looks)
                line, before, given = self.tried(self.TEST._replace(faults=(fault,)), more="--patience 0")
                self.is_harmless(line, before, bus=FIRST)
                held = before[0o1004 // 2]
                first, second = (held ^ (it in looks) << 6 for it in (1, 2))
                told = f"001004 reads {first:06o}, then {second:06o}\n"
                self.ends(given, 1, f"{rows}{told}tested 4 words, 1 do not hold\n{bus}end Tested\n")
                self.is_so([it for it, _ in line.machine.words.stored if it == 0o1004], [])

    def test_when_the_console_is_tried(self):
        """The first look at it is wrong, or the one behind the trial, which is a look itself: nothing is deposited, and the word is named."""
        for look in (1, 3):
            with self.subTest(look):
                line, before, given = self.tried(self.TEST._replace(faults=(word(FIRST, 6, "x", look),)))
                self.is_harmless(line, before)
                held = before[FIRST // 2] ^ (look == 1) << 6
                told = f"{HEADER}\n000000-017776   not tested\ntested 0 words, 0 do not hold\nthe word at {FIRST:06o} held {held:06o}, now look at it\n"
                self.ends(given, 5, f"{told}end NotTrusted\n")
                self.is_so(line.machine.words.stored, [])

    def test_a_bank_of_which_no_look_reads_what_another_did(self):
        """Its chips are out: nothing is deposited in it, and the test goes on behind it."""
        faults = tuple(Fault(range(2 * BANK, 4 * BANK, 2), bit, "x", range(bit % 2 + 1, 100, 2)) for bit in range(BITS))
        test = Test(0, 0o57776, EVERY, faults, count=3 * BANK)
        line, before, given = self.tried(test)
        self.is_harmless(line, before)
        rows = "".join(f"{it}\n" for it in (HEADER, *test.rows()))
        self.is_so((given.status, given.out[: len(rows)], given.out.split("\n")[-3:]), (1, rows, ["tested 192 words, 64 do not hold", "end Tested", ""]))
        self.is_so([it for it, _ in line.machine.words.stored if it // 2 // BANK == 1], [])


class Losses(Chip):
    """Lines that lose one of a hundred characters both ways."""

    def test_the_picture_is_the_same(self):
        def trial(seed):
            faults = (chip(0, seed % BITS, str(seed // BITS % 2)),) if seed % 3 else ()
            test = Test(0, 0o7776, EVERY, faults, count=2 * FEW)
            place = self.device_at if seed % 2 else self.console_at
            self.is_shown(test, line=place(ChipConsole(Chips(faults, count=2 * FEW, seed=seed)), loss=0.01, seed=seed), more="--patience 1000")

        self.at_once(trial, range(32), threads=16)

    def test_a_patience_that_is_lost(self):
        """The word under way is named where it may hold another number, and no other word does."""
        def trial(seed):
            test = Test(FIRST, 0o1076, 1, (), count=FEW)
            line, before, given = self.tried(test, self.console_at(ChipConsole(Chips(count=FEW, seed=seed)), loss=0.02, seed=seed), "--patience 1")
            named = named_in(given.out)
            self.assertLessEqual(set(changed(line.machine, before)), set(named))
            self.is_so({it: before[it // 2] for it in named}, named)
            self.is_so((given.status, given.out.split("\n")[-2], given.err), (5, "end GaveUp", ""))

        self.at_once(trial, range(24), threads=16)


class Bus(Chip):
    """Address lines that make no difference, and data lines that touch, where each word of a range is tested."""

    def bus_tried(self, test, status, found, **chips):
        """Asserts that a bus is told so, and that each word reads again what it did."""
        line = self.console_at(ChipConsole(Chips(test.faults, test.missing, test.count, **chips)))
        if "touching" in chips:
            # Cleared memory: by itself each word holds.
            line.machine.words.cells = [0] * test.count
        before = line.machine.words.readings()
        given = self.ldaodt(self.words_at(line, test.words()))
        line.settle()
        self.ends(given, status, test.report(before, bus=found))
        self.is_harmless(line, before, bus=test.good())

    def test_each_address_line(self):
        """Each makes no difference, once."""
        def trial(line):
            test = Test(0, 0, 1)
            self.bus_tried(test, 1, test.bus([1 << line]), dead=(line,))

        self.at_once(trial, range(1, LINES))

    def test_lines_beside_a_word_that_has_their_bits(self):
        """Also those whose bit is 1 in the word at which the bus is tested."""
        def trial(line):
            test = Test(0o52524, 0o52524, 1)
            self.bus_tried(test, 1, test.bus([0o52524 ^ 1 << line]), dead=(line,))

        self.at_once(trial, range(1, LINES - 1))

    def test_two_address_lines(self):
        test = Test(FIRST, FIRST + 2, 1)
        self.bus_tried(test, 1, test.bus([0, FIRST ^ 1 << 13]), dead=(9, 13))

    def test_two_data_lines(self):
        """Each two of them."""
        test = Test(0, 0, 1, count=256)
        self.at_once(lambda two: self.bus_tried(test, 1, test.bus(touches=True), touching=two), itertools.combinations(range(BITS), 2), threads=16)

    def test_a_dead_bank_at_the_first_word(self):
        """The bus is tested behind it."""
        faults = tuple(chip(0, bit, "0") for bit in range(BITS))
        self.is_shown(Test(2 * BANK - 4, 2 * BANK + 2, 1, faults))
        self.is_shown(Test(2 * BANK - 4, 2 * BANK + 2, 1, missing=(0,)))

    def test_words_that_hold_the_mark(self):
        """They are no other ones for that."""
        line = self.console_at(ChipConsole(Chips()))
        line.machine.words.cells[0o2000 // 2] = line.machine.words.cells[0o4000 // 2] = NUMBERS[3]
        test = Test(0, 2, 1)
        self.is_shown(test, line=line)

    def test_a_word_that_holds_the_mark_itself(self):
        line = self.console_at(ChipConsole(Chips()))
        line.machine.words.cells[0] = NUMBERS[3]
        self.is_shown(Test(0, 2, 1), line=line)

    def test_losses(self):
        """Of one of a hundred characters both ways."""
        def trial(seed):
            test = Test(FIRST, FIRST + 2, 1, count=FEW)
            dead = (1 + seed % 8,) if seed % 2 else ()
            line = self.console_at(ChipConsole(Chips(count=FEW, seed=seed, dead=dead)), loss=0.01, seed=seed)
            before = line.machine.words.readings()
            given = self.ldaodt(self.words_at(line, f"{test.words()} --patience 1000"))
            line.settle()
            self.ends(given, int(bool(dead)), test.report(before, bus=test.bus([FIRST ^ 1 << it for it in dead])))
            self.is_harmless(line, before, bus=FIRST)

        self.at_once(trial, range(16), threads=16)


class KillingConsole(ChipConsole):
    """Behind the key with a number something is done before its answer passes."""

    def __init__(self, chips, last_key, then):
        super().__init__(chips)
        self.last_key, self.then = last_key, then

    def take(self, key):
        answer = super().take(key)
        if len(self.typed) == self.last_key:
            self.then()
        return answer


class Ends(Chip):
    """How a test ends that does not come to its end, and what of memory is then another one."""

    WORDS = f"memory LINE {FIRST:o} {FIRST + 2:o}"

    def killed(self, keys, number, **chips):
        """A test that is sent a signal behind so many keys; returns the line, what was read before, how it ended, and what its terminal shows."""
        is_begun, process = threading.Event(), []

        def kill():
            is_begun.wait()
            process[0].send_signal(number)

        line = self.console_at(KillingConsole(Chips(count=FEW, **chips), keys, kill))
        before, words = line.machine.words.readings(), self.words_at(line, self.WORDS)

        def run(terminal):
            process.append(subprocess.Popen([PROGRAM, *words], cwd=self.room, stderr=terminal, stdout=subprocess.PIPE, preexec_fn=heed_signals))
            self.addCleanup(self.let_go, process[0])
            is_begun.set()
            out, _ = process[0].communicate(timeout=300)
            return process[0].returncode, out

        ended, shown = self.at_a_terminal(run)
        line.settle()
        return line, before, ended, shown

    def is_named(self, keys, number):
        """Asserts that behind such a signal no word is another one, or the one that the terminal's line names, with what it held."""
        line, before, ended, shown = self.killed(keys, number)
        self.is_so(ended, (-number, b""))
        other, named = changed(line.machine, before), shown_at_last(shown)
        self.is_harmless(line, before, named)
        self.is_so({it: before[it // 2] for it in named}, named)
        # From the first digit of the complement on, up to the CR behind the number that is put back, and its answer.
        place = (keys - TRIAL - 2) % KEYS
        self.is_so(other, [FIRST + 2 * ((keys - TRIAL - 2) // KEYS)] if 21 <= place < 35 and keys > TRIAL else [])

    def test_a_kill_at_each_key(self):
        """Of the trial and of two words."""
        self.at_once(lambda keys: self.is_named(keys, signal.SIGKILL), range(1, TRIAL + 1 + 2 * KEYS))

    def test_a_kill_at_each_key_of_the_bus(self):
        """Of the numbers that are deposited, the looks around the word, and the old number that is put back: only the word is another one, and
        it is named."""
        def trial(keys):
            line, before, ended, shown = self.killed(keys, signal.SIGKILL)
            self.is_so(ended, (-signal.SIGKILL, b""))
            other, named = changed(line.machine, before), shown_at_last(shown)
            self.is_harmless(line, before, named, bus=FIRST)
            self.is_so(({it: before[it // 2] for it in named}, other in ([], [FIRST])), (named, True))

        # `Z` and 22 keys for each number; for each address line 8, one of which is a `Z` where nothing answers.
        begun = TRIAL + 1 + 2 * KEYS
        self.at_once(trial, range(begun + 1, begun + 1 + 5 * (1 + DEPOSIT) + LOOK * (LINES - 1), 2), threads=16)

    def test_a_kill_at_keys_of_a_bad_bus(self):
        """An address line makes no difference: so two addresses read what is lent to the word, which is named."""
        line = 3
        other_name = FIRST ^ 1 << line

        def trial(keys):
            line_killed, before, ended, shown = self.killed(keys, signal.SIGKILL, dead=(line,))
            self.is_so(ended, (-signal.SIGKILL, b""))
            other, named = changed(line_killed.machine, before), shown_at_last(shown)
            self.is_harmless(line_killed, before, [*named, *(other_name for _ in named)], bus=FIRST)
            self.is_so(({it: before[it // 2] for it in named}, other in ([], [FIRST, other_name])), (named, True))

        # Behind the old number that is put back each line is looked at again.
        begun = TRIAL + 1 + 2 * KEYS
        self.at_once(trial, range(begun + 1, begun + 1 + 5 * (1 + DEPOSIT) + 2 * LOOK * (LINES - 1), 5), threads=16)

    def test_an_interrupt(self):
        self.at_once(lambda keys: self.is_named(keys, signal.SIGINT), range(TRIAL + 4, TRIAL + 2 + KEYS, 5))

    def test_a_line_that_breaks(self):
        """Behind each character of the trial and of two words, some left out: the words that were tested, and the one under way, which
        during the trial is the one that digits may have been typed into."""
        test = Test(FIRST, FIRST + 2, 1, count=FEW)

        def trial(characters):
            line = self.console_at(ChipConsole(Chips(count=FEW)), close_after=characters)
            before = line.machine.words.readings()
            given = self.ldaodt(self.words_at(line, self.WORDS))
            line.settle()
            count, place = divmod(max(0, characters - TRIED - PROMPTED), WORD)
            is_named = KNOWN <= place < DONE or LOOKED <= characters < TRIED
            named = FIRST + 2 * count if is_named else None
            self.ends(given, 4, test.report(before, "LineFailed", count + (place >= DONE), named), line_failed("closed"))
            self.is_harmless(line, before, [named])

        self.at_once(trial, range(1, TRIED + PROMPTED + 2 * WORD, 3), threads=16)

    def test_a_line_that_breaks_in_the_test_of_the_bus(self):
        """The word is named where it may hold another number; each other one is what it was."""
        test = Test(FIRST, FIRST + 2, 1, count=FEW)
        head = re.escape("".join(f"{it}\n" for it in (HEADER, *test.rows(), "tested 2 words, 0 do not hold")))

        def trial(characters):
            line = self.console_at(ChipConsole(Chips(count=FEW)), close_after=characters)
            before = line.machine.words.readings()
            given = self.ldaodt(self.words_at(line, self.WORDS))
            line.settle()
            named, other = named_in(given.out), changed(line.machine, before)
            self.is_harmless(line, before, named, bus=FIRST)
            self.is_so(({it: before[it // 2] for it in named}, other in ([], [FIRST])), (named, True))
            self.is_so((given.status, given.err), (4, line_failed("closed")))
            tail = "tested the bus at 001000, beside [0-9]+ words\n(the word at 001000 held [0-7]{6}, now look at it\n)?end LineFailed\n"
            self.assertRegex(given.out, f"^{head}{tail}$")

        tested = TRIED + PROMPTED + 2 * WORD
        # All that passes, but for looks where nothing answers: four numbers, the looks at the words around, and the old number.
        bus = 5 * (PROMPTED + DEPOSITED) + PROMPTED + len(test.around(FIRST)) * LOOKED_AT
        self.at_once(trial, range(tested + 1, tested + bus, 11), threads=16)

    def going(self, looks):
        """A test of four words, the second of which answers so many looks and no more."""
        class Going(ChipConsole):
            def has_word(self, address):
                return super().has_word(address) and (address != 0o1002 or self.words.looks.get(0o1002 // 2, 0) < looks)

        line = self.console_at(Going(Chips(count=FEW)))
        before = line.machine.words.readings()
        given = self.ldaodt(self.words_at(line, f"memory LINE {FIRST:o} {LAST:o}"))
        line.settle()
        return line, before, given

    def test_a_word_that_goes(self):
        """Before anything is deposited there it is the end of the bank's memory."""
        for looks in range(2):
            line, before, given = self.going(looks)
            rows = f"{HEADER}\n{row(0, [FIRST], ())}   no memory at 001002\n"
            bus = f"tested the bus at {FIRST:06o}, beside {len(Test(count=FEW).around(FIRST)) - 1} words\n"
            self.ends(given, 0, f"{rows}tested 1 words, 0 do not hold\n{bus}end Tested\n")
            self.is_harmless(line, before, bus=FIRST)

    def test_a_word_that_goes_in_the_middle(self):
        """What it held is told."""
        for looks in (2, 3):
            line, before, given = self.going(looks)
            self.is_so((given.status, given.out.split("\n")[-3:], given.err), (5, [
                f"the word at 001002 held {before[0o1002 // 2]:06o}, now look at it", "end NoWord 001002", ""], ""))
            self.is_so(changed(line.machine, before), [0o1002] if looks == 2 else [])

    def test_no_memory(self):
        """None at all: nothing is typed but a look at it."""
        test = Test(FIRST, LAST, 1, count=256)
        line, before, given = self.tried(test)
        self.ends(given, 5, test.report(before, "NoWord 001000"))
        self.is_so((line.machine.typed, line.machine.words.stored), ("Z001000/", []))

    def test_a_console_that_stores(self):
        """Nothing is tested, and the word that was tried holds its number again."""
        class Storing(ChipConsole, StoringConsole):
            pass

        line = self.console_at(Storing(Chips(count=FEW)))
        before = line.machine.words.readings()
        given = self.ldaodt(self.words_at(line, self.WORDS))
        line.settle()
        self.is_so((given.status, given.out.split("\n")[-2], given.err), (5, "end NotTrusted", ""))
        self.is_so(changed(line.machine, before), [])
        self.is_so({it for it, _ in line.machine.words.stored}, {FIRST})

    def test_refused_words(self):
        """Nobody is connected to."""
        line = self.console_at(ChipConsole(Chips(count=FEW)))
        for words in ("1000", "1001 1002", "1000 1001", "1002 1000", "0 160000", "8 10", "0001000 1000", "-2 0", "1000 1002 1004",
                      "--every 0", "--every -1", "--every 28673", "--every x", "--every", "0 2 --every 0", "--patience 1001", "--words 8", "--record a"):
            with self.subTest(words):
                given = self.ldaodt([*f"memory {line.address} {words}".split()])
                self.is_so((given.status, given.out, given.err.startswith("error: ")), (2, "", True))
        self.is_so(line.connections, 0)


class PacedChips(PacedMachine):
    """Such a memory at a line in simulated time."""


class Times(Chip):
    """What a test takes."""

    def test_each_64th_word_at_9600_baud(self):
        """Each word 44 keys and 80 characters, one behind the other, and the quiet times."""
        line = PacedLine(PacedMachine(), 9600)
        given = line.load(["memory", "LINE"], cwd=self.room)
        self.is_so((given.status, given.out), (0, Test().report({})))
        self.assertLessEqual(line.seconds, 70)


if __name__ == "__main__":
    unittest.main()
