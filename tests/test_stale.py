"""A load looks at words of its record before it believes them: what becomes of a record whose words memory does not hold, and of
the looks themselves: losses at each of their characters, hang-ups, kills, and a second load meanwhile.

A look types `Z` first, which is answered by four characters, and then eight keys for each word, answered by seventeen. Behind it
the load begins as every load: `Z`, 62 characters for a word that has to be deposited, and seven keys for the start.
"""
import errno
import os
import re
import signal
import subprocess
import unittest
from concurrent.futures import ThreadPoolExecutor

from cases import Case, Console, DeafConsole, LossyConsole, SlowConsole
from fast_cases import IMAGE, START, WORDS, FastCase, FastConsole, Model, memory_with, record_of
from outside import PROGRAM, bytes_of, fault, line_failed, tape_of

STALE = "ldaodt: memory does not hold what the record says: load with --recheck\n"
FAILED = line_failed("closed")

# What passes of looks at so many words: the answer to a `Z` and to each word's keys, with them.
PROMPT, LOOKED = 5, 25


def tape_at(values, first=0o1000):
    """A tape of whole words one behind another, which starts at the first."""
    return tape_of([(first, b"".join(it.to_bytes(2, "little") for it in values))], first)


def memory_of(values, first=0o1000):
    return {first + 2 * number: it for number, it in enumerate(values)}


def numbered(count):
    """Words that are told apart."""
    return [0o10000 + number for number in range(1, count + 1)]


def text_of(values, first=0o1000):
    """The record of whole words one behind another, as docs/RECORD.md has it."""
    lines = ["LDAODT 2"]
    for place in range(0, len(values), 16):
        lines.append(" ".join(f"{it:06o}" for it in [first + 2 * place, *values[place:place + 16]]))
    return "\n".join(lines) + ("" if values else "\n")


def looked_at(typed):
    """The addresses that were looked at between the first `Z` and the next."""
    return [int(it, 8) for it in re.findall(r"([0-7]{6})/", typed.split("Z")[1])]


class Stale(Case):
    """A load with a record, of words one behind another."""

    usual = "a.lda --record a.record"

    def setUp(self):
        super().setUp()
        self.put_tapes("first.lda", "two-words.lda", "no-word.lda")

    def recorded(self):
        return bytes_of(self.path("a.record")).decode()

    def put_words(self, values, recorded):
        """A tape of these words, and a record of so many of them."""
        self.put("a.lda", tape_at(values))
        self.put("a.record", text_of(values[:recorded]).encode())

    def has_only_looked(self, line, before):
        """Asserts that nothing was typed that could store or start, and that memory is what it was."""
        typed = line.machine.typed
        self.assertIsNone(re.search(r"/[0-7]|[^0-7/\rZ]", typed), repr(typed))
        self.is_so((list(line.machine.words) == before, line.machine.starts), (True, []))

    def is_stale(self, line, address, words, looks=None, command="a.lda --record a.record"):
        """Loads: memory does not hold the word at this address. So many words were looked at, and the record is as it was."""
        record, before = self.recorded(), list(line.machine.words)
        given = self.load(line, command)
        report = f"sent {1 + 8 * min(8, words) if looks is None else looks} spent 0 verified 0 of {words}\nend Stale {address:06o}\n"
        self.ends(given, 5, report, STALE)
        self.has_only_looked(line, before)
        self.is_so(self.recorded(), record)


class Causes(Stale):
    """The three ways to a record that memory does not hold. `--recheck` gets over each."""

    def setUp(self):
        super().setUp()
        self.values = numbered(12)
        self.put("a.lda", tape_at(self.values))

    def broken_off(self):
        """A console at which a load was broken off behind its fifth word."""
        peer = self.console_at(Console())
        peer.close_after = PROMPT + 5 * 62
        given = self.load(peer)
        self.is_so((given.status, given.err, self.recorded()), (4, FAILED, text_of(self.values[:5])))
        peer.close_after = None
        peer.keys = peer.answered = 0
        peer.machine.typed = ""
        return peer

    def is_got_over(self, line, address):
        """A load finds that memory does not hold the word at this address, and one that looks at each word again loads them
        all, and starts the program."""
        self.is_stale(line, address, 12, looks=1 + 8 * 5)
        line.machine.typed = ""
        given = self.load(line, "a.lda --record a.record --recheck")
        self.is_so((given.status, given.out.splitlines()[-1], given.err), (0, "end Started", ""))
        self.is_so([line.machine.word(it) for it in memory_of(self.values)], self.values)
        self.is_so((line.machine.starts, self.recorded()), ([0o1000], text_of(self.values) + "\nG\n"))

    def test_at_another_machine(self):
        self.broken_off()
        for line in self.lines(Console):
            self.is_stale(line, 0o1000, 12, looks=1 + 8 * 5)
            self.is_stale(line, 0o1000, 12, looks=1 + 8 * 5)
        self.is_got_over(line, 0o1000)

    def test_behind_a_loss_of_power(self):
        peer = self.broken_off()
        # What memory holds then is anything.
        peer.machine.words = [0o125252] * len(peer.machine.words)
        self.is_got_over(peer, 0o1000)

    def test_behind_another_tape(self):
        peer = self.broken_off()
        others = [*self.values[:3], *(it ^ 1 for it in self.values[3:])]
        self.put("b.lda", tape_at(others))
        self.is_so(self.load(peer, "b.lda --no-start").status, 0)
        os.remove(self.path("b.lda"))
        peer.machine.typed = ""
        self.is_got_over(peer, 0o1006)

    def test_what_memory_holds_is_gone_on_with(self):
        """The looks cost a `Z` and 25 characters a word, and then the load goes on where it was."""
        peer = self.broken_off()
        given = self.load(peer)
        self.ends(given, 0, f"sent {1 + 8 * 5 + 1 + 22 * 7 + 7} spent 0 verified 12 of 12\nend Started\n")
        self.is_so(peer.keys + peer.answered, PROMPT + 5 * LOOKED + PROMPT + 7 * 62 + 14)
        self.is_so(looked_at(peer.machine.typed), [*range(0o1000, 0o1012, 2)])
        self.is_so(self.recorded(), text_of(self.values) + "\nG\n")


class Places(Stale):
    """Which words are looked at, and what becomes of each that differs."""

    def chosen(self, recorded, words):
        """Which of so many recorded words are looked at: the numbers of those that a load looks at that goes on."""
        values = numbered(words)
        self.put_words(values, recorded)
        peer = self.console_at(Console(memory=memory_of(values[:recorded])))
        self.is_so(self.load(peer).status, 0)
        self.is_so([peer.machine.word(it) for it in memory_of(values)], values)
        self.is_so(peer.keys + peer.answered, PROMPT + min(8, recorded) * LOOKED + PROMPT + (words - recorded) * 62 + 14)
        return [(it - 0o1000) // 2 for it in looked_at(peer.machine.typed)]

    def test_which_are_looked_at(self):
        """All, where there are 8 or fewer; else 8, the first and the last among them, evenly spread."""
        for recorded in (1, 2, 7, 8, 9, 10, 15, 16, 29, 64, 65, 100):
            places = self.chosen(recorded, 101)
            if recorded <= 8:
                self.is_so(places, [*range(recorded)])
                continue
            self.is_so((len(places), places[0], places[-1]), (8, 0, recorded - 1))
            steps = [after - before for before, after in zip(places, places[1:])]
            self.assertLessEqual(max(steps) - min(steps), 1, places)

    def test_each_place_of_a_word_that_differs(self):
        """One that is looked at is found; behind one that is not the load goes on: samples are no proof."""
        for recorded in (1, 3, 8, 9, 20):
            values = numbered(21)
            chosen = self.chosen(recorded, 21)
            for place in range(recorded):
                self.put_words(values, recorded)
                memory = memory_of(values[:recorded])
                memory[0o1000 + 2 * place] ^= 0o100000
                peer = self.console_at(Console(memory=memory))
                if place in chosen:
                    self.is_stale(peer, 0o1000 + 2 * place, 21, looks=1 + 8 * len(chosen))
                    continue
                given = self.load(peer)
                self.is_so((given.status, given.err, peer.machine.starts), (0, "", [0o1000]))
                self.is_so(peer.machine.word(0o1000 + 2 * place), values[place] ^ 0o100000)

    def test_of_several_the_first_is_told(self):
        values = numbered(6)
        for differing in ((1, 4), (0, 5), (3, 4, 5), range(6)):
            self.put_words(values, 6)
            memory = {at: it ^ ((at - 0o1000) // 2 in differing) for at, it in memory_of(values).items()}
            self.is_stale(self.console_at(Console(memory=memory)), 0o1000 + 2 * min(differing), 6)

    def test_each_bit_counts(self):
        values = numbered(3)
        for bit in range(16):
            self.put_words(values, 3)
            memory = memory_of(values)
            memory[0o1002] ^= 1 << bit
            self.is_stale(self.console_at(Console(memory=memory)), 0o1002, 3)

    def test_of_a_half_word_the_byte_of_the_tape(self):
        """The tape has the low byte of its second word alone."""
        record = b"LDAODT 2\n001000 031421\nH 001002 000377 000104\n"
        for word, is_stale in ((0o000104, False), (0o177504, False), (0o125504, False), (0o000105, True), (0o042000, True)):
            self.put("a.record", record)
            peer = self.console_at(Console(memory={0o1000: 0o031421, 0o1002: word}))
            if is_stale:
                self.is_stale(peer, 0o1002, 2, command="two-words.lda --record a.record")
                continue
            given = self.load(peer, "two-words.lda --record a.record")
            self.ends(given, 0, "sent 25 spent 0 verified 2 of 2\nend Started\n")
            self.is_so(peer.machine.word(0o1002), word)

    def test_records_of_which_nothing_is_looked_at(self):
        """An empty one; one with the mark; each word is looked at again in any case; and nothing is left to do."""
        values = numbered(3)
        self.put_words(values, 0)
        peer = self.console_at(Console())
        self.ends(self.load(peer), 0, "sent 74 spent 0 verified 3 of 3\nend Started\n")
        self.ends(self.load(peer), 6, "sent 0 spent 0 verified 3 of 3\nend MaybeStarted\n")
        self.is_so(peer.connections, 1)
        self.put_words(values, 3)
        peer = self.console_at(Console())
        self.ends(self.load(peer, "a.lda --record a.record --recheck"), 0, "sent 74 spent 0 verified 3 of 3\nend Started\n")
        self.put_words(values, 3)
        peer = self.console_at(Console())
        self.ends(self.load(peer, "a.lda --record a.record --no-start"), 0, "sent 0 spent 0 verified 3 of 3\nend Loaded\n")
        self.is_so(peer.connections, 0)

    def test_a_record_of_version_1(self):
        values = numbered(2)
        for memory, is_stale in ((memory_of(values), False), ({}, True)):
            self.put("a.lda", tape_at(values))
            self.put("a.record", "".join(["LDAODT 1\n", *(f"{at:06o} 177777 {it:06o}\n" for at, it in memory_of(values).items())]).encode())
            peer = self.console_at(Console(memory=memory))
            if is_stale:
                self.is_stale(peer, 0o1000, 2)
            else:
                self.ends(self.load(peer), 0, "sent 25 spent 0 verified 2 of 2\nend Started\n")

    def test_a_terminal(self):
        """What is believed by the record alone is not told of a record that is not believed."""
        values = numbered(2)
        for memory, told in ((memory_of(values), "2 of 2 by the record\r\n"), ({}, STALE.replace("\n", "\r\n"))):
            self.put_words(values, 2)
            peer = self.console_at(Console(memory=memory))
            given, shown = self.at_a_terminal(lambda terminal: self.load(peer, stderr=terminal))
            self.is_so((given.status, shown.split("\r\x1b[K")[-1]), (0 if memory else 5, told))


class Styles(Stale):
    def test_consoles_of_each_style(self):
        values = numbered(3)
        for style in range(8):
            for memory, address in ((memory_of(values), None), ({0o1000: values[0], 0o1004: values[2]}, 0o1002)):
                self.put_words(values, 3)
                peer = self.console_at(Console(memory=memory, style=style))
                if address:
                    self.is_stale(peer, address, 3)
                else:
                    self.ends(self.load(peer), 0, "sent 33 spent 0 verified 3 of 3\nend Started\n")


class Mishaps(Stale):
    """Two recorded words of three."""

    VALUES = numbered(3)
    KEYS, ANSWERS = 1 + 8 * 2, 4 + 17 * 2

    def lossy(self, memory, **lost):
        self.put_words(self.VALUES, 2)
        return self.console_at(LossyConsole(memory=memory, **lost))

    def at_each_loss(self, judge):
        """Judges loads of which a character of the looks is lost: each key, and each answer's."""
        losses = [{"lost_key": it} for it in range(self.KEYS)] + [{"lost_answer": it} for it in range(self.ANSWERS)]
        with ThreadPoolExecutor(16) as pool:
            list(pool.map(judge, losses))

    def judged(self, lost, memory, number):
        """Loads once, with a folder of its own for its files; returns the answer, the machine and the record."""
        room = self.path(f"{number}")
        os.mkdir(room)
        for name, data in (("a.lda", tape_at(self.VALUES)), ("a.record", text_of(self.VALUES[:2]).encode())):
            with open(os.path.join(room, name), "wb") as file:
                file.write(data)
        peer = self.console_at(LossyConsole(memory=memory, **lost))
        given = subprocess.run([PROGRAM, *self.load_words(peer)], cwd=room, capture_output=True, text=True, timeout=120)
        peer.settle()
        return given, peer.machine, bytes_of(os.path.join(room, "a.record")).decode()

    def test_each_lost_character_of_looks_at_words_that_stand(self):
        def judge(lost):
            given, machine, record = self.judged(lost, memory_of(self.VALUES[:2]), str(lost))
            self.is_so((given.returncode, given.stderr), (0, ""), )
            self.assertRegex(given.stdout, r"\Asent \d+ spent [01] verified 3 of 3\nend Started\n\Z")
            self.is_so(([machine.word(it) for it in memory_of(self.VALUES)], machine.starts, record), (self.VALUES, [0o1000], text_of(self.VALUES) + "\nG\n"))
        self.at_each_loss(judge)

    def test_each_lost_character_of_looks_at_words_that_do_not(self):
        """A loss changes neither the end nor which word is named, nor the record."""
        for memory, address in (({0o1002: self.VALUES[1]}, 0o1000), ({0o1000: self.VALUES[0]}, 0o1002)):
            def judge(lost):
                given, machine, record = self.judged(lost, memory, f"{address}{lost}")
                self.is_so((given.returncode, given.stderr), (5, STALE))
                self.assertRegex(given.stdout, rf"\Asent \d+ spent [01] verified 0 of 3\nend Stale {address:06o}\n\Z")
                self.assertIsNone(re.search(r"/[0-7]|[^0-7/\rZ]", machine.typed), repr(machine.typed))
                self.is_so((machine.starts, record), ([], text_of(self.VALUES[:2])))
                self.is_so([machine.word(it) for it in (0o1000, 0o1002, 0o1004)], [memory.get(it, 0) for it in (0o1000, 0o1002, 0o1004)])
            self.at_each_loss(judge)

    def test_the_same_patience(self):
        """One character is lost in the looks, and one behind them: a patience of two survives both, one of one the first."""
        for patience, out in ((2, "spent 2 verified 3 of 3\nend Started\n"), (1, "spent 1 verified 2 of 3\nend GaveUp\n")):
            class TwiceLossy(LossyConsole):
                """The 20th character of the answers is lost, and the 80th."""

                def passed(self, before, answer):
                    kept = ""
                    for place, it in enumerate(answer, before):
                        kept += "" if place in (20, 80) else it
                    return kept
            self.put_words(self.VALUES, 2)
            peer = self.console_at(TwiceLossy(memory=memory_of(self.VALUES[:2])))
            given = self.load(peer, f"a.lda --record a.record --patience {patience}")
            self.is_so(given.out.partition(" ")[2].partition(" ")[2], out)
            self.is_so(self.recorded(), text_of(self.VALUES) + "\nG\n" if patience == 2 else text_of(self.VALUES[:2]))

    def test_more_mishaps_than_the_patience(self):
        """A console that does not answer: the looks give up, and the record is as it was."""
        for patience in (0, 1, 3):
            self.put_words(self.VALUES, 2)
            peer = self.console_at(DeafConsole())
            given = self.load(peer, f"a.lda --record a.record --patience {patience}")
            self.ends(given, 5, f"sent {1 + patience} spent {patience} verified 2 of 3\nend GaveUp\n")
            self.is_so((self.recorded(), peer.machine.typed), (text_of(self.VALUES[:2]), "Z" * (1 + patience)))

    def test_no_word_there(self):
        values = numbered(3)
        self.put_words(values, 2)
        peer = self.console_at(Console(words=0o1002 // 2, memory={0o1000: values[0]}))
        self.ends(self.load(peer), 5, "sent 16 spent 0 verified 2 of 3\nend NoWord 001002\n")
        self.is_so(self.recorded(), text_of(values[:2]))

    def test_a_word_that_differs_is_found_before_the_end_of_memory(self):
        values = numbered(3)
        self.put_words(values, 2)
        peer = self.console_at(Console(words=0o1002 // 2))
        self.ends(self.load(peer), 5, "sent 16 spent 0 verified 0 of 3\nend Stale 001000\n", STALE)
        self.is_so(self.recorded(), text_of(values[:2]))

    def test_a_line_that_fails_in_the_looks(self):
        """At each character: nothing was stored, the record is as it was, and the next load goes on."""
        values = self.VALUES
        peer = self.console_at(Console(memory=memory_of(values[:2])))
        for characters in range(PROMPT + 2 * LOOKED):
            self.put_words(values, 2)
            peer.close_after, peer.keys, peer.answered, peer.machine.typed = characters, 0, 0, ""
            given = self.load(peer)
            self.is_so((given.status, given.err), (4, FAILED))
            self.assertRegex(given.out, r"\Asent \d+ spent 0 verified 2 of 3\nend LineFailed\n\Z")
            self.has_only_looked(peer, list(peer.machine.words))
            self.is_so(self.recorded(), text_of(values[:2]))
        peer.close_after = None
        peer.machine.typed = ""
        self.is_so(self.load(peer).status, 0)
        self.is_so(self.recorded(), text_of(values) + "\nG\n")


class Kills(Stale):
    """A load that is killed in its looks, and one that comes meanwhile."""

    def test_killed_in_the_looks(self):
        """Wherever it is killed: memory and the record are what they were, and the next load says the same."""
        values = numbered(5)
        for keys in (1, 2, 7, 8, 9, 16, 17, 30, 33):
            for memory, status in ((memory_of(values[:4]), 0), (memory_of([1, 2, 3, 4]), 5)):
                if status and keys == 33:
                    continue  # The last of its keys: it may be over before it is killed.
                self.put_words(values, 4)
                peer = self.console_at(SlowConsole(memory=memory))
                before = list(peer.machine.words)
                process = self.begin(self.load_words(peer))
                self.until(lambda: len(peer.machine.typed) >= keys)
                process.send_signal(signal.SIGKILL)
                self.is_so(process.wait(60), -signal.SIGKILL)
                peer.settle()
                self.has_only_looked(peer, before)
                self.is_so(self.recorded(), text_of(values[:4]))
                given = self.load(peer)
                self.is_so((given.status, given.err), (status, STALE if status else ""))
                self.is_so(self.recorded(), text_of(values[:4]) if status else text_of(values) + "\nG\n")

    def test_a_second_load_in_the_looks(self):
        """The record is held from before it is read: a second load with it types nothing. A record that is not believed is let go."""
        values = numbered(8)
        self.put_words(values, 8)
        peer = self.console_at(SlowConsole())
        process = self.begin(self.load_words(peer))
        self.until(lambda: len(peer.machine.typed) >= 3)
        other = self.console_at(Console())
        self.ends(self.load(other), 4, "", "ldaodt: record in use: a.record\n")
        self.is_so(other.connections, 0)
        self.is_so((process.wait(60), process.stdout.read(), process.stderr.read()), (5, "sent 65 spent 0 verified 0 of 8\nend Stale 001000\n", STALE))
        peer.settle()
        self.is_so(self.recorded(), text_of(values))
        given = self.load(peer, "a.lda --record a.record --recheck")
        self.is_so((given.status, self.recorded()), (0, text_of(values) + "\nG\n"))

    def test_a_record_that_may_not_be_written_behind_the_looks(self):
        """The disk is full once the looks are over: nothing was typed but they, and the record is as it was."""
        values = numbered(3)
        self.put_words(values, 3)
        peer = self.console_at(Console(memory=memory_of(values)))
        self.ends(self.load(peer, file_size=0), 4, "", fault("cannot write a.record", errno.EFBIG))
        self.has_only_looked(peer, list(peer.machine.words))
        self.is_so((looked_at(peer.machine.typed), self.recorded()), ([*memory_of(values)], text_of(values)))

    def test_a_full_output(self):
        values = numbered(3)
        self.put_words(values, 3)
        peer = self.console_at(Console())
        self.ends(self.load(peer, before="> /dev/full"), 4, "", "ldaodt: cannot write output\n")
        self.is_so(self.recorded(), text_of(values))


class Fast(FastCase):
    """`load --fast` with a record of some of its words."""

    RECORDED = 40

    # A key that resynchronises, and eight for each of its samples, and for the highest word.
    LOOKS = 1 + 9 * 8

    def console(self, held):
        machine = FastConsole(IMAGE)
        for word in WORDS[:self.RECORDED]:
            machine.words[word.address // 2] = word.value if held else word.value ^ 1
        return machine

    def setUp(self):
        super().setUp()
        self.put_tape("a.lda", IMAGE)
        self.put("a.record", record_of(WORDS[:self.RECORDED]).encode())

    def test_a_record_that_memory_does_not_hold(self):
        peer = self.console_at(self.console(False))
        before = list(peer.machine.words)
        given = self.load(peer, "a.lda --fast --record a.record")
        self.ends(given, 5, f"sent {self.LOOKS} spent 0 verified 0 of {len(WORDS)}\nend Stale {WORDS[0].address:06o}\n", STALE)
        self.is_so((list(peer.machine.words) == before, peer.machine.starts, self.recorded()), (True, [], record_of(WORDS[:self.RECORDED])))

    def test_a_record_that_it_holds(self):
        """Behind the looks, which store nothing, come stubs and the rest."""
        memory = [0o125252] * 4096
        for word in WORDS[:self.RECORDED]:
            memory[word.address // 2] = word.value
        model = Model(WORDS, memory, verified=self.RECORDED).fast()
        peer = self.console_at(self.console(True))
        given = self.load(peer, "a.lda --fast --record a.record")
        typed = peer.machine.typed
        self.is_so(typed, model.keys)
        self.assertIsNone(re.search(r"/[0-7]|[^0-7/\rZ]", typed[:self.LOOKS]), repr(typed[:self.LOOKS]))
        self.is_so((given.status, given.out.splitlines()[0]), (0, f"sent {len(typed)} spent 0 verified {len(WORDS)} of {len(WORDS)}"))
        self.is_so(list(peer.machine.words), memory_with(IMAGE, 4096))
        self.is_right(peer.machine)

    def test_recheck(self):
        peer = self.console_at(self.console(False))
        given = self.load(peer, "a.lda --fast --record a.record --recheck")
        self.is_so((given.status, peer.machine.starts[-1]), (0, START))
        self.is_right(peer.machine)


if __name__ == "__main__":
    unittest.main()
