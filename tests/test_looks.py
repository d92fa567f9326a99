"""Looks at a machine, `verify` and `save`: how they end, what they report and put into a file, what was typed, and that
memory is what it was, whatever becomes of them.

A look types `Z` first, which is answered by four characters, and then eight keys for each word, answered by seventeen
(docs/MAP.md, "The way of a byte"): its address and `/`, which is answered by its number, and CR.
"""
import errno
import os
import random
import re
import shutil
import signal
import subprocess
import time
import unittest
from concurrent.futures import ThreadPoolExecutor

from cases import Case, Console, DeafConsole, LossyConsole, SlowConsole
from outside import IN_USE, NO_OUTPUT, NO_TERMINAL, PROGRAM, bytes_of, fault, line_failed, tape_of

FAILED = line_failed("closed")

# Runs a command where this folder is the root, with the system's libraries in it.
IN_A_ROOT = 'for it in lib lib64 usr; do [ -e /$it ] && mkdir -p $it && mount --rbind /$it $it || exit; done; exec chroot . "$@"'
BESIDE = ".part"


def are_keys(times):
    """Of all that passes where two words of a machine of zeroed memory are looked at so many times each, keys and answers in their
    order: which are keys."""
    looks = ["Z", *times * ["001000/\r"], *times * ["001002/\r"]]
    passes = [(key, answer) for keys in looks for key, answer in zip(keys, ["?\r\n@"] if keys == "Z" else [*keys[:6], "/000000 ", "\r\n@"])]
    return [it for key, answer in passes for it in [True, *(False for _ in answer)]]


# A number that is looked at twice counts once the second space has come.
ARE_KEYS, ARE_KEYS_TWICE = are_keys(1), are_keys(2)
NUMBERS_AT = (51, 101)


def numbers(seed, count):
    """Words that a memory may hold."""
    chance = random.Random(seed)
    return [chance.randrange(65536) for _ in range(count)]


def as_memory(address, words):
    return {address + 2 * number: it for number, it in enumerate(words)}


def as_tape(address, words, start=1):
    """The plain tape of words: blocks of 512 bytes, the last one shorter."""
    data = b"".join(it.to_bytes(2, "little") for it in words)
    return tape_of([(address + place, data[place:place + 512]) for place in range(0, len(data), 512)], start)


class Looks(Case):
    """A look has its tapes in its folder, and a machine at the other end that must not change."""

    def setUp(self):
        super().setUp()
        self.put_tapes("first.lda", "no-word.lda", "two-words.lda")

    def look(self, line, command, **more):
        """Looks; whatever came of it, only looking keys were typed, and memory is what it was."""
        before = list(line.machine.words)
        given = self.ldaodt(self.words_at(line, command), **more)
        line.settle()
        self.has_looked(line, before)
        return given

    def has_looked(self, line, before):
        typed = line.machine.typed
        self.assertIsNone(re.search(r"/[0-7]|[^0-7/\rZ]", typed), repr(typed))
        self.is_so((line.machine.words == before, line.machine.starts), (True, []))

    def was_typed(self, line, keys):
        self.is_so(line.machine.typed, keys)


class Verify(Looks):
    """What `verify` says of a memory."""

    def test_each_word_stands(self):
        for line in self.lines(lambda: Console(memory={0o1000: 0o011064})):
            self.ends(self.look(line, "verify first.lda LINE"), 0, "sent 9 spent 0 looked 1 of 1 differ 0\nend Same\n")
            self.was_typed(line, "Z001000/\r")

    def test_a_word_that_differs_is_listed(self):
        """Of two words, of which the second has one byte and stands under its mask."""
        for line in self.lines(lambda: Console(memory={0o1000: 0o011065, 0o1002: 0o125504})):
            given = self.look(line, "verify two-words.lda LINE first.lda")
            self.ends(given, 1, "001000 177777 011064 differs 011065\nsent 25 spent 0 looked 2 of 2 differ 1\nend Differs\n")
            self.was_typed(line, "Z001000/\r001000/\r001002/\r")

    def test_words_that_differ_are_listed_in_their_order(self):
        """The second differs in the byte that its mask names; what stands is not listed."""
        line = self.console_at(Console(memory={0o1000: 1, 0o1002: 0o125505}))
        given = self.look(line, "verify two-words.lda LINE")
        self.ends(given, 1, "001000 177777 031421 differs 000001\n001002 000377 000104 differs 125505\n"
                            "sent 33 spent 0 looked 2 of 2 differ 2\nend Differs\n")

    def test_a_high_byte(self):
        self.put("high.lda", tape_of([(0o1001, b"\x55")]))
        line = self.console_at(Console(memory={0o1000: 0o052777}))
        self.ends(self.look(line, "verify high.lda LINE"), 0, "sent 9 spent 0 looked 1 of 1 differ 0\nend Same\n")
        line = self.console_at(Console(memory={0o1000: 0o053000}))
        self.ends(self.look(line, "verify high.lda LINE"), 1, "001000 177400 052400 differs 053000\n"
                                                              "sent 17 spent 0 looked 1 of 1 differ 1\nend Differs\n")

    def test_many_words(self):
        """Two blocks of a tape, one word of 300 wrong."""
        words = numbers("many", 300)
        self.put("many.lda", as_tape(0o1000, words))
        memory = as_memory(0o1000, words)
        memory[0o2000] ^= 0o100
        line = self.device_at(Console(memory=memory))
        wrong = words[(0o2000 - 0o1000) // 2]
        self.ends(self.look(line, "verify many.lda LINE"), 1, f"002000 177777 {wrong:06o} differs {wrong ^ 0o100:06o}\n"
                                                              "sent 2409 spent 0 looked 300 of 300 differ 1\nend Differs\n")

    def test_a_tape_without_words_needs_no_console(self):
        for address in (self.taken_port(), "./nothing"):
            given = self.ldaodt(["verify", "no-word.lda", address])
            self.ends(given, 0, "sent 0 spent 0 looked 0 of 0 differ 0\nend Same\n")

    def test_no_memory_at_a_word(self):
        """257 words end behind 001000; what was read until then is told, too."""
        for line in self.lines(lambda: Console(words=257, memory={0o1000: 1})):
            given = self.look(line, "verify two-words.lda LINE")
            self.ends(given, 5, "001000 177777 031421 differs 000001\nsent 24 spent 0 looked 1 of 2 differ 1\nend NoWord 001002\n")

    def test_a_console_that_answers_nothing(self):
        """Each of its four keys is a `Z`, behind a silence."""
        for line in self.lines(DeafConsole):
            began = time.monotonic()
            self.ends(self.look(line, "verify first.lda LINE --patience 3"), 5, "sent 4 spent 3 looked 0 of 1 differ 0\nend GaveUp\n")
            self.assertGreaterEqual(time.monotonic() - began, 4 * self.quiet / 1000)
            self.was_typed(line, "ZZZZ")

    def test_no_files_are_made(self):
        line = self.console_at(Console(memory={0o1000: 0o011064}))
        self.look(line, "verify first.lda LINE")
        self.holds({})

    def test_an_output_that_is_full(self):
        """Behind the first line that can't be written, of a word that was looked at twice, no word is read."""
        line = self.console_at(Console())
        self.ends(self.look(line, "verify two-words.lda LINE", before="> /dev/full"), 4, "", NO_OUTPUT)
        self.was_typed(line, "Z001000/\r001000/")
        line = self.console_at(Console(memory={0o1000: 0o031421, 0o1002: 0o104}))
        self.ends(self.look(line, "verify two-words.lda LINE", before="> /dev/full"), 4, "", NO_OUTPUT)
        self.was_typed(line, "Z001000/\r001002/\r")

    def test_a_word_that_differs_is_shown_as_soon_as_it_was_read(self):
        """Long before the look is over; and one that is killed leaves what it has found."""
        self.put("many.lda", as_tape(0o1000, [1] * 33))
        line = self.console_at(SlowConsole(memory=as_memory(0o1000, [0, 1, 0] + [1] * 30)))
        process = self.begin(self.words_at(line, "verify many.lda LINE"))
        for address in (0o1000, 0o1004):
            self.is_so(process.stdout.readline(), f"{address:06o} 177777 000001 differs 000000\n")
            self.assertLess(len(line.machine.typed), 8 * 33)
        process.kill()
        self.is_so(process.communicate(timeout=60), ("", ""))

    def test_a_tape_is_refused_before_all(self):
        self.put("stray.lda", b"A")
        line = self.console_at(Console())
        self.ends(self.look(line, "verify stray.lda LINE"), 3, "", "ldaodt: tape refused at 0: Stray\n")
        self.is_so(line.connections, 0)

    def test_a_console_that_is_not_there(self):
        for name, why in ((self.taken_port(), errno.ECONNREFUSED), ("./nothing", errno.ENOENT), ("/dev/null", NO_TERMINAL)):
            self.ends(self.ldaodt(["verify", "first.lda", name]), 4, "", fault(f"cannot connect to {name}", why))

    def test_a_terminal_is_shown_how_far_it_is(self):
        line = self.console_at(Console(memory={0o1000: 0o011064}))
        given, shown = self.at_a_terminal(lambda terminal: self.look(line, "verify first.lda LINE", stderr=terminal))
        self.is_so((given.status, given.out), (0, "sent 9 spent 0 looked 1 of 1 differ 0\nend Same\n"))
        self.assertTrue(shown.startswith("\r\x1b[?7l0 of 1 words, 0%, listening\x1b[K\x1b[?7h"), repr(shown))
        self.assertTrue(shown.endswith("\x1b[?7h\r\x1b[K"), repr(shown))


class Save(Looks):
    """What `save` makes of a memory."""

    def test_a_range_of_words(self):
        for number, line in enumerate(self.lines(lambda: Console(memory={0o1000: 0o011064, 0o1002: 0o177777}))):
            given = self.look(line, f"save {number}.lda LINE 1000 1004")
            self.ends(given, 0, "sent 49 spent 0 read 3 of 3\nend Saved\n")
            self.was_typed(line, "Z001000/\r001000/\r001002/\r001002/\r001004/\r001004/\r")
            self.is_so(bytes_of(self.path(f"{number}.lda")), as_tape(0o1000, [0o011064, 0o177777, 0]))
            self.is_so(os.path.exists(self.path(f"{number}.lda{BESIDE}")), False)

    def test_one_word_at_each_end_of_memory(self):
        line = self.console_at(Console(memory={0: 0o123456, 0o157776: 0o101010}))
        for name, address, word in (("low", 0, 0o123456), ("high", 0o157776, 0o101010)):
            given = self.look(line, f"save {name}.lda LINE {address:o} {address:06o}")
            self.ends(given, 0, "sent 17 spent 0 read 1 of 1\nend Saved\n")
            self.is_so(bytes_of(self.path(f"{name}.lda")), as_tape(address, [word]))

    def test_blocks_of_512_bytes(self):
        """256 words are one block, 257 are two, and so are 512."""
        words = numbers("blocks", 512)
        line = self.console_at(Console(memory=as_memory(0o1000, words)))
        for count in (255, 256, 257, 512):
            given = self.look(line, f"save {count}.lda LINE 1000 {0o1000 + 2 * count - 2:o}")
            self.ends(given, 0, f"sent {1 + 16 * count} spent 0 read {count} of {count}\nend Saved\n")
            self.is_so(bytes_of(self.path(f"{count}.lda")), as_tape(0o1000, words[:count]))

    def test_a_start(self):
        line = self.console_at(Console())
        self.ends(self.look(line, "save a.lda LINE 1000 1000 --start 1002"), 0, "sent 17 spent 0 read 1 of 1\nend Saved\n")
        self.is_so(bytes_of(self.path("a.lda")), as_tape(0o1000, [0], start=0o1002))
        self.ends(self.look(line, "save b.lda LINE 1000 1000 --start 173001"), 0, "sent 17 spent 0 read 1 of 1\nend Saved\n")
        self.is_so(bytes_of(self.path("b.lda")), as_tape(0o1000, [0], start=0o173001))

    def test_memory_comes_back_as_it_was(self):
        """Saved, changed, loaded from what was saved, looked at."""
        words = numbers("before", 40)
        memory = as_memory(0o776, [0o1111, *words, 0o2222])
        line = self.device_at(Console(memory=memory))
        self.ends(self.look(line, "save a.lda LINE 1000 1116"), 0, "sent 641 spent 0 read 40 of 40\nend Saved\n")
        for address, word in as_memory(0o1000, numbers("after", 40)).items():
            line.machine.words[address // 2] = word
        given = self.ldaodt(self.words_at(line, "load a.lda LINE"))
        self.is_so((given.status, given.out.split("\n")[1], given.err), (0, "end Loaded", ""))
        line.settle()
        self.is_so({it: line.machine.word(it) for it in memory}, memory)
        line.machine.typed = ""
        self.ends(self.look(line, "verify a.lda LINE"), 0, "sent 321 spent 0 looked 40 of 40 differ 0\nend Same\n")

    def test_a_machine_with_less_memory(self):
        """The tape has what there was."""
        words = numbers("small", 64)
        for number, line in enumerate(self.lines(lambda: Console(words=64, memory=as_memory(0, words)))):
            self.ends(self.look(line, f"save {number}.lda LINE 0 157776"), 5, "sent 1032 spent 0 read 64 of 28672\nend NoWord 000200\n")
            self.is_so(bytes_of(self.path(f"{number}.lda")), as_tape(0, words))

    def test_no_word_at_all(self):
        """No file is left, whatever the end."""
        line = self.console_at(Console(words=64))
        self.ends(self.look(line, "save a.lda LINE 1000 1002"), 5, "sent 8 spent 0 read 0 of 2\nend NoWord 001000\n")
        line = self.console_at(DeafConsole())
        self.ends(self.look(line, "save a.lda LINE 1000 1002 --patience 0"), 5, "sent 1 spent 0 read 0 of 2\nend GaveUp\n")
        line = self.console_at(Console(), close_after=20)
        given = self.look(line, "save a.lda LINE 1000 1002")
        self.is_so((given.status, given.out.split("\n")[1], given.err), (4, "end LineFailed", FAILED))
        self.holds({})

    def test_a_patience_that_is_lost(self):
        """The machine falls silent behind its first word: more could be had, and no tape of that one has the name."""
        class Falling(Console):
            def take(self, key):
                answer = super().take(key)
                return answer if len(self.typed) <= 17 else ""

        line = self.device_at(Falling(memory={0o1000: 0o011064}))
        self.ends(self.look(line, "save a.lda LINE 1000 1002 --patience 2"), 5, "sent 20 spent 2 read 1 of 2\nend GaveUp\n")
        self.holds({})


class Files(Looks):
    """Which file `save` makes, and which it leaves alone."""

    def is_refused(self, name, text, why=None):
        line = self.console_at(Console())
        self.ends(self.look(line, f"save {name} LINE 1000 1000"), 4, "", fault(text, why))
        self.is_so(line.connections, 0)

    def test_a_file_that_is_there(self):
        """Whatever it is, it is as it was, and nobody is connected to."""
        self.leaves_what_is_there(self.is_refused, "first.lda")

    def test_it_comes_before_the_connection(self):
        self.put("plain", b"hello")
        given = self.ldaodt(["save", "plain", self.taken_port(), "0", "0"])
        self.ends(given, 4, "", "ldaodt: plain is there already\n")

    def test_a_file_that_can_not_be_made(self):
        self.put("plain", b"hello")
        for name, why in (("nowhere/a.lda", errno.ENOENT), ("plain/a.lda", errno.ENOTDIR), ("new/", None)):
            with self.subTest(name):
                self.is_refused(name, f"cannot write {name}", why)
        line = self.console_at(Console())
        given = self.ldaodt(["save", "", line.address, "1000", "1000"])
        self.ends(given, 4, "", fault("cannot write ''"))
        self.is_so(line.connections, 0)

    def test_a_file_in_the_root_folder(self):
        """That of a test's own root: its folder has no name but the slash."""
        rooted = ["unshare", "--user", "--map-root-user", "--mount", "sh", "-c", IN_A_ROOT, "sh"]
        shutil.copy(PROGRAM, self.path("program"))
        if subprocess.run([*rooted, "/program", "--version"], cwd=self.room, capture_output=True, check=False).returncode:
            self.skipTest("no root can be made here: unshare is not allowed")
        line = self.console_at(Console(memory={0o1000: 0o011064}))
        words = ["/program", "save", "/a.lda", line.address, "1000", "1000", "--quiet", str(self.quiet)]
        given = subprocess.run([*rooted, *words], cwd=self.room, capture_output=True, text=True, check=False)
        self.is_so((given.returncode, given.stdout, given.stderr), (0, "sent 17 spent 0 read 1 of 1\nend Saved\n", ""))
        self.is_so(bytes_of(self.path("a.lda")), as_tape(0o1000, [0o011064]))

    def test_a_console_that_is_not_there(self):
        """No file is left."""
        for name, why in ((self.taken_port(), errno.ECONNREFUSED), ("./nothing", errno.ENOENT), ("/dev/null", NO_TERMINAL)):
            given = self.ldaodt(["save", "a.lda", name, "1000", "1000"])
            self.ends(given, 4, "", fault(f"cannot connect to {name}", why))
        self.holds({})

    def test_a_file_that_somebody_makes_meanwhile(self):
        """It is as it was, and nothing is reported; the tape stays beside it."""
        line = self.console_at(SlowConsole())
        process = self.begin(self.words_at(line, "save a.lda LINE 1000 1100"))
        self.until(lambda: len(line.machine.typed) > 20)
        self.put("a.lda", b"hello")
        out, err = process.communicate(timeout=60)
        self.is_so((process.returncode, out, err), (4, "", "ldaodt: a.lda is there already\n"))
        self.holds_in_room({"a.lda": b"hello", f"a.lda{BESIDE}": as_tape(0o1000, [0] * 33)})

    def test_two_saves_of_one_name(self):
        """The second is refused, and the first goes on."""
        line, other = self.console_at(SlowConsole()), self.console_at(Console())
        process = self.begin(self.words_at(line, "save a.lda LINE 1000 1100"))
        self.until(lambda: len(line.machine.typed) > 20)
        self.ends(self.look(other, "save a.lda LINE 1000 1000"), 4, "", "ldaodt: a.lda.part is there already\n")
        self.is_so(other.connections, 0)
        out, err = process.communicate(timeout=60)
        self.is_so((process.returncode, out, err), (0, "sent 529 spent 0 read 33 of 33\nend Saved\n", ""))
        self.holds_in_room({"a.lda": as_tape(0o1000, [0] * 33)})

    def holds_in_room(self, files):
        """Asserts that the folder has these files, and else only the tapes that were put there."""
        there = {it: bytes_of(self.path(it)) for it in os.listdir(self.room) if it not in ("first.lda", "no-word.lda", "two-words.lda")}
        self.is_so(there, files)

    def test_an_output_that_is_full(self):
        """The tape is where it belongs all the same."""
        line = self.console_at(Console())
        self.ends(self.look(line, "save a.lda LINE 1000 1000", before="> /dev/full"), 4, "", NO_OUTPUT)
        self.holds_in_room({"a.lda": as_tape(0o1000, [0])})

    def test_a_disk_that_is_full(self):
        """A file may have so many bytes. The tape has 16, and with fewer none is begun: nobody is called. A tape that is shorter
        than its room, since memory ends, takes that of all its words."""
        for size in range(18):
            line = self.console_at(Console())
            given = self.look(line, f"save {size}.lda LINE 1000 1000", file_size=size)
            if size < 16:
                self.ends(given, 4, "", fault(f"cannot write {size}.lda", errno.EFBIG))
                self.is_so((line.connections, line.machine.typed), (0, ""))
            else:
                self.ends(given, 0, "sent 17 spent 0 read 1 of 1\nend Saved\n")
        line = self.console_at(Console(words=64))
        self.ends(self.look(line, "save a.lda LINE 176 200", file_size=17), 4, "", fault("cannot write a.lda", errno.EFBIG))
        self.is_so(line.machine.typed, "")
        self.ends(self.look(line, "save a.lda LINE 176 200", file_size=18), 5, "sent 24 spent 0 read 1 of 2\nend NoWord 000200\n")
        self.holds_in_room({"16.lda": as_tape(0o1000, [0]), "17.lda": as_tape(0o1000, [0]), "a.lda": as_tape(0o176, [0])})


class Failures(Looks):
    """Lines that fail, and looks that are killed."""

    def test_a_hang_up_behind_each_character(self):
        """Each key whose turn it was went out; each number counts whose last digit and space had come."""
        def trial(characters):
            line = self.console_at(Console(), close_after=characters)
            return characters, self.look(line, "verify two-words.lda LINE"), self.look_again(line, characters)

        with ThreadPoolExecutor(16) as pool:
            for characters, verified, saved in pool.map(trial, range(1, len(ARE_KEYS_TWICE))):
                with self.subTest(characters):
                    sent = sum(ARE_KEYS_TWICE[:characters + 1])
                    read = sum(characters >= it for it in NUMBERS_AT)
                    differ = ("001000 177777 031421 differs 000000\n", "001002 000377 000104 differs 000000\n")[:read]
                    self.ends(verified, 4, "".join(differ) + f"sent {sent} spent 0 looked {read} of 2 differ {read}\nend LineFailed\n", FAILED)
                    self.ends(saved, 4, f"sent {sent} spent 0 read {read} of 2\nend LineFailed\n", FAILED)
                    self.is_so(bytes_of(self.path(f"{characters}.lda")), b"")

    def look_again(self, line, characters):
        """A save over a line like the one of a look before it, which has hung up."""
        line.keys = line.answered = 0
        line.machine = Console()
        return self.look(line, f"save {characters}.lda LINE 1000 1002")

    def test_a_device_that_hangs_up(self):
        """What had come and was not looked for yet may be lost with it."""
        def trial(characters):
            line = self.device_at(Console(), close_after=characters)
            return characters, self.look(line, f"save {characters}.lda LINE 1000 1002")

        with ThreadPoolExecutor(16) as pool:
            for characters, given in pool.map(trial, range(1, len(ARE_KEYS_TWICE) - 1)):
                with self.subTest(characters):
                    self.is_so((given.status, given.err, given.out.split("\n")[1:]), (4, FAILED, ["end LineFailed", ""]))
                    read = int(re.search(r" read (\d) of 2\n", given.out)[1])
                    self.assertLessEqual(read, sum(characters >= it for it in NUMBERS_AT))
                    self.is_so(bytes_of(self.path(f"{characters}.lda")), b"")

    def test_each_lost_character(self):
        """It costs a mishap, and each word is read all the same."""
        keys, answers = sum(ARE_KEYS), len(ARE_KEYS) - sum(ARE_KEYS)
        rows = [{"lost_key": it} for it in range(keys)] + [{"lost_answer": it} for it in range(answers)]

        def trial(row):
            line = self.console_at(LossyConsole(memory={0o1000: 0o031421, 0o1002: 0o104}, **row))
            return row, self.look(line, "verify two-words.lda LINE")

        with ThreadPoolExecutor(16) as pool:
            for row, given in pool.map(trial, rows):
                with self.subTest(row):
                    counted = re.fullmatch(r"sent (\d+) spent 1 looked 2 of 2 differ 0\nend Same\n", given.out)
                    self.assertIsNotNone(counted, str(given))
                    self.is_so((given.status, given.err), (0, ""))
                    self.assertLessEqual(int(counted[1]), keys + 9)

    def test_more_losses_than_the_patience(self):
        """A line that loses one character of ten both ways, looked at again and again: what is listed or saved is what
        memory holds."""
        words = numbers("lossy", 6)

        def trial(seed):
            line = self.console_at(Console(memory=as_memory(0o1000, words)), loss=0.1, seed=seed)
            return seed, self.look(line, f"save {seed}.lda LINE 1000 1012 --patience 3")

        with ThreadPoolExecutor(16) as pool:
            ended = set()
            for seed, given in pool.map(trial, range(32)):
                with self.subTest(seed):
                    read = int(re.search(r" read (\d) of 6\n", given.out)[1])
                    ended.add(given.out.split("\n")[1])
                    self.is_so(bytes_of(self.path(f"{seed}.lda")), as_tape(0o1000, words) if read == 6 else b"")
            self.assertLessEqual(ended, {"end Saved", "end GaveUp"})
            self.assertIn("end GaveUp", ended)

    def test_a_look_that_is_killed(self):
        """At any moment: memory is what it was, no file has the name, and the next save makes it, once what is left is gone."""
        words = numbers("killed", 33)

        def trial(keys):
            line = self.device_at(SlowConsole(memory=as_memory(0o1000, words)))
            before = list(line.machine.words)
            process = self.begin(self.words_at(line, f"save {keys}.lda LINE 1000 1100"))
            self.until(lambda: len(line.machine.typed) >= keys)
            process.send_signal(signal.SIGKILL)
            process.wait()
            is_there = os.path.exists(self.path(f"{keys}.lda"))
            if keys or os.path.exists(self.path(f"{keys}.lda{BESIDE}")):
                os.remove(self.path(f"{keys}.lda{BESIDE}"))
            line.settle()
            self.has_looked(line, before)
            # A key that was under way may have opened a word, and a look begins at any state of ODT.
            return keys, is_there, self.look(line, f"save {keys}.lda LINE 1000 1100")

        with ThreadPoolExecutor(8) as pool:
            for keys, is_there, given in pool.map(trial, (0, 1, 2, 7, 8, 9, 10, 30, 90, 150, 200)):
                with self.subTest(keys):
                    self.is_so(is_there, False)
                    self.ends(given, 0, "sent 529 spent 0 read 33 of 33\nend Saved\n")
                    self.is_so(bytes_of(self.path(f"{keys}.lda")), as_tape(0o1000, words))
                    self.is_so(os.path.exists(self.path(f"{keys}.lda{BESIDE}")), False)

    def test_the_echo_left_on(self):
        """A device that sends back what it hears never falls silent: nothing is typed but one `Z`."""
        line = self.device_at(Console(), settings="raw echo")
        before = list(line.machine.words)
        process = self.begin(self.words_at(line, "verify first.lda LINE"))
        time.sleep(2)
        self.assertIsNone(process.poll())
        process.kill()
        line.hang_up()
        self.is_so((line.machine.words == before, line.machine.starts), (True, []))

    def test_a_device_that_a_load_has(self):
        line = self.device_at(SlowConsole())
        load = self.begin(self.words_at(line, "load first.lda LINE"))
        self.until(lambda: len(line.machine.typed) > 3)
        given = self.ldaodt(self.words_at(line, "verify first.lda LINE"))
        self.ends(given, 4, "", fault(f"cannot connect to {line.address}", IN_USE))
        out, err = load.communicate(timeout=60)
        self.is_so((load.returncode, out, err), (0, "sent 30 spent 0 verified 1 of 1\nend Started\n", ""))


class Words(Looks):
    """The words of a look."""

    def test_tapes_are_one(self):
        """The later tape's word counts, and the start of neither matters."""
        line = self.console_at(Console(memory={0o1000: 0o011064}))
        self.ends(self.look(line, "verify first.lda LINE first.lda no-word.lda"), 0, "sent 9 spent 0 looked 1 of 1 differ 0\nend Same\n")

    def test_a_tape_on_standard_input(self):
        line = self.console_at(Console(memory={0o1000: 0o011064}))
        given = self.look(line, "verify - LINE", keys=bytes_of(self.path("first.lda")))
        self.ends(given, 0, "sent 9 spent 0 looked 1 of 1 differ 0\nend Same\n")

    def test_ranges(self):
        """An address is one to six octal digits."""
        line = self.console_at(Console(memory={0o1000: 0o011064}))
        for number, words in enumerate(("1000 1000", "001000 1000", "01000 001000")):
            self.ends(self.look(line, f"save {number}.lda LINE {words}"), 0, "sent 17 spent 0 read 1 of 1\nend Saved\n")
            self.is_so(bytes_of(self.path(f"{number}.lda")), as_tape(0o1000, [0o011064]))

    def test_ranges_that_are_none(self):
        """Nobody is connected to, and no file is made."""
        line = self.console_at(Console())
        for words in ("1001 1002", "1000 1001", "1002 1000", "0 160000", "160000 160000", "8 10", "0001000 1000", "1000 0001000", "'' 0", "-2 0", "1000"):
            with self.subTest(words):
                given = self.look(line, f"save a.lda LINE {words}")
                self.is_so((given.status, given.out, given.err.startswith("error: ")), (2, "", True))
        self.is_so(line.connections, 0)
        self.holds({})


if __name__ == "__main__":
    unittest.main()
