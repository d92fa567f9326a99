"""What a `save` leaves that does not come to its end: FILE.part, with each block of which the last word was read; and how the same
line goes on behind it. And what it takes from the disk before the first key, and in which order the file of a tape comes about.
"""
import errno
import os
import signal
import time
import unittest
from concurrent.futures import ThreadPoolExecutor

from cases import Console, LossyConsole
from outside import bytes_of, fault
from test_looks import FAILED, Looks, as_memory, as_tape, numbers
import traced

# 300 words are one block of 512 bytes and a shorter one: 519 and 95 bytes, and 7 that end the tape.
WORDS = numbers("part", 300)
LAST = 0o1000 + 2 * len(WORDS) - 2
SAVE = f"save a.lda LINE 1000 {LAST:o} --once"
BLOCK, ROOM = 519, 519 + 95 + 7
TAPE = as_tape(0o1000, WORDS)
SAVED = "sent 2401 spent 0 read 300 of 300\nend Saved\n"

# What is looked at of the 256 words of its block: the first, the last, and others spread evenly between, eight in all.
SAMPLES = [0o1000 + 2 * (number * 255 // 7) for number in range(8)]
LOOKS = "Z" + "".join(f"{address:06o}/\r" for address in SAMPLES)
REST = "Z" + "".join(f"{0o1000 + 2 * number:06o}/\r" for number in range(256, 300))
WENT_ON = f"sent {len(LOOKS) + len(REST)} spent 0 read 300 of 300\nend Saved\n"
STALE = "ldaodt: memory does not hold what a.lda.part says: remove a.lda.part to begin again\n"
ANOTHERS = "ldaodt: a.lda.part is not of this save\n"

# Calls that touch names and files, by name; some have no name in `traced`.
ON_THE_DISK = ("openat", "write", "flock", "fsync", "ftruncate", "statx", "link", "unlink")


class SlowEnd(Console):
    """It takes its time for each key behind the first block."""

    def take(self, key):
        if len(self.typed) > 8 * 258:
            time.sleep(0.02)
        return super().take(key)


class SlowBegin(Console):
    """It takes its time for each key of the first words."""

    def take(self, key):
        if len(self.typed) < 8 * 30:
            time.sleep(0.02)
        return super().take(key)


class Part(Looks):
    """A machine with words, and the part of a save of them."""

    def machine(self, kind=Console, **more):
        return self.console_at(kind(memory=as_memory(0o1000, WORDS), **more))

    def part(self):
        return bytes_of(self.path("a.lda.part"))

    def are_there(self):
        return {it for it in os.listdir(self.room) if it.startswith("a.lda")}

    def leave(self, text=TAPE[:BLOCK]):
        """What a save has left: a block, or another text, as long as the whole tape."""
        self.put("a.lda.part", text + bytes(ROOM - len(text)))

    def is_saved(self, given, report=WENT_ON):
        self.ends(given, 0, report)
        self.is_so((self.are_there(), bytes_of(self.path("a.lda"))), ({"a.lda"}, TAPE))

    def refuses_a_second(self, report):
        """A save goes to its end and reports this, while a second one of the same name is refused."""
        line, other = self.machine(SlowBegin), self.machine()
        process = self.begin(self.words_at(line, SAVE))
        self.until(lambda: len(line.machine.typed) > 20)
        self.ends(self.look(other, SAVE), 4, "", "ldaodt: a.lda.part is there already\n")
        self.is_so(other.connections, 0)
        out, err = process.communicate(timeout=120)
        self.is_so((process.returncode, out, err), (0, report, ""))
        self.is_so((self.are_there(), bytes_of(self.path("a.lda"))), ({"a.lda"}, TAPE))

    def is_left(self, blocks):
        """FILE.part is there, as long as the whole tape, with so many complete blocks in front, and no FILE."""
        self.is_so(self.are_there(), {"a.lda.part"})
        self.is_so(len(self.part()), ROOM)
        self.is_so(self.part()[:BLOCK * blocks], TAPE[:BLOCK * blocks])


class Left(Part):
    """A save that somebody ends."""

    def test_whatever_ends_it(self):
        """Ctrl-C, a closed terminal, a kill: the block stays, memory is what it was, and the same line goes on."""
        for number in (signal.SIGINT, signal.SIGHUP, signal.SIGTERM, signal.SIGKILL):
            with self.subTest(number):
                line = self.machine(SlowEnd)
                before = list(line.machine.words)
                process = self.begin(self.words_at(line, SAVE))
                self.until(lambda: len(line.machine.typed) > 8 * 260)
                process.send_signal(number)
                self.is_so(process.wait(), -number)
                line.settle()
                self.has_looked(line, before)
                self.is_left(1)
                other = self.machine()
                self.is_saved(self.look(other, SAVE))
                self.is_so(other.machine.typed, LOOKS + REST)
                os.remove(self.path("a.lda"))

    def test_before_the_first_block(self):
        """There is room, and nothing in it."""
        line = self.machine(SlowBegin)
        process = self.begin(self.words_at(line, SAVE))
        self.until(lambda: len(line.machine.typed) > 8 * 20)
        self.is_left(0)
        self.is_so(self.part(), bytes(ROOM))
        process.kill()
        process.wait()
        self.is_left(0)

    def test_the_block_is_there_with_its_last_word(self):
        """As soon as the next word is asked for."""
        line = self.machine(SlowEnd)
        self.begin(self.words_at(line, SAVE))
        self.until(lambda: len(line.machine.typed) > 1 + 8 * 257)
        self.is_so(self.part()[:BLOCK], TAPE[:BLOCK])

    def test_a_part_of_any_kind_is_left(self):
        """Nobody is connected to."""
        def linked(path):
            self.leave()
            os.link(path, self.path("second"))

        for make in (linked, os.mkdir, os.mkfifo, lambda path: os.symlink("nowhere", path)):
            make(self.path("a.lda.part"))
            line = self.machine()
            self.ends(self.look(line, SAVE), 4, "", "ldaodt: a.lda.part is there already\n")
            self.is_so((line.connections, self.are_there()), (0, {"a.lda.part"}))
            (os.rmdir if os.path.isdir(self.path("a.lda.part")) else os.remove)(self.path("a.lda.part"))


class GoesOn(Part):
    """A save of which an earlier one has left something."""

    def test_behind_its_block(self):
        """Samples of it are looked at, and the words behind it are read."""
        self.leave()
        line = self.machine()
        self.is_saved(self.look(line, SAVE))
        self.is_so((line.machine.typed, line.connections), (LOOKS + REST, 1))

    def test_behind_a_block_that_is_torn(self):
        """What stands behind the last complete block counts as not read."""
        for behind in (TAPE[BLOCK:BLOCK + 40], TAPE[BLOCK:], b"\xff" * 90):
            self.leave(TAPE[:BLOCK] + behind)
            self.is_saved(self.look(self.machine(), SAVE))
            os.remove(self.path("a.lda"))

    def test_behind_all_of_its_blocks(self):
        """Nothing is left to be read."""
        for blocks in (1, 2):
            words = numbers("all", 256 * blocks)
            tape = as_tape(0o1000, words)
            self.put("a.lda.part", tape[:-7] + bytes(7))
            line = self.console_at(Console(memory=as_memory(0o1000, words)))
            given = self.look(line, f"save a.lda LINE 1000 {0o1000 + 2 * len(words) - 2:o} --once")
            self.ends(given, 0, f"sent {len(LOOKS)} spent 0 read {len(words)} of {len(words)}\nend Saved\n")
            self.is_so((self.are_there(), bytes_of(self.path("a.lda"))), ({"a.lda"}, tape))
            os.remove(self.path("a.lda"))

    def test_with_another_start(self):
        self.leave()
        given = self.look(self.machine(), SAVE + " --start 1000")
        self.ends(given, 0, WENT_ON)
        self.is_so(bytes_of(self.path("a.lda")), as_tape(0o1000, WORDS, 0o1000))

    def test_a_part_without_a_block(self):
        """One that was filled, and one with less than a block: every word is read, and none looked at before."""
        for text in (b"", TAPE[:6], TAPE[:BLOCK - 1], TAPE[:100] + b"\xff" + TAPE[101:BLOCK]):
            self.leave(text)
            line = self.machine()
            self.is_saved(self.look(line, SAVE), SAVED)
            os.remove(self.path("a.lda"))

    def test_a_small_tape_that_was_not_named(self):
        """Killed once it was whole."""
        tape = as_tape(0o1000, WORDS[:20])
        self.put("a.lda.part", tape)
        given = self.look(self.machine(), "save a.lda LINE 1000 1046 --once")
        self.ends(given, 0, "sent 161 spent 0 read 20 of 20\nend Saved\n")
        self.is_so((self.are_there(), bytes_of(self.path("a.lda"))), ({"a.lda"}, tape))

    def test_a_word_that_memory_does_not_hold(self):
        """Each of those that are looked at; the first that differs is told. Nothing else is looked at, and nothing becomes of the part."""
        for places in ([0], [1], [4], [7], [2, 5]):
            with self.subTest(places):
                self.leave()
                memory = as_memory(0o1000, WORDS)
                for place in places:
                    memory[SAMPLES[place]] ^= 0o400
                line = self.console_at(Console(memory=memory))
                given = self.look(line, SAVE)
                self.ends(given, 5, f"sent {len(LOOKS)} spent 0 read 0 of 300\nend Stale {SAMPLES[places[0]]:06o}\n", STALE)
                self.is_so(line.machine.typed, LOOKS)
                self.is_so((self.are_there(), self.part()), ({"a.lda.part"}, TAPE[:BLOCK] + bytes(ROOM - BLOCK)))

    def test_a_word_that_is_not_looked_at(self):
        """Samples are no proof: the tape has what was read first."""
        self.leave()
        memory = as_memory(0o1000, WORDS)
        memory[0o1002] ^= 1
        self.is_saved(self.look(self.console_at(Console(memory=memory)), SAVE))

    def test_another_range(self):
        for words in ("1000 2124", "1000 2130", "1002 2130", "776 2124", "1000 1000"):
            self.leave()
            line = self.machine()
            self.ends(self.look(line, f"save a.lda LINE {words} --once"), 3, "", ANOTHERS)
            self.is_so((line.connections, self.are_there(), self.part()), (0, {"a.lda.part"}, TAPE[:BLOCK] + bytes(ROOM - BLOCK)))

    def test_what_is_no_front_of_a_tape(self):
        for text in (b"", b"hello", bytes(ROOM - 1), bytes(ROOM + 1), TAPE + b"x", b"\0" * 9 + TAPE[9:], b"x" * ROOM, bytes(ROOM - 1) + b"x", TAPE[:BLOCK]):
            self.put("a.lda.part", text)
            line = self.machine()
            self.ends(self.look(line, SAVE), 3, "", ANOTHERS)
            self.is_so((line.connections, self.are_there(), self.part()), (0, {"a.lda.part"}, text))

    def test_a_file_is_told_first(self):
        self.leave()
        self.put("a.lda", b"hello")
        self.ends(self.look(self.machine(), SAVE), 4, "", "ldaodt: a.lda is there already\n")
        self.is_so(bytes_of(self.path("a.lda")), b"hello")

    def test_two_that_go_on(self):
        """The second is refused, and takes nothing."""
        self.leave()
        self.refuses_a_second(WENT_ON)

    def test_a_console_that_is_not_there(self):
        """The part stays, where there is a block in it."""
        self.leave()
        given = self.ldaodt(["save", "a.lda", self.taken_port(), "1000", f"{LAST:o}"])
        self.is_so(given.status, 4)
        self.is_left(1)

    def test_each_lost_key_and_character_of_the_looks(self):
        """Each costs a mishap, and nothing else."""
        def trial(row):
            number, lost = row
            room = f"lost{number}.lda"
            self.put(room + ".part", TAPE[:BLOCK] + bytes(ROOM - BLOCK))
            line = self.machine(LossyConsole, **lost)
            given = self.look(line, SAVE.replace("a.lda", room))
            counts = given.out.split()
            return (given.status, counts[3], given.out.splitlines()[1], bytes_of(self.path(room)))

        rows = [{"lost_key": place} for place in range(1, 26, 3)] + [{"lost_answer": place} for place in range(4, 50, 5)]
        with ThreadPoolExecutor(8) as pool:
            for status, spent, end, text in pool.map(trial, enumerate(rows)):
                self.is_so((status, spent, end, text), (0, "1", "end Saved", TAPE))

    def test_patience_is_that_of_looks_and_reading_together(self):
        """A console that falls silent in the looks: no word counts, and the part is as it was."""
        class Falling(Console):
            def take(self, key):
                return "" if len(self.typed) > 30 else super().take(key)

        self.leave()
        given = self.look(self.machine(Falling), SAVE + " --patience 2")
        self.is_so((given.status, given.out.splitlines()[0].split()[2:], given.out.splitlines()[1]), (5, "spent 2 read 0 of 300".split(), "end GaveUp"))
        self.is_left(1)

    def test_memory_that_ends_in_the_looks(self):
        self.leave()
        given = self.look(self.console_at(Console(words=0o1000 // 2 + 40, memory=as_memory(0o1000, WORDS[:40]))), SAVE)
        self.is_so((given.status, given.out.splitlines()[1]), (5, f"end NoWord {SAMPLES[2]:06o}"))
        self.is_left(1)

    def test_a_line_that_fails_in_the_looks(self):
        self.leave()
        line = self.device_at(SlowBegin(memory=as_memory(0o1000, WORDS)))
        process = self.begin(self.words_at(line, SAVE))
        self.until(lambda: len(line.machine.typed) > 20)
        line.hang_up()
        out, err = process.communicate(timeout=60)
        self.is_so((process.returncode, err, out.splitlines()[1]), (4, FAILED, "end LineFailed"))
        self.is_so(" read 0 of 300" in out, True)
        self.is_left(1)


class Ended(Part):
    """FILE comes to its name where its tape is all that can be had, and leaves no part then; else the part stays, and the same line
    goes on behind it."""

    def test_all_words(self):
        self.ends(self.look(self.machine(), SAVE), 0, SAVED)
        self.is_so((self.are_there(), bytes_of(self.path("a.lda"))), ({"a.lda"}, TAPE))

    def test_memory_that_ends(self):
        for words in (256, 270, 512, 513):
            with self.subTest(words):
                line = self.console_at(Console(words=words, memory=as_memory(0, numbers("ends", words))))
                given = self.look(line, "save a.lda LINE 0 3776 --once")
                self.ends(given, 5, f"sent {8 * words + 8} spent 0 read {words} of 1024\nend NoWord {2 * words:06o}\n")
                self.is_so((self.are_there(), bytes_of(self.path("a.lda"))), ({"a.lda"}, as_tape(0, numbers("ends", words))))
                os.remove(self.path("a.lda"))

    def test_a_line_that_fails(self):
        """Behind the first block."""
        line = self.device_at(SlowEnd(memory=as_memory(0o1000, WORDS)))
        process = self.begin(self.words_at(line, SAVE))
        self.until(lambda: len(line.machine.typed) > 8 * 270)
        line.hang_up()
        out, err = process.communicate(timeout=60)
        count = int(out.split(" read ")[1].split()[0])
        self.is_so((process.returncode, err, out.splitlines()[1], count >= 256), (4, FAILED, "end LineFailed", True))
        self.is_left(1)
        self.is_saved(self.look(self.machine(), SAVE))

    def test_a_line_that_fails_before_the_first_block(self):
        """There is nothing to go on behind, and nothing in the way."""
        line = self.device_at(SlowBegin(memory=as_memory(0o1000, WORDS)))
        process = self.begin(self.words_at(line, SAVE))
        self.until(lambda: len(line.machine.typed) > 8 * 20)
        line.hang_up()
        self.is_so((process.wait(), self.are_there()), (4, set()))
        self.is_saved(self.look(self.machine(), SAVE), SAVED)

    def test_a_patience_that_is_lost(self):
        """A console that falls silent behind the first block, and again behind what the same line went on with."""
        class Falling(Console):
            silent_behind = 8 * 270

            def take(self, key):
                return "" if len(self.typed) > self.silent_behind else super().take(key)

        class FallingSooner(Falling):
            silent_behind = len(LOOKS) + 8 * 10

        for kind in (Falling, FallingSooner):
            given = self.look(self.machine(kind), SAVE + " --patience 2")
            self.is_so((given.status, given.out.splitlines()[1]), (5, "end GaveUp"))
            self.is_left(1)
        self.is_saved(self.look(self.machine(), SAVE))

    def test_a_console_that_is_not_there(self):
        """The part goes: nothing is in it."""
        given = self.ldaodt(["save", "a.lda", self.taken_port(), "1000", f"{LAST:o}"])
        self.is_so((given.status, self.are_there()), (4, set()))

    def test_a_file_that_somebody_makes_meanwhile(self):
        """It is as it was, and the part stays, with the whole tape in it."""
        line = self.machine(SlowEnd)
        process = self.begin(self.words_at(line, SAVE))
        self.until(lambda: len(line.machine.typed) > 8 * 270)
        self.put("a.lda", b"hello")
        out, err = process.communicate(timeout=120)
        self.is_so((process.returncode, out, err), (4, "", "ldaodt: a.lda is there already\n"))
        self.is_so((bytes_of(self.path("a.lda")), self.part()), (b"hello", TAPE))

    def test_two_saves_of_one_name(self):
        self.refuses_a_second(SAVED)

    def test_a_disk_that_is_full(self):
        """A file may have so many bytes. With fewer than the whole tape has, nothing is typed and nothing left."""
        def trial(size):
            line = self.machine()
            given = self.look(line, SAVE.replace("a.lda", f"a.lda{size}"), file_size=size)
            left = self.are_there() & {f"a.lda{size}", f"a.lda{size}.part"}
            return size, given, line.machine.typed, left

        with ThreadPoolExecutor(8) as pool:
            for size, given, typed, left in pool.map(trial, (0, 1, 2, 511, 512, BLOCK, BLOCK + 7, ROOM - 2, ROOM - 1)):
                self.ends(given, 4, "", fault(f"cannot write a.lda{size}", errno.EFBIG))
                self.is_so((typed, left), ("", set()))
        self.ends(self.look(self.machine(), SAVE, file_size=ROOM), 0, SAVED)


class AtEachCall(Part):
    """A save that is killed right before a call, and calls that fail."""

    def setUp(self):
        super().setUp()
        if not traced.is_possible():
            self.skipTest("no process can be traced here")

    def ask(self, before):
        line = self.machine()
        words = list(line.machine.words)
        try:
            given = traced.run(self.words_at(line, SAVE), before, cwd=self.room)
        except ProcessLookupError:
            given = None
        line.settle()
        self.has_looked(line, words)
        return line, given

    def on_the_disk(self):
        """The calls of a save on the files of a tape, in their order."""
        calls = []

        def before(call):
            if call.name in ON_THE_DISK and self.touches(call):
                calls.append((call.name, call.file() if call.name in ("write", "flock", "fsync", "ftruncate") else None))
        _, given = self.ask(before)
        self.is_so(given.status, 0)
        os.remove(self.path("a.lda"))
        return calls

    def touches(self, call):
        """Whether a call is about a file of the tape, or its folder."""
        if call.name == "openat":
            return call.opened().startswith("a.lda")
        if call.name == "statx":
            return call.looked_at().startswith("a.lda")
        if call.name in ("write", "flock", "fsync", "ftruncate"):
            try:
                return call.file().startswith("a.lda") or call.file() == os.path.basename(self.room)
            except OSError:
                return False
        return call.name in ("link", "unlink")

    def test_the_order(self):
        """Room is on the disk before anything else, with its name; a block is written and synced; the tape is cut, synced and named, and
        its folder synced, before its own name goes."""
        names = [name for name, _ in self.on_the_disk() if name not in ("statx", "openat", "flock")]
        self.is_so(names, ["write", "fsync", "fsync", "write", "fsync", "write", "ftruncate", "fsync", "link", "fsync", "unlink"])

    def test_the_order_of_one_that_goes_on(self):
        """That the part stands in its folder is on the disk before a key is sent or a byte written to it: the save that made it may have died
        before that was, and a power cut would take it away, blocks and all."""
        folder, part, told = os.path.basename(self.room), "a.lda.part", []

        def before(call):
            if call.name in ("write", "fsync") and self.touches(call):
                told.append((call.name, call.file()))
            elif call.name in ("connect", "link", "unlink"):
                told.append((call.name, None))

        block, end = [("write", part), ("fsync", part)], [("link", None), ("fsync", folder), ("unlink", None)]
        for text in (b"", TAPE[:BLOCK]):
            with self.subTest(len(text)):
                told.clear()
                self.leave(text)
                self.is_so(self.ask(before)[1].status, 0)
                self.is_so(told, [("fsync", folder), ("connect", None), *block, *block, *end])
                os.remove(self.path("a.lda"))

    def test_a_kill_before_each_call(self):
        """FILE is whole or not there, and a block that was synced is in the part."""
        count = len(self.on_the_disk())
        self.assertGreater(count, 10)
        for number in range(count):
            with self.subTest(number):
                seen, synced = [], []

                def before(call, number=number):
                    if call.name in ON_THE_DISK and self.touches(call):
                        if len(seen) == number:
                            os.kill(call.process, signal.SIGKILL)
                        seen.append(call.name)
                        if len(seen) <= number and call.name == "fsync" and call.file() == "a.lda.part":
                            synced.append(call.name)

                self.is_so(self.ask(before)[1] is None, True)
                there = self.are_there()
                if "a.lda" in there:
                    self.is_so(bytes_of(self.path("a.lda")), TAPE)
                elif len(synced) > 1:
                    self.is_so(self.part()[:BLOCK], TAPE[:BLOCK])
                self.is_so(there <= {"a.lda", "a.lda.part"}, True)
                self.goes_on_to_the_tape(there)

    def goes_on_to_the_tape(self, there):
        """Where there is no FILE, the same line comes to the tape of a save that nobody killed. One that was killed before it had its room
        has left a part that no save goes on with."""
        if "a.lda" not in there:
            if "a.lda.part" in there and len(self.part()) < ROOM:
                self.ends(self.look(self.machine(), SAVE), 3, "", ANOTHERS)
                os.remove(self.path("a.lda.part"))
            self.is_so(self.look(self.machine(), SAVE).status, 0)
        self.is_so(bytes_of(self.path("a.lda")), TAPE)
        for it in self.are_there():
            os.remove(self.path(it))

    def test_a_kill_before_each_call_of_one_that_goes_on(self):
        """The block that was found is never lost."""
        self.leave()
        count = len(self.on_the_disk())
        for number in range(count):
            with self.subTest(number):
                self.leave()
                seen = []

                def before(call, number=number):
                    if call.name in ON_THE_DISK and self.touches(call):
                        if len(seen) == number:
                            os.kill(call.process, signal.SIGKILL)
                        seen.append(call.name)

                self.is_so(self.ask(before)[1] is None, True)
                there = self.are_there()
                if "a.lda" not in there:
                    self.is_so(self.part()[:BLOCK], TAPE[:BLOCK])
                self.goes_on_to_the_tape(there)

    def test_a_block_that_can_not_be_synced(self):
        """The save ends there, and the part stays."""
        synced = []

        def before(call):
            if call.name == "fsync" and call.file() == "a.lda.part":
                synced.append(call.name)
                if len(synced) == 2:
                    return call.fails(errno.EIO)

        line, given = self.ask(before)
        self.ends(given, 4, "", fault("cannot write a.lda", errno.EIO))
        self.is_so(len(line.machine.typed) in (1 + 8 * 256, 8 * 256), True)
        self.is_left(1)

    def test_a_folder_that_can_not_be_brought_to_the_disk(self):
        """A save that would go on ends there before a key is sent, and the part is as it was."""
        for text in (b"", TAPE[:BLOCK]):
            self.leave(text)
            left = self.part()
            with self.subTest(len(text)):
                line, given = self.ask(lambda call: call.fails(errno.EIO) if call.name == "fsync" and call.file() == os.path.basename(self.room) else None)
                self.ends(given, 4, "", fault("cannot write a.lda", errno.EIO))
                self.is_so((line.machine.typed, self.part(), self.are_there()), ("", left, {"a.lda.part"}))


if __name__ == "__main__":
    unittest.main()
