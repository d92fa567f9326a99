"""The largest tapes, scripts, records and loads: each is done as a small one is.

A full image has 28,672 words: all of memory. How many characters a load sends is counted as in test_loads.py.
"""
import os
import subprocess
import unittest
from concurrent.futures import ProcessPoolExecutor, ThreadPoolExecutor

from cases import BabblingPeer, Case, Console
from chip_cases import Test
from outside import PROGRAM, Answer, block, bytes_of, line_failed, run, tape_of
from test_memory import Starving

import odt_peer
from fast_cases import FastCase

WORDS = 28672
# Twenty-eight words in each block, none of them zero, since addresses end below 177777.
IMAGE = [(address, 0o177777 - address) for address in range(0, 2 * WORDS, 2)]
BLOCKS = [IMAGE[first:first + 28] for first in range(0, WORDS, 28)]
TAPE = b"".join(block(words[0][0], b"".join(value.to_bytes(2, "little") for _, value in words)) for words in BLOCKS)

CHECKED = "blocks 1024 data 57344 read 64519\nno start 000001\ncanonical yes\nwords 28672\n"
STANDING = "".join(f"{address:06o} {value:06o} stands\n" for address, value in IMAGE)


def record_of(words, version):
    """A record of version 1, or of version 2 with runs of 16 words; each line has its end but that of the last run."""
    if version == 1:
        return "LDAODT 1\n" + "".join(f"{address:06o} 177777 {value:06o}\n" for address, value in words)
    runs = [words[first:first + 16] for first in range(0, len(words), 16)]
    return "LDAODT 2\n" + "\n".join(f"{run[0][0]:06o}" + "".join(f" {value:06o}" for _, value in run) for run in runs)


class FullImage(Case):
    """A tape of 1,024 blocks that fills memory: with no start, and with one at 000000."""

    def setUp(self):
        super().setUp()
        self.put("full.lda", TAPE + block(1, b""))
        self.put("starting.lda", TAPE + block(0, b""))

    def recorded(self, tape, record, peer):
        """Loads with a record, and returns the answer and the record that is left."""
        self.put("a.record", record.encode())
        given = self.ldaodt(f"load {tape} {peer.address} --quiet {self.quiet} --record a.record")
        peer.settle()
        with open(self.path("a.record"), encoding="ascii") as file:
            return given, file.read()

    def test_it_is_checked(self):
        words = "".join(f"{address:06o} 177777 {value:06o}\n" for address, value in IMAGE)
        self.ends(self.ldaodt("check full.lda"), 0, CHECKED + words)

    def test_it_is_loaded_by_a_dialogue(self):
        """22 keys for each word, behind the first."""
        talk = "".join(
            f"{address:06o}/ -> {address:06o}/000000_\n{value:06o}<CR> -> {value:06o}<CR><LF>@\n"
            f"{address:06o}/ -> {address:06o}/{value:06o}_\n<CR> -> <CR><LF>@\n"
            for address, value in IMAGE
        )
        report = "sent 630785 lost 0 spent 0 verified 28672 of 28672\nend Loaded\nodt Prompt\n"
        self.ends(self.ldaodt("dialogue full.lda"), 0, "Z -> ?<CR><LF>@\n" + talk + report + STANDING)

    def test_it_is_rehearsed(self):
        """Each word is in memory before, so that it has 8 keys. At the opening no key goes down: no take is possible."""
        puts = "".join(f"put {address:06o} {value:06o}\n" for address, value in IMAGE)
        self.put("long.script", (puts + "take\n" * 20000 + "clean\n").encode())
        impossible = "".join(f"line {WORDS + number}: not possible\n" for number in range(1, 20001))
        report = "sent 229377 lost 0 spent 0 verified 28672 of 28672\nend Loaded\nodt Prompt\n"
        self.ends(self.ldaodt("rehearse full.lda long.script"), 0, impossible + report + STANDING)

    def test_the_longest_records(self):
        """How long they are stands in docs/RECORD.md, with the mark and its two bytes."""
        peer = self.console_at(Console(), close_after=0)
        whole = {version: record_of(IMAGE, version) for version in (1, 2)}
        self.is_so((len(whole[1] + "G\n"), len(whole[2] + "\nG\n")), (602123, 213259))
        for marked in (whole[1] + "G\n", whole[2] + "\nG\n"):
            given, left = self.recorded("starting.lda", marked, peer)
            self.ends(given, 6, "sent 0 spent 0 verified 28672 of 28672\nend MaybeStarted\n")
            self.is_so(left, marked)
        self.is_so(peer.connections, 0)
        # Without the mark there is a start to type: eight words are looked at, the record is written anew, and the line breaks.
        for unmarked in whole.values():
            peer = self.console_at(Console(memory=dict(IMAGE)), close_after=5 + 8 * 25)
            given, left = self.recorded("starting.lda", unmarked, peer)
            self.ends(given, 4, "sent 65 spent 0 verified 28672 of 28672\nend LineFailed\n", line_failed("closed"))
            self.is_so(left, whole[2])

    def test_a_load_goes_on_behind_a_long_record(self):
        """Eight words of the record are looked at, and the others believed. Of the last 500 words each other one stands: of the
        rest one half has 22 keys, the other 8."""
        done, due = IMAGE[:-500], IMAGE[-500:]
        held = dict(done[it * (len(done) - 1) // 7] for it in range(8))
        peer = self.console_at(Console(memory={**held, **dict(due[::2])}))
        given, left = self.recorded("starting.lda", record_of(done, 2), peer)
        self.ends(given, 0, f"sent {65 + 1 + 250 * 22 + 250 * 8 + 7} spent 0 verified 28672 of 28672\nend Started\n")
        self.is_so(left, record_of(IMAGE, 2) + "\nG\n")
        self.is_so([(address, peer.machine.word(address)) for address, _ in due], due)
        self.is_so(({address for address, _ in done if peer.machine.word(address)} - set(held), peer.machine.starts), (set(), [0]))


# How many words the plans of `Sizes` have.
SIZES = (1, 1000, 8191, 8192, 20000, WORDS)

# How many of them no record has.
LEFT = 20


def at_a_console(room, memory, command, words=WORDS):
    """Runs a command at a console of its own that has these words, in a process of its own, since four are faster so;
    the quiet time is far above what a busy computer needs. Returns the answer and the starts."""
    peer = odt_peer.Peer(Console(words=words, memory=memory), at_once=True)
    given = run([word.replace("LINE", peer.name) for word in command.split()] + ["--quiet", "2000"], cwd=room, seconds=400)
    peer.close()
    return given, peer.machine.starts


def starved_at_a_console(room, memory, command):
    """The same where the program gets no more memory once it has typed a key."""
    machine = Starving(0, 0, memory=memory)
    peer = odt_peer.Peer(machine, at_once=True)
    words = [PROGRAM, *(word.replace("LINE", peer.name) for word in command.split()), "--quiet", "2000"]
    machine.process = subprocess.Popen(words, cwd=room, stdin=subprocess.DEVNULL, stdout=subprocess.PIPE, stderr=subprocess.PIPE, text=True)
    out, err = machine.process.communicate(timeout=400)
    peer.close()
    return Answer(machine.process.returncode, out, err), machine.starts


class Sizes(Case):
    """Plans of many sizes, of words that stand: each has 8 keys. Before the first there is a `Z`, and 7 are the start's."""

    def setUp(self):
        super().setUp()
        for words in SIZES:
            plan = IMAGE[:words]
            pieces = [plan[first:first + 28] for first in range(0, words, 28)]
            self.put(f"{words}.lda", tape_of([(piece[0][0], b"".join(value.to_bytes(2, "little") for _, value in piece)) for piece in pieces], 0))
            self.put(f"{words}.record", record_of(plan[:-LEFT], 2).encode())

    def all_end(self, rows, runs=at_a_console):
        """Runs commands, each at a memory; asserts how each ended, and where it started the machine."""
        with ProcessPoolExecutor(4) as pool:
            given = list(pool.map(runs, [self.room] * len(rows), [memory for memory, *_ in rows], [words for _, words, *_ in rows]))
        for (_, words, *wanted), came in zip(rows, given):
            with self.subTest(words):
                self.is_so(came, tuple(wanted))

    def test_loads(self):
        """Without a record, and with one of all words but the last, of which each is looked at; and with one that is made."""
        started = lambda keys, words: Answer(0, f"sent {keys + 8} spent 0 verified {words} of {words}\nend Started\n", "")
        rows = [(dict(IMAGE[:words]), f"load {words}.lda LINE", started(8 * words, words), [0]) for words in SIZES]
        for words in SIZES:
            # Eight words of the record are looked at, behind a `Z`.
            keys = 8 * min(words, LEFT) + (65 if words > LEFT else 0)
            rows.append((dict(IMAGE[:words]), f"load {words}.lda LINE --record {words}.record", started(keys, words), [0]))
        rows.append((dict(IMAGE[:8192]), "load 8192.lda LINE --record made.record", started(8 * 8192, 8192), [0]))
        files = {words: os.stat(self.path(f"{words}.record")).st_ino for words in SIZES}
        self.all_end(sorted(rows, key=lambda row: -len(row[0])))
        for words in SIZES:
            self.is_so(bytes_of(self.path(f"{words}.record")).decode(), record_of(IMAGE[:words], 2) + "\nG\n")
            # the old record was replaced by a new file, which stood beside it
            self.assertNotEqual(os.stat(self.path(f"{words}.record")).st_ino, files[words])
        self.is_so(bytes_of(self.path("made.record")), bytes_of(self.path("8192.record")))

    def test_records_behind_a_link(self):
        """They are written in place, and what stands behind the words that count is cut off."""
        rows = []
        for words in SIZES:
            self.put(f"{words}.other", (record_of(IMAGE[:words][:-LEFT], 2) + "0" * 3000).encode())
            os.symlink(f"{words}.other", self.path(f"{words}.link"))
            keys = 8 * min(words, LEFT) + (65 if words > LEFT else 0)
            report = f"sent {keys + 8} spent 0 verified {words} of {words}\nend Started\n"
            rows.append((dict(IMAGE[:words]), f"load {words}.lda LINE --record {words}.link", Answer(0, report, ""), [0]))
        files = {words: os.stat(self.path(f"{words}.other")).st_ino for words in SIZES}
        self.all_end(rows)
        for words in SIZES:
            self.is_so(bytes_of(self.path(f"{words}.other")).decode(), record_of(IMAGE[:words], 2) + "\nG\n")
            self.is_so(os.stat(self.path(f"{words}.other")).st_ino, files[words])

    def test_looks(self):
        """All words differ from memory, which is zero; all of it is saved."""
        differs = "".join(f"{address:06o} 177777 {value:06o} differs 000000\n" for address, value in IMAGE[:8192])
        report = f"sent {1 + 16 * 8192} spent 0 looked 8192 of 8192 differ 8192\nend Differs\n"
        saved = lambda words: Answer(0, f"sent {1 + 16 * words} spent 0 read {words} of {words}\nend Saved\n", "")
        self.all_end([
            (dict(IMAGE), "save all.lda LINE 0 157776", saved(WORDS), []),
            ({}, "verify 8192.lda LINE", Answer(1, differs + report, ""), []),
            (dict(IMAGE), "save saved.lda LINE 0 37776", saved(8192), []),
        ])
        for name, count in (("saved.lda", 8192), ("all.lda", WORDS)):
            words = "".join(f"{address:06o} 177777 {value:06o}\n" for address, value in IMAGE[:count])
            self.is_so(self.ldaodt(f"check {name}").out.split("words ", 1)[1], f"{count}\n{words}")


    def test_little_memory(self):
        """With a plan, or a test, of all of memory, and no more memory once a key was typed: a load, a `verify` and a test come to their end. Of
        a test each third word will do: these are more than 8192."""
        test = Test(every=3)
        self.assertGreater(len(test.tested()), 8192)
        self.all_end([
            (dict(IMAGE), test.words(), Answer(0, test.report([value for _, value in IMAGE]), ""), []),
            (dict(IMAGE), f"load {WORDS}.lda LINE", Answer(0, f"sent {8 * WORDS + 8} spent 0 verified {WORDS} of {WORDS}\nend Started\n", ""), [0]),
            (dict(IMAGE), f"verify {WORDS}.lda LINE", Answer(0, f"sent {1 + 8 * WORDS} spent 0 looked {WORDS} of {WORDS} differ 0\nend Same\n", ""), []),
        ], starved_at_a_console)


class Parts(Case):
    """A save of all of memory that goes on behind what an earlier one left."""

    def test_it_goes_on_behind_many_blocks(self):
        """Behind 33 of 112 blocks of 256 words, and behind all but the last: each word is looked at twice, of those that are there eight."""
        blocks = [(first, b"".join(value.to_bytes(2, "little") for _, value in IMAGE[first // 2:first // 2 + 256])) for first in range(0, 2 * WORDS, 512)]
        tape = tape_of(blocks)
        for count in (33, len(blocks) - 1):
            with self.subTest(count):
                self.put(f"{count}.lda.part", tape[:519 * count] + bytes(len(tape) - 519 * count))
                given, _ = at_a_console(self.room, dict(IMAGE), f"save {count}.lda LINE 0 157776")
                sent = 1 + 2 * 8 * 8 + 1 + 2 * 8 * (WORDS - 256 * count)
                self.ends(given, 0, f"sent {sent} spent 0 read {WORDS} of {WORDS}\nend Saved\n")
                self.is_so(bytes_of(self.path(f"{count}.lda")), tape)


class Memory(Case):
    """A test of as many words as there may be."""

    def test_all_words(self):
        """Of a memory that ends behind the first 64, so that no other answers."""
        given, _ = at_a_console(self.room, dict(IMAGE[:64]), "memory LINE 0 157776", words=64)
        rows = given.out.splitlines()
        self.is_so((given.status, "tested 64 words, 0 do not hold" in rows, rows[-1], rows[1].endswith("   no memory at 000200")), (0, True, "end Tested", True))


class ManyTapes(Case):
    """Eleven tapes, each of 33 blocks."""

    def setUp(self):
        super().setUp()
        self.words = {2 * number: number + 1 for number in range(11 * 33)}
        self.names = [f"{tape}.lda" for tape in range(11)]
        self.tapes = [[(2 * number, (number + 1).to_bytes(2, "little")) for number in range(33 * tape, 33 * tape + 33)] for tape in range(11)]
        for name, tape in zip(self.names, self.tapes):
            self.put(name, tape_of(tape))
        self.put("clean.script", b"clean\n")

    def test_those_about_no_machine(self):
        words = "".join(f"{address:06o} 177777 {value:06o}\n" for address, value in self.words.items())
        checked = "blocks 33 data 66 read 304\nno start 000001\ncanonical yes\n" * 11 + f"words {len(self.words)}\n{words}"
        self.ends(self.ldaodt(["check", *self.names]), 0, checked)
        listed = "".join(f"tape {number}\n" + "".join(
            f"block {place} at {9 * (place - 1)} {address:06o} to {address + 1:06o} bytes 2\n" for place, (address, _) in enumerate(tape, 1))
            for number, tape in enumerate(self.tapes, 1))
        self.ends(self.ldaodt(["check", "--blocks", *self.names]), 0, f"{listed}addresses 000000 to {2 * len(self.words) - 1:06o}\nstart of tape 11\n{checked}")
        for command in (["dialogue", *self.names], ["rehearse", self.names[0], "clean.script", *self.names[1:]]):
            given = self.ldaodt(command)
            stands = "".join(f"{address:06o} {value:06o} stands\n" for address, value in self.words.items())
            self.is_so((given.status, given.err, given.out.endswith(f"end Loaded\nodt Prompt\n{stands}")), (0, "", True))

    def test_those_at_a_machine(self):
        """Each word has 22 keys, and 8 where it stands."""
        count = len(self.words)
        load, verify = (" ".join([name, self.names[0], "LINE", *self.names[1:]]) for name in ("load", "verify"))
        for memory, words, report in (({}, load, f"sent {1 + 22 * count} spent 0 verified {count} of {count}\nend Loaded\n"),
                                      (self.words, verify, f"sent {1 + 8 * count} spent 0 looked {count} of {count} differ 0\nend Same\n")):
            self.ends(at_a_console(self.room, memory, words)[0], 0, report)


class SmallBlocks(Case):
    """Tapes that have as many blocks as may be."""

    def test_blocks_of_a_byte(self):
        """One for each byte of memory; and all at 001000, of which the last one counts, up to a tape's limit. They are listed, too."""
        every = tape_of([(address, bytes([address % 256])) for address in range(2 * WORDS)])
        lines = "".join(f"{low:06o} 177777 {low % 256 + (low + 1) % 256 * 256:06o}\n" for low in range(0, 2 * WORDS, 2))
        self.put("every.lda", every)
        report = f"blocks {2 * WORDS} data {2 * WORDS} read {len(every)}\nno start 000001\ncanonical yes\n"
        self.ends(self.ldaodt("check every.lda"), 0, f"{report}words {WORDS}\n{lines}")
        listed = "".join(f"block {place + 1} at {8 * place} {place:06o} to {place:06o} bytes 1\n" for place in range(2 * WORDS))
        self.ends(self.ldaodt("check every.lda --blocks"), 0, f"{listed}addresses 000000 to 157777\n{report}words {WORDS}\n{lines}")
        count = ((1 << 20) - 7) // 8
        self.put("same.lda", tape_of([(0o1000, bytes([number % 251])) for number in range(count)]))
        report = f"blocks {count} data {count} read {8 * count + 6 + 1}\nno start 000001\ncanonical yes\n"
        lines = f"words 1\n001000 000377 {(count - 1) % 251:06o}\n"
        self.ends(self.ldaodt("check same.lda"), 0, f"{report}{lines}")
        listed = "".join(f"block {place + 1} at {8 * place} 001000 to 001000 bytes 1\n" for place in range(count))
        self.ends(self.ldaodt("check same.lda --blocks"), 0, f"{listed}addresses 001000 to 001000\n{report}{lines}")


class Turns(Case):
    """A load has ten million turns: characters that are heard, and silences."""

    def test_as_many_turns_as_a_load_may_have_and_one_more(self):
        """A load of first.lda hears silence, 4 characters to `Z`, 40 to the word, and the 7 of the start."""
        self.put_tapes("first.lda")
        most = 10_000_000 - 1 - 4 - 40 - 7
        peers = [BabblingPeer(Console(), count) for count in (most, most + 1)]
        for peer in peers:
            self.addCleanup(peer.close)
        with ThreadPoolExecutor(len(peers)) as pool:
            enough, too_many = pool.map(lambda peer: self.ldaodt(f"load first.lda 127.0.0.1:{peer.port} --quiet 2000"), peers)
        self.ends(enough, 0, "sent 30 spent 0 verified 1 of 1\nend Started\n")
        self.ends(too_many, 5, "sent 30 spent 0 verified 1 of 1\nend TurnsOver\n")


class Fast(FastCase):
    """A large tape that a stub takes."""

    def test_how_many_characters_pass(self):
        self.quiet = max(self.quiet, 2000)
        self.passes_in(28000, 0, 236_000, 1_736_019)


class TooLong(Case):
    """What is longer than it may be: a file that never ends comes to an end, too."""

    def test_tapes_and_scripts_without_end(self):
        """They are named by a link, so that no fault of the program, run by root, could do a device harm."""
        self.put_tapes("first.lda")
        os.symlink("/dev/zero", self.path("zero"))
        self.ends(self.ldaodt("check zero"), 3, "", "ldaodt: tape refused at 1048576: TooLong\n")
        self.ends(self.ldaodt("check first.lda first.lda zero"), 3, "", "ldaodt: tape 3 refused at 1048576: TooLong\n")
        self.ends(self.ldaodt("rehearse first.lda zero"), 3, "", "ldaodt: script refused at line 0\n")


if __name__ == "__main__":
    unittest.main()
