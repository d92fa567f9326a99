"""Loads of a machine behind a port of this computer: how they end, what the record then holds, and what was typed.

How many characters a load sends is counted from what it types (docs/MAP.md, "The way of a byte"): `Z` first,
which is answered by four characters; for a word that has to be deposited 22 keys, answered by 40 characters;
for one that stands already 8, answered by 17; and 7 for the start, each echoed.
"""
import errno
import os
import random
import re
import socket
import stat
import time
import unittest
from concurrent.futures import ThreadPoolExecutor

from cases import Case, Console, DeafConsole, Keeping, LateConsole
import odt_peer
from outside import NO_OUTPUT, Answer, bytes_of, fault, line_failed, tape_of

# Records of first.lda: whole, as it is written today and as it was written once, and without the mark.
MARKED = "LDAODT 2\n001000 011064\nG\n"
OLD_MARKED = "LDAODT 1\n001000 177777 011064\nG\n"
VERIFIED = "LDAODT 2\n001000 011064\n"
OLD_VERIFIED = "LDAODT 1\n001000 177777 011064\n"

# All that is typed at a machine of zeroed memory to load and start first.lda, and what is then reported.
WHOLE = "Z001000/011064\r001000/\r001000G"
STARTED = "sent 30 spent 0 verified 1 of 1\nend Started\n"
NO_RECORD = "ldaodt: record refused: NotARecord\n"


class Loads(Case):
    """A load has first.lda in its folder, and a record where a test puts one."""

    def setUp(self):
        super().setUp()
        self.put_tapes("first.lda", "no-word.lda", "two-words.lda")

    def recorded(self, peer, tape="first.lda", **more):
        return self.load(peer, f"{tape} --record a.record", **more)

    def was_typed(self, peer, keys, connections=1):
        """Asserts what was typed, and how many connections there were."""
        self.is_so((peer.machine.typed, peer.connections), (keys, connections))


class DoesNotFit(Case):
    """A tape that goes further than memory, by loads that ask for its highest word before anything is stored."""

    # The tape has so many words from 001000 on, memory the first of them, and a record fewer.
    WORDS, THERE, RECORDED = 60, 50, 20
    LAST = 0o1000 + 2 * (WORDS - 1)

    def setUp(self):
        super().setUp()
        self.values = [0o10001 * number & 0o177777 for number in range(self.WORDS)]
        self.put("a.lda", tape_of([(0o1000, b"".join(it.to_bytes(2, "little") for it in self.values))], 0o1000))

    def record(self, words):
        """The record of the first words, so many."""
        lines = [self.values[first:min(first + 16, words)] for first in range(0, words, 16)]
        return "LDAODT 2\n" + "".join(f"{0o1000 + 32 * number:06o} {' '.join(f'{it:06o}' for it in line)}\n" for number, line in enumerate(lines))

    def end(self, option, recorded, held=True, there=THERE):
        """How a load ends with a record of so many words, or with none, that memory holds, or not; nothing is typed that stores, and
        the record is as it was."""
        found = {0o1000 + 2 * number: value ^ (not held) for number, value in enumerate(self.values[:recorded])}
        peer = self.console_at(Console(words=0o1000 // 2 + there, memory=found))
        before, kept = list(peer.machine.words), {"a.record": self.record(recorded)} if recorded else {}
        for name, text in kept.items():
            self.put(name, text.encode())
        given = self.load(peer, f"a.lda --record a.record {option}")
        self.is_so((list(peer.machine.words), peer.machine.starts), (before, []))
        self.assertIsNone(re.search(r"/[0-7]|[^0-7/\rZU]", peer.machine.typed), repr(peer.machine.typed))
        self.is_so(peer.machine.typed[-7:], f"{self.LAST:06o}/")
        self.is_so({name: bytes_of(self.path(name)).decode() for name in os.listdir(self.room) if name != "a.lda"}, kept)
        for name in kept:
            os.remove(self.path(name))
        return given

    def test_nothing_is_typed_that_stores(self):
        """A key that resynchronises, eight for each look at a sample of the record, and seven, which memory refuses."""
        for option, times in (("--fast", 1), ("--careful", 2), ("--careful --fast", 2)):
            for recorded, samples in ((0, 0), (self.RECORDED, 8)):
                for there in (self.THERE, self.WORDS - 1):
                    with self.subTest((option, recorded, there)):
                        wanted = f"sent {1 + 8 * times * samples + 7} spent 0 verified {recorded} of {self.WORDS}\nend NoWord {self.LAST:06o}\n"
                        self.ends(self.end(option, recorded, there=there), 5, wanted)

    def test_a_plain_load_types_what_fits(self):
        peer = self.console_at(Console(words=0o1000 // 2 + self.THERE))
        lacking = 0o1000 + 2 * self.THERE
        # The first word stands: memory is 0 there, as the tape says.
        sent = 1 + 8 + 22 * (self.THERE - 1) + 7
        self.ends(self.load(peer, "a.lda"), 5, f"sent {sent} spent 0 verified {self.THERE} of {self.WORDS}\nend NoWord {lacking:06o}\n")
        self.is_so(peer.machine.typed[:8], "Z001000/")

    def test_a_sample_that_does_not_stand_is_what_ends_it(self):
        for option in ("--fast", "--careful"):
            given = self.end(option, self.RECORDED, held=False)
            self.is_so((given.status, given.out.splitlines()[1]), (5, "end Stale 001000"))

    def test_what_a_terminal_is_told(self):
        unfit = f"no word at {self.LAST:06o}, and the tape goes up to {self.LAST:06o}: 'ldaodt probe LINE' says where memory ends\r\n"
        for option in ("--fast", "--careful"):
            peer = self.console_at(Console(words=0o1000 // 2 + self.THERE))
            _, told = self.at_a_terminal(lambda terminal, peer=peer, option=option: self.load(peer, f"a.lda {option}", stderr=terminal))
            self.assertIn(unfit, told)
            self.assertNotIn("did not serve", told)


class Endings(Loads):
    """How loads end."""

    def test_a_whole_load(self):
        peer = self.console_at(Console())
        self.ends(self.recorded(peer), 0, STARTED)
        self.holds({"a.record": MARKED})
        self.was_typed(peer, WHOLE)
        self.is_so((peer.machine.word(0o1000), peer.machine.starts), (0o011064, [0o1000]))

    def test_a_program_is_never_started_twice(self):
        peer = self.console_at(Console())
        self.ends(self.recorded(peer), 0, STARTED)
        for _ in range(2):
            self.ends(self.recorded(peer), 6, "sent 0 spent 0 verified 1 of 1\nend MaybeStarted\n")
        self.holds({"a.record": MARKED})
        self.was_typed(peer, WHOLE)

    def test_without_a_record_none_is_made(self):
        peer = self.console_at(Console())
        self.ends(self.load(peer, "first.lda"), 0, STARTED)
        self.holds({})
        self.was_typed(peer, WHOLE)

    def test_nothing_to_do(self):
        peer = self.console_at(Console())
        for words in ("no-word.lda", "no-word.lda --record a.record"):
            self.ends(self.load(peer, words), 0, "sent 0 spent 0 verified 0 of 0\nend Loaded\n")
        self.holds({})
        self.was_typed(peer, "", connections=0)

    def test_a_start_that_was_marked_before(self):
        peer = self.console_at(Console())
        for record in (MARKED, OLD_MARKED):
            self.put("a.record", record.encode())
            self.ends(self.recorded(peer), 6, "sent 0 spent 0 verified 1 of 1\nend MaybeStarted\n")
            self.holds({"a.record": record})
        self.was_typed(peer, "", connections=0)

    def test_a_word_that_is_verified_is_looked_at_first_and_not_again(self):
        peer = self.console_at(Console(memory={0o1000: 0o011064}))
        self.put("a.record", OLD_VERIFIED.encode())
        self.ends(self.recorded(peer), 0, "sent 17 spent 0 verified 1 of 1\nend Started\n")
        self.holds({"a.record": MARKED})
        self.was_typed(peer, "Z001000/\rZ001000G")

    def test_no_memory_at_the_word(self):
        """256 words of memory end right below 001000."""
        peer = self.console_at(Console(words=256))
        self.ends(self.load(peer, "first.lda"), 5, "sent 8 spent 0 verified 0 of 1\nend NoWord 001000\n")
        self.holds({})
        self.ends(self.recorded(peer), 5, "sent 8 spent 0 verified 0 of 1\nend NoWord 001000\n")
        self.holds({"a.record": "LDAODT 2\n"})
        self.was_typed(peer, "Z001000/" * 2, connections=2)

    def test_a_machine_that_hangs_up_and_the_load_after_it(self):
        """The first `Z` and the first word are 1 + 4 + 22 + 40 = 67 characters, and one key more is sent."""
        peer = self.console_at(Console(), close_after=67)
        hung_up = self.recorded(peer, "two-words.lda")
        self.ends(hung_up, 4, "sent 24 spent 0 verified 1 of 2\nend LineFailed\n", line_failed("closed"))
        self.holds({"a.record": "LDAODT 2\n001000 031421"})
        # The word that it has is looked at first; the one that it lacks stands, but for a byte that is not the tape's.
        peer.close_after, peer.machine = None, Console(memory={0o1000: 0o031421, 0o1002: 0o125504})
        self.ends(self.recorded(peer, "two-words.lda"), 0, "sent 25 spent 0 verified 2 of 2\nend Started\n")
        self.holds({"a.record": "LDAODT 2\n001000 031421\nH 001002 000377 000104\nG\n"})
        self.was_typed(peer, "Z001000/\rZ001002/\r001000G", connections=2)
        self.is_so(peer.machine.word(0o1002), 0o125504)

    def test_a_word_of_which_the_tape_has_one_byte(self):
        """The low one or the high one, first, within and last among words of which it has both."""
        full, halves = (0, b"\1\2"), (((0, b"\1"), "000377 000001"), ((1, b"\2"), "177400 001000"))
        for half, line in halves:
            for place, record in enumerate((f"H 001000 {line}\n001002 001001 001001\n", f"001000 001001\nH 001002 {line}\n001004 001001\n",
                                            f"001000 001001 001001\nH 001004 {line}\n")):
                pieces = [half if number == place else full for number in range(3)]
                self.put("odd.lda", tape_of([(0o1000 + 2 * number + offset, text) for number, (offset, text) in enumerate(pieces)], 0o1000))
                with self.subTest(line, place=place):
                    given = self.recorded(self.console_at(Console()), "odd.lda")
                    self.ends(given, 0, "sent 74 spent 0 verified 3 of 3\nend Started\n")
                    self.is_so(bytes_of(self.path("a.record")).decode(), f"LDAODT 2\n{record}G\n")
                os.remove(self.path("a.record"))

    def test_nobody_listens(self):
        """The port is taken, so that nobody else can have it, and not listened at."""
        with socket.socket() as taken:
            taken.bind(("127.0.0.1", 0))
            address = f"127.0.0.1:{taken.getsockname()[1]}"
            for record in (VERIFIED, OLD_VERIFIED):
                self.put("a.record", record.encode())
                given = self.ldaodt(f"load first.lda {address} --record a.record")
                self.ends(given, 4, "", fault(f"cannot connect to {address}", errno.ECONNREFUSED))
                self.holds({"a.record": record})

    def test_a_refused_tape_comes_before_all(self):
        peer = self.console_at(Console())
        self.put("stray.lda", b"A")
        self.put("a.record", b"hello\n")
        self.ends(self.recorded(peer, "stray.lda"), 3, "", "ldaodt: tape refused at 0: Stray\n")
        self.holds({"stray.lda": "A", "a.record": "hello\n"})
        self.was_typed(peer, "", connections=0)

    def test_a_report_that_can_not_be_written_is_told_alone(self):
        """Also where the line failed, here after `Z` and two characters of its answer."""
        for close_after in (None, 3):
            peer = self.console_at(Console(), close_after=close_after)
            for before in ("> /dev/full", ">&-"):
                self.ends(self.load(peer, "first.lda", before=before), 4, "", NO_OUTPUT)
                peer.machine, peer.keys, peer.answered = Console(), 0, 0
            self.is_so(peer.connections, 2)


class Starts(Loads):
    """A start in place of the tape's."""

    def test_no_start(self):
        """The record has no mark, and a later load without the option starts the program."""
        peer = self.console_at(Console())
        loaded = "sent 23 spent 0 verified 1 of 1\nend Loaded\n"
        self.ends(self.recorded(peer, "first.lda --no-start"), 0, loaded)
        self.holds({"a.record": "LDAODT 2\n001000 011064"})
        self.was_typed(peer, "Z001000/011064\r001000/\r")
        self.ends(self.recorded(peer, "first.lda --no-start"), 0, "sent 0 spent 0 verified 1 of 1\nend Loaded\n")
        self.holds({"a.record": "LDAODT 2\n001000 011064"})
        self.ends(self.recorded(peer), 0, "sent 17 spent 0 verified 1 of 1\nend Started\n")
        self.holds({"a.record": MARKED})
        self.was_typed(peer, "Z001000/011064\r001000/\rZ001000/\rZ001000G", connections=2)

    def test_no_start_of_a_record_with_a_mark(self):
        """Such a record is none of a load that starts nothing, and stays."""
        peer = self.console_at(Console())
        self.put("a.record", MARKED.encode())
        self.ends(self.recorded(peer, "first.lda --no-start"), 3, "", "ldaodt: record refused at line 3\n")
        self.holds({"a.record": MARKED})
        self.was_typed(peer, "", connections=0)

    def test_another_start(self):
        """Written with one digit or six, as the tape's it is typed with six; it may lie above memory, as a boot ROM does. A record's
        mark is there for it as for the tape's."""
        for start, typed in (("0", "000000"), ("2", "000002"), ("001002", "001002"), ("173000", "173000"), ("177776", "177776")):
            with self.subTest(start):
                peer = self.console_at(Console())
                self.ends(self.recorded(peer, f"first.lda --start {start}"), 0, STARTED)
                self.was_typed(peer, f"Z001000/011064\r001000/\r{typed}G")
                self.is_so(peer.machine.starts, [int(start, 8)])
                self.holds({"a.record": MARKED})
                self.ends(self.recorded(peer, f"first.lda --start {start}"), 6, "sent 0 spent 0 verified 1 of 1\nend MaybeStarted\n")
                os.remove(self.path("a.record"))

    def test_a_start_where_the_tape_has_none(self):
        peer = self.console_at(Console())
        self.ends(self.load(peer, "no-word.lda --start 1000"), 0, "sent 8 spent 0 verified 0 of 0\nend Started\n")
        self.was_typed(peer, "Z001000G")

    def test_starts_that_are_none(self):
        peer = self.console_at(Console())
        for words in ("--start 1001", "--start 8", "--start 0001000", "--start -2", "--start", "--start 1000 --no-start"):
            with self.subTest(words):
                given = self.load(peer, f"first.lda {words}")
                self.is_so((given.status, given.out, given.err.startswith("error: ")), (2, "", True))
        self.was_typed(peer, "", connections=0)

    def test_a_dialogue_takes_them_too(self):
        for words, behind in (
            ("", ["001000G -> 001000G", "sent 30 lost 0 spent 0 verified 1 of 1", "end Started", "odt Running 001000"]),
            ("--start 1002", ["001002G -> 001002G", "sent 30 lost 0 spent 0 verified 1 of 1", "end Started", "odt Running 001002"]),
            ("--start 177776 no-word.lda", ["177776G -> 177776G", "sent 30 lost 0 spent 0 verified 1 of 1", "end Started", "odt Running 177776"]),
            ("no-word.lda --start 0", ["000000G -> 000000G", "sent 30 lost 0 spent 0 verified 1 of 1", "end Started", "odt Running 000000"]),
            ("--no-start", ["sent 23 lost 0 spent 0 verified 1 of 1", "end Loaded", "odt Prompt"]),
        ):
            given = self.ldaodt(f"dialogue first.lda {words}")
            self.is_so((given.status, given.out.split("\n<CR> -> <CR><LF>@\n")[1].split("\n")[:-2]), (0, behind))


class Words(Loads):
    """The words of a load."""

    def test_options_may_stand_before_the_tape(self):
        """The tapes are one, in their order, those behind the address too: first.lda's word counts, and its start."""
        record = "LDAODT 2\n001000 011064\nH 001002 000377 000104\nG\n"
        self.put("a.record", record.encode())
        given = self.ldaodt("load --record=a.record --patience 1000 --quiet 60000 two-words.lda [::1]:23 no-word.lda first.lda")
        self.ends(given, 6, "sent 0 spent 0 verified 2 of 2\nend MaybeStarted\n")
        self.holds({"a.record": record})

    def test_the_ends_of_the_ranges(self):
        """No console is needed: the record says that the start was marked."""
        self.put("a.record", MARKED.encode())
        for option in ("--patience 0", "--patience 1000", "--quiet 1", "--quiet 60000"):
            given = self.ldaodt(f"load first.lda 127.0.0.1:1 --record a.record {option}")
            self.ends(given, 6, "sent 0 spent 0 verified 1 of 1\nend MaybeStarted\n")

    def test_no_line(self):
        """What has neither `:` nor `/` is none, and nothing is opened."""
        for line in ("127.0.0.1", "ttyUSB0", "first.lda", "-"):
            given = self.ldaodt(f"load nothing.lda {line}")
            self.is_so((given.status, given.out, given.err.startswith("error: ")), (2, "", True))

    def test_a_tape_on_standard_input(self):
        peer = self.console_at(Console())
        self.ends(self.load(peer, "-", keys=bytes_of(self.path("first.lda"))), 0, STARTED)
        self.was_typed(peer, WHOLE)
        given = self.load(peer, "-", keys=b"A")
        self.ends(given, 3, "", "ldaodt: tape refused at 0: Stray\n")
        given = self.load(peer, "-", before="<&-")
        self.ends(given, 4, "", fault("cannot read standard input", errno.EBADF))


class Silence(Loads):
    """The quiet time, and the patience with mishaps."""

    def test_a_deaf_console_gets_one_key_and_one_for_each_mishap(self):
        """The keys come no faster than the quiet time, which passes before the first, too."""
        for option, keys in (("--patience 3", 4), ("--patience 0", 1), ("", 9)):
            peer = self.console_at(DeafConsole())
            with self.subTest(option):
                began = time.monotonic()
                given = self.load(peer, f"first.lda --record a.record {option}")
                self.ends(given, 5, f"sent {keys} spent {keys - 1} verified 0 of 1\nend GaveUp\n")
                self.holds({"a.record": "LDAODT 2\n"})
                self.was_typed(peer, "Z" * keys)
                for number, typed_at in enumerate(peer.machine.times, 1):
                    self.assertGreaterEqual(typed_at - began, number * self.quiet / 1000)

    def test_a_late_answer(self):
        """With no patience at all. A fifth key whose echo is late was sent, and no sixth where the load gave up."""
        gave_up = Answer(5, "sent 5 spent 0 verified 0 of 1\nend GaveUp\n", "")
        started = Answer(0, STARTED, "")
        rows = (
            ("", 1.5, started),
            ("", 4.0, gave_up),
            ("--quiet 300", 1.5, gave_up),
            ("--quiet 3000", 2.3, started),
            ("--quiet 15000", 12.0, started),
        )
        peers = [self.console_at(LateConsole(late)) for _, late, _ in rows]
        with ThreadPoolExecutor(len(rows)) as pool:
            answers = list(pool.map(lambda peer, row: self.ldaodt(f"load first.lda {peer.address} --patience 0 {row[0]}"), peers, rows))
        for (option, late, wanted), given in zip(rows, answers):
            with self.subTest(option, late=late):
                self.is_so(given, wanted)


class PaddingConsole(Console):
    """So many zeroes come before what it answers to its first key."""

    def __init__(self, zeroes):
        super().__init__()
        self.zeroes = zeroes

    def take(self, key):
        return "\0" * (not self.typed and self.zeroes) + super().take(key)


class RandomConsole(Keeping, odt_peer.DeadMachine):
    """It answers each key by some of the characters that ODT has, as they fall."""

    def __init__(self, seed):
        super().__init__()
        self.chance = random.Random(seed)

    def take(self, key):
        super().take(key)
        return "".join(self.chance.choices("@?/\r\n 01234567G", k=self.chance.randrange(9)))


class GarbledConsole(Console):
    """ODT, of which one character in ten is heard as another one."""

    def __init__(self, seed):
        super().__init__()
        self.chance = random.Random(seed)

    def take(self, key):
        answer = super().take(key)
        return "".join(self.chance.choice("@?/\r\n 01234567") if self.chance.random() < 0.1 else it for it in answer)


class Noise(Loads):
    """What comes is no console's, or not only."""

    def test_zeroes(self):
        """A wrong speed may bring nothing else. Up to 4,095 in a row are what a console pads its lines with."""
        for zeroes, wanted in ((4095, (0, STARTED)), (4096, (4, "sent 1 spent 0 verified 0 of 1\nend LineFailed\n", line_failed("noise")))):
            with self.subTest(zeroes):
                self.ends(self.load(self.console_at(PaddingConsole(zeroes), at_once=True)), *wanted)

    def test_no_start_is_typed_blindly(self):
        """Whatever comes, the load ends, counts its keys, and types the start only behind the whole address."""
        def trial(row):
            kind, seed = row
            line = self.console_at(kind(seed), at_once=True)
            given = self.load(line, "first.lda --patience 8", quiet=30)
            typed = line.machine.typed
            return row, given, typed

        rows = [(kind, seed) for kind in (RandomConsole, GarbledConsole) for seed in range(50)]
        with ThreadPoolExecutor(8) as pool:
            for row, given, typed in pool.map(trial, rows):
                with self.subTest(row):
                    self.is_so(given.out.split(" ")[:2], ["sent", str(len(typed))])
                    self.is_so(typed.partition("G")[1:], ("G", "") if typed.endswith("001000G") else ("", ""))


class Records(Loads):
    """Records that can't be read or written, and how one is replaced."""

    def test_texts_that_are_no_record_of_this_tape(self):
        peer = self.console_at(Console())
        for text, why in (("hello\n", "refused: NotARecord"), ("LDAODT 1\n001000 177777 011065\n", "refused at line 2")):
            self.put("a.record", text.encode())
            self.ends(self.recorded(peer), 3, "", f"ldaodt: record {why}\n")
            self.holds({"a.record": text})
        self.was_typed(peer, "", connections=0)

    def test_a_record_is_at_most_a_mebibyte(self):
        """Behind the header stands nothing but a torn piece, which is dropped."""
        peer = self.console_at(Console())
        longest = b"LDAODT 1\n".ljust(1 << 20, b"x")
        self.put("a.record", longest + b"x")
        self.ends(self.recorded(peer), 3, "", NO_RECORD)
        self.was_typed(peer, "", connections=0)
        self.holds({"a.record": longest.decode() + "x"})
        self.put("a.record", longest)
        self.ends(self.recorded(peer), 0, STARTED)
        self.holds({"a.record": MARKED})

    def test_devices_as_records(self):
        """One that never ends is no record, one that takes all is one. They are named by a link, so that no fault of
        the program, run by root, could put a file in a device's place."""
        peer = self.console_at(Console())
        for name in ("full", "zero", "null"):
            os.symlink(f"/dev/{name}", self.path(name))
        for name in ("full", "zero"):
            self.ends(self.load(peer, f"first.lda --record {name}"), 3, "", NO_RECORD)
        self.was_typed(peer, "", connections=0)
        self.ends(self.load(peer, "first.lda --record null"), 0, STARTED)
        self.is_so([os.readlink(self.path(name)) for name in ("full", "zero", "null")], ["/dev/full", "/dev/zero", "/dev/null"])

    def test_a_full_disk_leaves_the_old_record(self):
        """It is found out right behind the looks."""
        for record in (VERIFIED, OLD_VERIFIED):
            peer = self.console_at(Console(memory={0o1000: 0o011064}))
            self.put("a.record", record.encode())
            self.ends(self.recorded(peer, file_size=0), 4, "", fault("cannot write a.record", errno.EFBIG))
            self.holds({"a.record": record})
            self.was_typed(peer, "Z001000/\r")

    def test_a_disk_that_becomes_full(self):
        """What can't be kept isn't acted upon: the key that was due is counted, and not sent.

        The header has nine bytes, the word's line 13 and its end, and the mark two. The word is kept when it was read
        back, before the CR that closes it, so after 22 keys; the mark before `G`, so after 29.
        """
        for size, record, keys in ((9, "LDAODT 2\n", 22), (15, "LDAODT 2\n001000", 22), (22, VERIFIED[:-1], 29), (24, VERIFIED + "G", 29)):
            peer = self.console_at(Console())
            with self.subTest(size):
                given = self.recorded(peer, file_size=size)
                report = f"sent {keys + 1} spent 0 verified 1 of 1\nend KeepFailed\n"
                self.ends(given, 4, report, fault("cannot write a.record", errno.EFBIG))
                self.holds({"a.record": record})
                self.was_typed(peer, WHOLE[:keys])
            os.remove(self.path("a.record"))

    def test_a_record_is_replaced_by_a_new_file(self):
        """It keeps its permissions. What a killed load left beside it is taken away. Whoever had the old file open has it."""
        peer = self.console_at(Console())
        self.put("a.record", b"")
        os.chmod(self.path("a.record"), 0o600)
        self.put("a.record.ldaodt-new", b"cut short")
        with open(self.path("a.record"), "rb") as old:
            self.ends(self.recorded(peer), 0, STARTED)
            self.is_so(old.read(), b"")
        self.holds({"a.record": MARKED})
        self.is_so(stat.S_IMODE(os.stat(self.path("a.record")).st_mode), 0o600)

    def test_a_link_is_written_in_place(self):
        peer = self.console_at(Console())
        os.symlink("b.record", self.path("a.record"))
        self.put("b.record", b"")
        self.ends(self.recorded(peer), 0, STARTED)
        self.assertTrue(os.path.islink(self.path("a.record")))
        self.holds({"a.record": MARKED, "b.record": MARKED})


if __name__ == "__main__":
    unittest.main()
