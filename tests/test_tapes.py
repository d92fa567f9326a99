"""Tapes: what `check` prints of them, where it refuses others, and what several make together.

What a tape is, and at which byte an input is refused, stands in docs/TAPE.md. A second reader, written from that
page, says what has to be printed of thousands of inputs. What is easily misread stands in tables by hand.
"""
import collections
import multiprocessing
import os
import random
import re
import shutil
import subprocess
import time
import unittest
from concurrent.futures import ProcessPoolExecutor

from cases import Case
from outside import FIRST, HELLO, PROGRAM, TOP, Answer, block, bytes_of, run_often, tape_of, text_of

# ---------------------------------------------------------------- the second reader

MOST = 1048576
MEMORY_END = 0o160000
BLANK = re.compile(b"\0*")

Tape = collections.namedtuple("Tape", "blocks start size")


class Refused(Exception):
    """An input is no tape: the byte that is named, and the reason."""


def read(data):
    """The tape that begins an input: its blocks, each an address and bytes, its start, and how many bytes it took."""
    seen, blocks, at = data[:MOST], [], 0

    def over(place, why):
        return Refused(MOST, "TooLong") if len(data) > MOST else Refused(place, why)

    while True:
        s = BLANK.match(seen, at).end()
        head = seen[s : s + 6]
        count = int.from_bytes(head[2:4], "little")
        whole = seen[s : s + count + 1]
        if not head:
            raise over(s, "NoTransfer")
        if head[0] != 1:
            raise Refused(s, "Stray")
        if head[1:2] not in (b"", b"\0"):
            raise Refused(s + 1, "BadMark")
        if len(head) >= 4 and count < 6:
            raise Refused(s + 2, "BadCount")
        if len(head) < 6 or len(whole) < count + 1:
            raise over(s, "Cut")
        if sum(whole) % 256:
            raise Refused(s, "BadSum")
        address, at = int.from_bytes(head[4:6], "little"), s + count + 1
        if count == 6:
            return Tape(blocks, address, at)
        if address + count - 6 > MEMORY_END:
            raise Refused(s + 4, "PastTop")
        blocks.append((address, whole[6:-1]))


def tape_lines(data, tape):
    """The three lines of a tape."""
    plain = tape_of(tape.blocks, tape.start)
    amount = sum(len(some) for _, some in tape.blocks)
    yield f"blocks {len(tape.blocks)} data {amount} read {tape.size}\n"
    yield f"{'no ' * (tape.start % 2)}start {tape.start:06o}\n"
    yield f"canonical {'yes' if data[:tape.size] == plain else 'no'}\n"


def word_lines(memory):
    """The lines of the words that have a byte in memory or two."""
    addresses = sorted({address // 2 * 2 for address in memory})
    yield f"words {len(addresses)}\n"
    for low in addresses:
        mask = 0o000377 * (low in memory) + 0o177400 * (low + 1 in memory)
        yield f"{low:06o} {mask:06o} {memory.get(low, 0) + 256 * memory.get(low + 1, 0):06o}\n"


def checked(inputs):
    """What `check` answers of these inputs."""
    lines, memory = [], {}
    for number, data in enumerate(inputs, 1):
        try:
            tape = read(data)
        except Refused as refused:
            which = "tape" if len(inputs) == 1 else f"tape {number}"
            return Answer(3, "", "ldaodt: {} refused at {}: {}\n".format(which, *refused.args))
        lines += tape_lines(data, tape)
        for address, some in tape.blocks:
            memory.update(enumerate(some, address))
    return Answer(0, "".join([*lines, *word_lines(memory)]), "")


# ---------------------------------------------------------------- many inputs

PROCESSES = 4
WRONG = "check of {}\n gives {}\n and not {}"


def shown(inputs):
    return " | ".join(f"{data[:80].hex(' ')}{' ..' * (len(data) > 80)}" for data in inputs)


def judge_files(room, inputs):
    """Checks inputs in files; returns what is wrong, if anything is."""
    names = [os.path.join(room, f"{os.getpid()}-{number}.lda") for number in range(len(inputs))]
    for name, data in zip(names, inputs):
        with open(name, "wb") as file:
            file.write(data)
    given, wanted = run_often(["check", *names]), checked(inputs)
    return None if given == wanted else WRONG.format(shown(inputs), given, wanted)


def judge_input(room, inputs):
    """Checks an input that stands on standard input, and sees how much of it was taken, where it begins with a tape."""
    with open(os.path.join(room, f"{os.getpid()}.input"), "w+b", buffering=0) as file:
        file.write(inputs[0])
        file.seek(0)
        given, wanted = run_often([], stdin=file), checked(inputs)
        taken = file.tell()
    if given == wanted and wanted.status == 0:
        given, wanted = taken, read(inputs[0]).size
    return None if given == wanted else WRONG.format(shown(inputs), given, wanted)


class Compared(Case):
    """The program beside the second reader; processes of their own run it, which takes a third of the time."""

    @classmethod
    def setUpClass(cls):
        cls.pool = ProcessPoolExecutor(PROCESSES, multiprocessing.get_context("fork"))
        cls.addClassCleanup(cls.pool.shutdown)

    def agree(self, lists, judge=judge_files):
        """Asserts that program and second reader answer the same of each list of inputs."""
        lists = list(lists)
        self.assertTrue(lists)
        # All are waited for, also where one is wrong, since their files stand in the test's folder.
        wrong = [it for it in self.pool.map(judge, [self.room] * len(lists), lists, chunksize=16) if it]
        if wrong:
            self.fail(f"{len(wrong)} of {len(lists)} lists of inputs, and the first is this one: {wrong[0]:.3000}")


# ---------------------------------------------------------------- tapes

def zeros_and(count, end=b""):
    return bytes(count) + end


ODD_START = tape_of([])
LAST_BYTE = tape_of([(0o157777, b"\x55")])

# Tapes of which each prefix is tried, and each byte changed.
SAMPLES = {
    "first": bytes_of(FIRST),
    "hello": bytes_of(HELLO),
    "padded": zeros_and(9, block(0o1000, b"\x34\x12")) + zeros_and(3, block(0o1000, b"")) + b"\xff\xff",
    "overlapping": bytes_of(f"{TOP}/tests/tapes/two-words.lda"),
    "odd start": ODD_START,
    "last byte": LAST_BYTE,
}

# What a byte is changed to where not each value is tried; and its neighbours.
SOME_VALUES = {0, 1, 2, 5, 6, 7, 8, 9, 0o177, 0o200, 0o337, 0o340, 0o377}

# What may follow a tape, or stand where one should.
TAILS = (b"\0", b"\1", b"\xff", b"A", b"\1\1", b"\1\0\5\0", bytes(700), b"\xff" * 70000, ODD_START, b"\1\0\7\0\0\2\0\0")


def changed(data, place, value):
    return data[:place] + bytes([value]) + data[place + 1 :]


def mended(data, place, value, end):
    """A byte of a block is changed, and the checksum at the end with it, so that the sum is as it was."""
    return changed(changed(data, place, value), end, (data[end] + data[place] - value) % 256)


def small_block(chance):
    """A block near an edge of memory or of one of its halves, quarters and so on."""
    edge = chance.choice((0, 4, 0o400, 0o776, 0o1000, 0o1000, 0o1001, 0o2000, 0o100000, 0o157000, 0o157776))
    address = max(0, edge + chance.randrange(-6, 7))
    length = chance.choice((1, 1, 2, 3, 4, 5, 8, 13, 250, 512, 1025))
    return address, chance.randbytes(max(1, min(length, MEMORY_END - address)))


def made_by_chance(chance):
    """A tape of some blocks, seldom with a fault, blank tape between the blocks, and something behind it."""
    blocks = [small_block(chance) for _ in range(chance.choice((0, 1, 2, 3, 6)))]
    blocks.append((chance.choice((1, 0, 0o1000, 0o1001, 0o173000, 0o177777)), b""))
    data = b"".join(bytes(chance.choice((0, 0, 1, 5))) + block(*one) for one in blocks)
    if chance.random() < 0.08:
        data = changed(data, chance.randrange(len(data)), chance.randrange(256))
    return data + chance.choice((b"", b"\0\0", b"\xff", data))


class Readings(Compared):
    """Program and second reader agree."""

    def test_each_prefix(self):
        # The count of the last one's block is 000405, of which the low byte alone would be too low a count.
        for data in (*SAMPLES.values(), tape_of([(0o1000, bytes(range(255)))])):
            self.agree([data[:length]] for length in range(len(data)))

    def test_each_byte_changed_to_some_values(self):
        for data in SAMPLES.values():
            self.agree(
                [changed(data, place, value)]
                for place, byte in enumerate(data)
                for value in sorted(SOME_VALUES | {(byte + 1) % 256, (byte - 1) % 256})
            )

    def test_each_byte_changed_to_each_value(self):
        data = SAMPLES["first"]
        self.agree(([changed(data, place, value)] for place in range(len(data)) for value in range(256)), judge_input)

    def test_each_byte_behind_the_mark_changed_under_a_right_sum(self):
        for data, end in ((LAST_BYTE, 7), (ODD_START, 6)):
            self.agree([mended(data, place, value, end)] for place in range(2, end) for value in range(256))

    def test_bytes_before_a_tape_and_in_it(self):
        data = SAMPLES["overlapping"]
        for byte in (b"\0", b"\1", b"\xff"):
            self.agree([data[:place] + byte * many + data[place:]] for place in range(len(data)) for many in (1, 9))

    def test_what_follows_a_tape_is_left_alone(self):
        self.agree(([data + tail] for data in SAMPLES.values() for tail in (b"", *TAILS)), judge_input)

    def test_what_follows_a_tape_stays_in_a_pipe(self):
        """For whoever reads on there; also where standard input is called `-`."""
        data = SAMPLES["first"]
        for words in ([], ["check", "-"]):
            for tail in (it for it in TAILS if len(it) < 1000):
                reading, writing = os.pipe()
                os.write(writing, data + tail)
                os.close(writing)
                with os.fdopen(reading, "rb", buffering=0) as pipe:
                    given = run_often(words, stdin=pipe)
                    left = pipe.read()
                self.is_so((words, given, left), (words, checked([data]), tail))

    def test_a_tape_that_comes_in_two_pieces(self):
        data = SAMPLES["overlapping"]
        for place in range(1, len(data)):
            with subprocess.Popen([PROGRAM], stdin=subprocess.PIPE, stdout=subprocess.PIPE) as process:
                process.stdin.write(data[:place])
                process.stdin.flush()
                time.sleep(0.02)
                given = text_of(process.communicate(data[place:], timeout=60)[0])
            self.is_so((place, process.returncode, given), (place, 0, checked([data]).out))

    def test_what_follows_a_block(self):
        self.agree([block(0o1000, b"\x34\x12") + tail] for tail in (b"", *TAILS))

    def test_two_blocks_that_lie_over_one_another(self):
        # On both sides of 001000; then at the end of memory, where some are refused.
        for edge in (0o1000, MEMORY_END):
            first = (edge - 3, b"\x11\x22\x33")
            for far in range(-7, 3):
                for many in range(1, 6):
                    second = (edge + far, bytes(range(0o101, 0o101 + many)))
                    one, other, both = tape_of([first]), tape_of([second]), tape_of([first, second])
                    self.agree([[both], [tape_of([second, first])], [one, other], [other, one]])

    def test_blocks_up_to_the_end_of_memory_and_past_it(self):
        lengths = (1, 2, 3, 255, 256, 257, 511, 512, 513, 1024, 57343, 57344, 57345, 65529)
        ends = (MEMORY_END - 1, MEMORY_END, MEMORY_END + 1, MEMORY_END + 2, 0o177777, 0o200000, 0o200001, 0o357777)
        self.agree(
            [tape_of([(end - length, bytes(place % 253 for place in range(length)))])]
            for length in lengths
            for end in ends
            if 0 <= end - length < 65536
        )

    def test_a_block_of_each_length(self):
        """At an even address and at an odd one, behind as many bytes of blank tape or none."""
        self.agree(
            [zeros_and(blank, tape_of([(address, bytes(place % 251 for place in range(length)))]))]
            for length in range(1, 530)
            for address, blank in ((0o1000, 0), (0o1001, length))
        )

    def test_blocks_of_one_length(self):
        """As many as have 57,344 bytes, or 300: one behind another, with a byte between them, and all at one address."""
        powers = (power + more for power in (4, 16, 64, 256, 1024, 8192, 28672) for more in (-1, 0, 1))
        self.agree(
            [tape_of([(place * step, bytes([place % 256]) * length) for place in range(count)])]
            for length in (1, 2, *powers, 20000, 57343, 57344)
            for step in (length, length + 1, 0)
            for count in [min(300, MEMORY_END // length, (MEMORY_END - length) // (step or 1) + 1)]
        )

    def test_starts(self):
        starts = {(power + more) % 65536 for power in (1 << bit for bit in range(17)) for more in (-2, -1, 0, 1)}
        self.agree([[tape_of([(0o1000, b"\x34\x12")], start) for start in sorted(starts | {MEMORY_END, 0o173000})]])

    def test_each_value_of_a_byte(self):
        self.agree([[tape_of([(0o1000 + place, bytes([place])) for place in range(256)])]])
        self.agree([[tape_of([(0o1000 + 3 * place, bytes([place])) for place in range(256)])]])

    def test_tapes_made_by_chance(self):
        chance = random.Random(11)
        self.agree([made_by_chance(chance) for _ in range(chance.choice((1, 1, 2, 3, 5)))] for _ in range(600))

    def test_the_last_place_of_a_tape(self):
        whole = b"".join(block(0, bytes(57344)) for _ in range(18))
        for more in (-1, 0, 1, 2):
            data = whole + tape_of([(0o1000, b"\x77" * (16244 + more))])
            self.is_so(len(data), MOST + more)
            self.agree([[data], [data + b"\xff"], [data[:-1]], [ODD_START, data]])
            self.agree([[data + b"\xff"]], judge_input)


# ---------------------------------------------------------------- by hand

# Blocks of a tape, each an address and bytes, the lines of its words, and why they stand here.
WORDS = (
    ([], "", "a tape without a block has no words"),
    ([(0o1000, "34 12")], "001000 177777 011064", "a whole word, low byte first"),
    ([(0, "ff")], "000000 000377 000377", "the first byte of memory"),
    ([(0o157776, "55")], "157776 000377 000125", "the last but one"),
    ([(0o1000, "00 00")], "001000 177777 000000", "bytes 00 are bytes of the image"),
    ([(0o1001, "00")], "001000 177400 000000", "one of them, too"),
    ([(0o1001, "11 22"), (0o1000, "33")], "001000 177777 010463\n001002 000377 000042", "two blocks give one word"),
    (
        [(0o1000, "aa bb cc"), (0o1003, "dd"), (0o1001, "11 22")],
        "001000 177777 010652\n001002 177777 156442",
        "a later block reaches into two words that have bytes already",
    ),
    (
        [(0o1000, "01"), (0o1005, "02")],
        "001000 000377 000001\n001004 177400 001000",
        "a word between two blocks is none of the tape's",
    ),
    (
        [(0o2000, "07 00"), (0o1000, "05 00")],
        "001000 177777 000005\n002000 177777 000007",
        "addresses rise, whatever the order of the blocks",
    ),
    (
        [(0o777, "11 22"), (0o1000, "33 44")],
        "000776 177400 010400\n001000 177777 042063",
        "a later block lies over the end of one that reaches from a page of memory into the next",
    ),
    (
        [(0o776, "01 02 03 04"), (0o777, "05 06")],
        "000776 177777 002401\n001000 177777 002006",
        "a later block lies over the middle of an earlier one",
    ),
    (
        [(0o157774, "01 02 03 04"), (0, "05"), (0o157777, "06")],
        "000000 000377 000005\n157774 177777 001001\n157776 177777 003003",
        "the first byte of memory and the last",
    ),
)

# Inputs, what is said of them, and why they stand here.
REFUSALS = (
    ("00 00 00", "3: NoTransfer", "blank tape alone"),
    ("00 01 02 03", "2: BadMark", "a bad mark is seen before the count is there"),
    ("01 00 07 00 ff df 55 c5 c5", "8: Stray", "a stray byte between blocks"),
    ("01 00 05 00 00 00 fa", "2: BadCount", "a count below 6 comes before the sum"),
    ("01 00 00 00 00 00 ff", "2: BadCount", "a count of 0"),
    ("01 00 06 01 00 00 f8", "0: Cut", "the high byte of the count counts"),
    ("01 00 07 00 ff df 55 c5 01 00 05", "8: Cut", "half a count is no count yet"),
    ("00 01 00 07 00 ff ff 00 fa", "5: PastTop", "a block past the top is named by its own place"),
    ("01 00 08 00 ff ff 00 00 f9", "4: PastTop", "address and length together need more than 16 bits"),
    ("01 00 07 00 00 e0 00 18", "4: PastTop", "the first byte of the I/O page"),
    ("01 00 08 00 00 02 34 12 af 01 00 06 00 00 02 00", "9: BadSum", "no checksum, and a padding byte in its place"),
)

# So many bytes 00 and what stands behind them, what is said of them, and why they stand here.
LAST_PLACES = (
    (1048569, "01 00 06 00 01 00 f8", "", "a tape that ends at the last place"),
    (1048570, "01 00 06 00 01 00 f8", "1048576: TooLong", "a tape that ends a byte later"),
    (1048570, "01 00 10 00 00 02", "1048570: Cut", "a block goes on where the input ends"),
    (1048570, "01 00 10 00 00 02 41", "1048576: TooLong", "a block goes on where the input does"),
    (1048570, "01 00 08 00 00 02 34 12 af", "1048576: TooLong", "a block that is whole past the last place"),
    (1048570, "01 00 05 00 00 02 34 12 af", "1048572: BadCount", "a bad count before the last place comes first"),
    (1048574, "01 01 00 00", "1048575: BadMark", "so does a bad mark"),
    (1048576, "41", "1048576: TooLong", "a stray byte behind it is not judged"),
)


def by_hand(blocks):
    return [(address, bytes.fromhex(text)) for address, text in blocks]


class ByHand(Case):
    def test_words(self):
        for blocks, words, reason in WORDS:
            with self.subTest(reason):
                blocks, words = by_hand(blocks), words.splitlines()
                amount = sum(len(data) for _, data in blocks)
                self.put("a.lda", tape_of(blocks))
                # A block has six bytes before its data and one behind it; so has the transfer block.
                lines = [
                    f"blocks {len(blocks)} data {amount} read {7 * len(blocks) + amount + 7}",
                    "no start 000001",
                    "canonical yes",
                    f"words {len(words)}",
                    *words,
                ]
                self.ends(self.ldaodt("check a.lda"), 0, "".join(f"{line}\n" for line in lines))

    def test_refusals(self):
        self.put_tapes("first.lda")
        for text, said, reason in REFUSALS:
            with self.subTest(reason):
                self.put("a.lda", bytes.fromhex(text))
                self.ends(self.ldaodt("check a.lda"), 3, "", f"ldaodt: tape refused at {said}\n")
                self.ends(self.ldaodt("check first.lda a.lda a.lda"), 3, "", f"ldaodt: tape 2 refused at {said}\n")

    def test_what_srec_cat_writes_without_a_start(self):
        """It has no transfer block."""
        if not shutil.which("srec_cat"):
            self.skipTest("srec_cat is not installed")
        self.put("word.bin", b"\x34\x12")
        subprocess.run("srec_cat word.bin -binary -offset 01000 -o word.lda -dec_binary".split(), cwd=self.room, check=True)
        self.ends(self.ldaodt("check word.lda"), 3, "", "ldaodt: tape refused at 512: NoTransfer\n")

    def test_last_places(self):
        good = "blocks 0 data 0 read 1048576\nno start 000001\ncanonical no\nwords 0\n"
        for zeros, text, said, reason in LAST_PLACES:
            with self.subTest(reason):
                self.put("a.lda", zeros_and(zeros, bytes.fromhex(text)))
                wanted = (3, "", f"ldaodt: tape refused at {said}\n") if said else (0, good)
                self.ends(self.ldaodt("check a.lda"), *wanted)

    def test_a_full_image(self):
        image = bytes(address % 251 for address in range(MEMORY_END))
        rows = [(address, image[address] + 256 * image[address + 1]) for address in range(0, MEMORY_END, 2)]
        words = "words 28672\n" + "".join(f"{address:06o} 177777 {value:06o}\n" for address, value in rows)
        self.put("one.lda", tape_of([(0, image)], 0))
        self.ends(
            self.ldaodt("check one.lda"), 0, "blocks 1 data 57344 read 57358\nstart 000000\ncanonical yes\n" + words
        )
        self.put("many.lda", tape_of([(56 * number, image[56 * number : 56 * number + 56]) for number in range(1024)]))
        self.ends(
            self.ldaodt("check many.lda"), 0, "blocks 1024 data 57344 read 64519\nno start 000001\ncanonical yes\n" + words
        )

    def test_a_thousand_blocks_and_three_hundred_patches(self):
        # One tape has the high bytes of a thousand words, one the low ones, and each patch says one byte anew.
        self.put("high.lda", tape_of([(2 * number + 1, b"\x01") for number in range(1000)]))
        self.put("low.lda", tape_of([(2 * number, bytes([number % 256])) for number in range(1000)]))
        patches = [f"{number}.lda" for number in range(300)]
        for number, name in enumerate(patches):
            self.put(name, tape_of([(number, bytes([0o377 - number % 256]))]))
        values = [(0o377 - 2 * number % 256) + 256 * (0o377 - (2 * number + 1) % 256) for number in range(150)]
        values += [number % 256 + 256 for number in range(150, 1000)]
        self.ends(
            self.ldaodt(["check", "high.lda", "low.lda", *patches]),
            0,
            "blocks 1000 data 1000 read 8007\nno start 000001\ncanonical yes\n" * 2
            + "blocks 1 data 1 read 15\nno start 000001\ncanonical yes\n" * 300
            + "words 1000\n"
            + "".join(f"{2 * number:06o} 177777 {value:06o}\n" for number, value in enumerate(values)),
        )


# ---------------------------------------------------------------- what is typed of tapes

# Tapes, each its blocks and its start, the words that memory then has, where the program runs, and why they stand here.
# How many characters are sent is counted from what is typed (docs/MAP.md, "The way of a byte"): `Z`, 22 for a word
# that has to be deposited, 8 for one that stands already, 7 for the start.
TOGETHER = (
    ([([], 0)], "", "000000", "a start at the first address"),
    ([([], 0o157777)], "", None, "an odd start at the last"),
    ([([], 0o177776)], "", "177776", "an even start above memory"),
    (
        [([(0o1000, "34 12")], 0o1000), ([(0o1001, "55")], 1)],
        "001000 052464",
        None,
        "a patch on a later tape, of which the odd start alone counts",
    ),
    (
        [([(0o1001, "55")], 1), ([(0o1000, "34 12")], 0o1000)],
        "001000 011064",
        "001000",
        "a patch that comes first is lost under what follows",
    ),
    ([([(0o1000, "07")], 0o1000), ([], 0o2000)], "001000 000007", "002000", "a last tape that has a start alone"),
    (
        [([(0o1002, "01 02")], 0o1000), ([(0o1001, "03 04")], 0o1001), ([(0o1003, "05")], 0o1002)],
        "001000 001400\n001002 002404",
        "001002",
        "three tapes, of which each lies over the one before",
    ),
)

# A tape's bytes at an address, an old word at 001000, the word after a load, whether the tape's word stood there already,
# and why they stand here.
LAID = (
    (0o1000, "44", "123456", "123504", False, "the high byte stays"),
    (0o1000, "44", "123504", "123504", True, "it stands, whatever the high byte"),
    (0o1001, "55", "125252", "052652", False, "the low byte stays"),
    (0o1001, "55", "052652", "052652", True, "it stands, whatever the low byte"),
    (0o1000, "34 12", "177777", "011064", False, "no byte stays"),
    (0o1000, "34 12", "011064", "011064", True, "the whole word stands"),
    (0o1000, "34 12", "011065", "011064", False, "one bit differs in the low byte"),
    (0o1000, "34 12", "111064", "011064", False, "one bit differs in the high byte"),
    (0o1000, "00", "177777", "177400", False, "a byte 00 is laid over like any other"),
    (0o1001, "00", "177777", "000377", False, "so is a high one"),
)


class Typed(Case):
    """Tapes are loaded into the memory of a simulated machine."""

    def test_several_tapes(self):
        self.put("clean.script", b"clean\n")
        for tapes, words, start, reason in TOGETHER:
            with self.subTest(reason):
                names = [f"{number}.lda" for number in range(len(tapes))]
                for name, (blocks, address) in zip(names, tapes):
                    self.put(name, tape_of(by_hand(blocks), address))
                words = words.splitlines()
                sent = 22 * len(words) + 7 * (start is not None)
                self.ends(
                    self.ldaodt(["rehearse", names[0], "clean.script", *names[1:]]),
                    0,
                    f"sent {sent + (sent > 0)} lost 0 spent 0 verified {len(words)} of {len(words)}\n"
                    + (f"end Started\nodt Running {start}\n" if start else "end Loaded\nodt Prompt\n")
                    + "".join(f"{word} stands\n" for word in words),
                )

    def test_words_are_laid_over_those_of_memory(self):
        for address, text, old, new, stood, reason in LAID:
            with self.subTest(reason):
                self.put("a.lda", tape_of(by_hand([(address, text)])))
                self.put("old.script", f"put 001000 {old}\n".encode())
                self.put("load.script", f"put 001000 {old}\nclean\n".encode())
                self.ends(
                    self.ldaodt("rehearse a.lda old.script"),
                    0,
                    "sent 0 lost 0 spent 0 verified 0 of 1\nend none\nodt Prompt\n"
                    f"001000 {old} {'stands' if stood else 'differs'}\n",
                )
                self.ends(
                    self.ldaodt("rehearse a.lda load.script"),
                    0,
                    f"sent {9 if stood else 23} lost 0 spent 0 verified 1 of 1\nend Loaded\nodt Prompt\n"
                    f"001000 {new} stands\n",
                )


if __name__ == "__main__":
    unittest.main()
