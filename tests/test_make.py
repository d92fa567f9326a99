"""`make`, which makes a tape of octal words, and `check --blocks`, which lists a tape's blocks.

Which texts are words, and which line of others is named, stands in docs/TAPE.md. A second reader, written from that page,
says what the tape of thousands of texts is; what is easily misread stands in tables by hand.
"""
import errno
import os
import pty
import random
import re
import stat
import subprocess
import time
import unittest
from concurrent.futures import ThreadPoolExecutor

from cases import Case
from outside import FIRST, HELLO, PROGRAM, TOP, block, bytes_of, fault, run, run_often, tape_of

MEMORY_END = 0o160000
MOST = 4194304

# ---------------------------------------------------------------- the second reader


class Refused(Exception):
    """A text is no words: the line that is named, and the reason."""


def numbers_of(text):
    """The octal numbers that a text is, with blanks between them."""
    fields = text.translate(bytes.maketrans(b"\t\r", b"  ")).split(b" ")
    numbers = [int(it, 8) for it in fields if re.fullmatch(rb"[0-7]{1,6}", it)]
    if len(numbers) != len([it for it in fields if it]) or any(it > 0o177777 for it in numbers):
        raise ValueError
    return numbers


def said_by(line):
    """The address and the words of a line; None where it says nothing, or why it is refused."""
    said = re.split(rb"[;#]", line)[0]
    address, slash, words = said.partition(b"/")
    try:
        numbers = numbers_of(address) + numbers_of(words)
        if slash and len(numbers_of(address)) != 1:
            return "BadNumber"
    except ValueError:
        return "BadNumber"
    if not numbers:
        return None
    if len(numbers) == 1:
        return "NoWords"
    if numbers[0] % 2:
        return "OddAddress"
    if numbers[0] + 2 * (len(numbers) - 1) > MEMORY_END:
        return "PastTop"
    return numbers[0], numbers[1:]


def memory_of(text):
    """The bytes that the words of a text leave in memory, by their addresses."""
    if len(text) > MOST:
        raise Refused(0, "TooLong")
    memory = {}
    for number, line in enumerate(text.split(b"\n"), 1):
        said = said_by(line)
        if isinstance(said, str):
            raise Refused(number, said)
        for place, word in enumerate(said[1] if said else ()):
            memory[said[0] + 2 * place], memory[said[0] + 2 * place + 1] = word % 256, word // 256
    return memory


def blocks_of(memory):
    """Blocks of consecutive bytes, of 512 at most, the lowest first."""
    blocks = []
    for address in sorted(memory):
        if blocks and blocks[-1][0] + len(blocks[-1][1]) == address and len(blocks[-1][1]) < 512:
            blocks[-1][1].append(memory[address])
        else:
            blocks.append((address, bytearray([memory[address]])))
    return [(address, bytes(some)) for address, some in blocks]


def lines_of(memory, start):
    """What `check` has to print of the tape."""
    blocks = blocks_of(memory)
    yield f"blocks {len(blocks)} data {len(memory)} read {sum(len(some) + 7 for _, some in blocks) + 7}\n"
    yield f"{'no ' * (start % 2)}start {start:06o}\ncanonical yes\nwords {len(memory) // 2}\n"
    for address in sorted(memory)[::2]:
        yield f"{address:06o} 177777 {memory[address] + 256 * memory[address + 1]:06o}\n"


def refusal_of(text):
    """The fault of a text that is refused."""
    try:
        memory_of(text)
    except Refused as refused:
        return "ldaodt: words refused at line {}: {}\n".format(*refused.args)
    return ""


# ---------------------------------------------------------------- by hand

# A text, and the words that it leaves, by their addresses.
TEXTS = (
    (b"", {}, "nothing is a text, too"),
    (b"\n\n", {}, "and empty lines are"),
    (b" \t\r\n", {}, "and blanks"),
    (b"; a remark 8\n# 9\n", {}, "and remarks"),
    (b"001000 012700 000377", {0o1000: 0o012700, 0o1002: 0o000377}, "the end of a line may be missing"),
    (b"001000/012700\n", {0o1000: 0o012700}, "as ODT shows a word"),
    (b"001000/ 012700 000377\n", {0o1000: 0o012700, 0o1002: 0o000377}, "with a blank behind the slash"),
    (b"  001000\t/\t012700  \r\n", {0o1000: 0o012700}, "blanks stand wherever they may"),
    (b"0 7\n", {0: 7}, "one digit is enough"),
    (b"157776 177777\n", {0o157776: 0o177777}, "the last word, the largest number"),
    (b"001000 1;2\n001002 3#4\n", {0o1000: 1, 0o1002: 3}, "a remark stands behind words"),
    (b"1000 1\n1000 2\n", {0o1000: 2}, "a later word counts"),
    (b"1000 1 2 3\n1002 7\n", {0o1000: 1, 0o1002: 7, 0o1004: 3}, "in the midst of an earlier line"),
    (b"2000 1\n1000 2\n", {0o1000: 2, 0o2000: 1}, "lines stand in any order"),
    (b"001000 000000\n", {0o1000: 0}, "a word of zeroes is one"),
)

# A line that is refused, and why.
LINES = (
    (b"001000", "NoWords", "an address alone"),
    (b"001000/", "NoWords", "with a slash, too"),
    (b"001001", "NoWords", "which is said first"),
    (b"001000 ; 012700", "NoWords", "the words are a remark"),
    (b"001001 012700", "OddAddress", ""),
    (b"177777 0", "OddAddress", "which is said before the end of memory"),
    (b"160000 0", "PastTop", ""),
    (b"157776 0 0", "PastTop", "the second word is"),
    (b"177776 0", "PastTop", "the I/O page"),
    (b"001000 0000001", "BadNumber", "seven digits"),
    (b"0001000 1", "BadNumber", "seven digits of an address"),
    (b"001000 200000", "BadNumber", "more than a word"),
    (b"001000 8", "BadNumber", ""),
    (b"001000 12.", "BadNumber", "a decimal number"),
    (b"001000 -1", "BadNumber", ""),
    (b"001000 +1", "BadNumber", ""),
    (b"001000 0o12", "BadNumber", ""),
    (b"001000: 012700", "BadNumber", ""),
    (b"001000,012700", "BadNumber", ""),
    (b"/012700", "BadNumber", "a slash with no address"),
    (b"001000 012700/000377", "BadNumber", "a slash behind a word"),
    (b"001000/012700/000377", "BadNumber", "a second slash"),
    (b"001000/012700 @", "BadNumber", "the prompt"),
    (b"// 1", "BadNumber", ""),
    (b"001000 \xe2\x82\x80", "BadNumber", "a digit of another kind"),
    (b"001000\x0b1", "BadNumber", "another blank"),
    (b"001000\x001", "BadNumber", ""),
    (b"\xef\xbb\xbf001000 1", "BadNumber", "a mark of byte order"),
)


class Makes(Case):
    """A test makes its tapes in its folder."""

    def make(self, text, *more, **how):
        """Makes the tape a.lda of a text on standard input."""
        return self.ldaodt(["make", "a.lda", *more], text, **how)

    def holds(self, files):
        """Asserts that the folder has these files and no others."""
        self.is_so({it: bytes_of(self.path(it)) for it in os.listdir(self.room)}, files)

    def is_made(self, text, start=1, *more):
        """Asserts that a tape was made of a text, silently, and lets it go."""
        self.ends(self.make(text, *more), 0)
        self.holds({"a.lda": tape_of(blocks_of(memory_of(text)), start)})
        os.remove(self.path("a.lda"))


class Words(Makes):
    """Which texts are words, and what tape is made of them."""

    def test_texts_by_hand(self):
        for text, words, why in TEXTS:
            with self.subTest(why):
                memory = {}
                for address, word in words.items():
                    memory[address], memory[address + 1] = word & 255, word >> 8
                self.is_so(memory_of(text), memory)
                self.is_made(text)

    def test_lines_that_are_refused(self):
        """At the first line, behind others, and before lines that are worse. Nothing is written."""
        for line, why, note in LINES:
            for before in (b"", b"\n", b"1000 1\n; 2\r\n\n"):
                with self.subTest((before, line, note)):
                    text = before + line + b"\n1 1\nworse\n"
                    number = before.count(b"\n") + 1
                    self.ends(self.make(text), 3, "", f"ldaodt: words refused at line {number}: {why}\n")
                    self.is_so(refusal_of(text), f"ldaodt: words refused at line {number}: {why}\n")
                    self.holds({})

    def test_each_length_of_a_number(self):
        for digits in range(1, 12):
            for number in (b"0" * digits, b"1" + b"0" * (digits - 1), b"0" * (digits - 1) + b"6", b"7" * digits):
                for text in (b"1000 " + number, number + b" 1", b"1000 1 " + number + b" 2"):
                    self.agrees([text])

    def test_each_byte_in_a_line(self):
        """In the address, behind it, in a word, between two, and at the end."""
        line = b"1000 12 34"
        self.agrees(line[:place] + bytes([byte]) + line[place + gone:] for place, gone in ((0, 0), (2, 1), (4, 0), (4, 1), (7, 1), (10, 0)) for byte in range(256))

    def test_addresses_at_the_edges(self):
        edges = sorted({(power + more) % 65536 for power in (0, 0o1000, 0o77776, 0o157000, 0o157776, 0o160000, 0o177776) for more in range(-4, 5)})
        self.agrees(b"%o %s" % (edge, b"1 " * count) for edge in edges for count in (1, 2, 3, 256, 257))

    def test_texts_by_chance(self):
        self.agrees(text_by_chance(random.Random(seed)) for seed in range(800))

    def test_a_start(self):
        for given, start in (("1000", 0o1000), ("001002", 0o1002), ("173001", 0o173001), ("0", 0), ("177777", 0o177777)):
            self.is_made(b"1000 1\n", start, "--start", given)

    def test_blocks_of_512_bytes(self):
        """256 words are one block, and so are 256 on as many lines; 257 are two."""
        for count in (255, 256, 257, 511, 512, 513, 1024):
            words = [number * 257 % 65536 for number in range(count)]
            self.is_made(b"1000 " + b" ".join(b"%06o" % it for it in words))
            self.is_made(b"\n".join(b"%06o/%06o" % (0o1000 + 2 * number, it) for number, it in enumerate(words)))

    def test_all_of_memory(self):
        for behind in (b" ", b"/"):
            self.is_made(b"0" + behind + b"177777 " * 28672)
        self.is_made(b"".join(b"%o %o\n" % (address, address) for address in range(0, MEMORY_END, 2)))
        self.is_made(b"".join(b"%o 1\n" % address for address in range(0, MEMORY_END, 4)))

    def test_a_long_text(self):
        """The longest is read, and one that has a byte more is refused, as is one without end."""
        line = b"001000/012700 ; as ODT has it\n"
        text = line * (MOST // len(line))
        text += b" " * (MOST - len(text))
        self.is_made(text)
        self.ends(self.make(text + b"\n"), 3, "", "ldaodt: words refused at line 0: TooLong\n")
        self.ends(self.ldaodt("make a.lda /dev/zero"), 3, "", "ldaodt: words refused at line 0: TooLong\n")
        self.holds({})

    def agrees(self, texts):
        """Asserts that program and second reader make the same tape of each of these texts, or refuse the same line, and that
        `check` lists the words."""
        def trial(number, text):
            name = self.path(f"{number}.lda")
            given = run_often(["make", name], keys=text)
            fault = refusal_of(text)
            if given != (3 if fault else 0, "", fault):
                return text, given, fault
            if fault:
                return None if not os.path.lexists(name) else (text, "a file", "none")
            memory = memory_of(text)
            wanted = tape_of(blocks_of(memory)), (0, "".join(lines_of(memory, 1)), "")
            made = bytes_of(name), tuple(run_often(["check", name]))
            os.remove(name)
            return None if made == wanted else (text, made, wanted)

        with ThreadPoolExecutor(4) as pool:
            texts = list(texts)
            wrong = [it for it in pool.map(trial, range(len(texts)), texts) if it]
        if wrong:
            self.fail(f"{len(wrong)} of {len(texts)} texts, and the first is this one: {wrong[0]!r:.3000}")
        self.holds({})


def text_by_chance(chance):
    """Lines of words near some addresses, seldom with a fault."""
    lines = []
    for _ in range(chance.choice((0, 1, 2, 3, 8, 20))):
        address = 2 * chance.choice((0, 256, 256, 257, 300, 28669, 28670, chance.randrange(28600)))
        words = [chance.choice((0, 1, 0o377, 0o400, 0o177777, chance.randrange(65536))) for _ in range(chance.choice((1, 1, 2, 3, 5, 300)))]
        behind = b"/" if chance.random() < 0.3 else b" "
        line = chance.choice((b"%o", b"%06o")) % address + behind + b" ".join(chance.choice((b"%o", b"%06o")) % it for it in words)
        if chance.random() < 0.04:
            place = chance.randrange(len(line) + 1)
            line = line[:place] + chance.choice((b"8", b"/", b" ", b"0", b"x", b"\t", b";", b"#", b"777777")) + line[place:]
        lines.append(chance.choice((b"", b" ", b"\t")) + line + chance.choice((b"", b"", b" ", b"\r", b" ; 8", b"#9")))
        if chance.random() < 0.1:
            lines.append(chance.choice((b"", b"\r", b"; remark", b"  # 1001 1")))
    return b"\n".join(lines) + chance.choice((b"", b"\n"))


class Inputs(Makes):
    """Where the words come from."""

    def test_a_file_and_standard_input(self):
        text = b"001000 012700\n"
        tape = tape_of(blocks_of(memory_of(text)))
        self.put("words", text)
        for words in ("make 1.lda words", "make 2.lda", "make 3.lda -"):
            self.ends(self.ldaodt(words, text), 0)
        self.holds({"words": text, **{f"{number}.lda": tape for number in (1, 2, 3)}})

    def test_a_file_called_by_a_dash(self):
        """With a path it is a file."""
        self.put("-", b"1000 1\n")
        self.ends(self.ldaodt("make a.lda ./-", b"2000 2\n"), 0)
        self.is_so(bytes_of(self.path("a.lda")), tape_of([(0o1000, b"\1\0")]))

    def test_words_that_can_not_be_read(self):
        os.mkdir(self.path("folder"))
        for name, why in (("nowhere", errno.ENOENT), ("folder", errno.EISDIR), ("nowhere/words", errno.ENOENT)):
            self.ends(self.ldaodt(["make", "a.lda", name]), 4, "", fault(f"cannot read {name}", why))
        self.ends(self.ldaodt(["make", "a.lda", ""]), 4, "", fault("cannot read ''", errno.ENOENT))
        self.ends(self.make(b"", before="<&-"), 4, "", fault("cannot read standard input", errno.EBADF))
        self.ends(self.make(b"", before="< ."), 4, "", fault("cannot read standard input", errno.EISDIR))
        self.is_so(os.listdir(self.room), ["folder"])

    def test_words_that_come_in_pieces(self):
        with subprocess.Popen([PROGRAM, "make", "a.lda"], stdin=subprocess.PIPE, cwd=self.room) as process:
            for byte in b"1000 1\n1002 2":
                process.stdin.write(bytes([byte]))
                process.stdin.flush()
                time.sleep(0.005)
            self.holds({})
            process.stdin.close()
            self.is_so(process.wait(60), 0)
        self.holds({"a.lda": tape_of([(0o1000, b"\1\0\2\0")])})

    def test_a_terminal(self):
        """Standard input may be one; a file that is named may not."""
        ours, theirs = pty.openpty()
        os.symlink(os.ttyname(theirs), self.path("tty"))
        self.ends(run(["make", "a.lda", "tty"], cwd=self.room, seconds=10), 2, "", "ldaodt: tty is a terminal, no words\n")
        os.write(ours, b"1000 1\n\x04")
        self.ends(run(["make", "a.lda"], cwd=self.room, seconds=10, stdin=theirs), 0)
        self.is_so(bytes_of(self.path("a.lda")), tape_of([(0o1000, b"\1\0")]))
        for end in (ours, theirs):
            os.close(end)

    def test_nobody_reads_the_output(self):
        """Nothing is printed, so a full output is no fault."""
        self.ends(self.make(b"1000 1\n", before="> /dev/full"), 0)
        self.holds({"a.lda": tape_of([(0o1000, b"\1\0")])})


class Files(Makes):
    """FILE is never replaced, and comes whole or not at all."""

    def test_a_file_that_is_there(self):
        """Whatever it is, it is as it was."""
        def refuses(name, text):
            self.ends(self.ldaodt(["make", name], b"1000 1\n"), 4, "", f"ldaodt: {text}\n")

        self.leaves_what_is_there(refuses)

    def test_words_are_refused_before_the_file_is_looked_at(self):
        self.put("plain", b"hello")
        for name in ("plain", "nowhere/a.lda"):
            self.ends(self.ldaodt(["make", name], b"1001 1\n"), 3, "", "ldaodt: words refused at line 1: OddAddress\n")
            self.ends(self.ldaodt(["make", name, "nowhere"]), 4, "", fault("cannot read nowhere", errno.ENOENT))
        self.holds({"plain": b"hello"})

    def test_a_file_of_words_is_not_replaced(self):
        self.put("words", b"1000 1\n")
        self.ends(self.ldaodt("make words words"), 4, "", "ldaodt: words is there already\n")
        self.holds({"words": b"1000 1\n"})

    def test_a_file_that_can_not_be_made(self):
        self.put("plain", b"hello")
        for name, why in (("nowhere/a.lda", errno.ENOENT), ("plain/a.lda", errno.ENOTDIR), ("new/", None)):
            self.ends(self.ldaodt(["make", name], b"1000 1\n"), 4, "", fault(f"cannot write {name}", why))
        self.ends(self.ldaodt(["make", ""], b"1000 1\n"), 4, "", fault("cannot write ''"))
        self.holds({"plain": b"hello"})

    def test_what_stands_beside(self):
        """What a save left there is refused, and stays; so is a folder of that name."""
        self.put("a.lda.part", b"left")
        self.ends(self.make(b"1000 1\n"), 4, "", "ldaodt: a.lda.part is there already\n")
        self.holds({"a.lda.part": b"left"})
        os.mkdir(self.path("b.lda.part"))
        self.ends(self.ldaodt("make b.lda", b"1000 1\n"), 4, "", "ldaodt: b.lda.part is there already\n")
        self.is_so(os.listdir(self.path("b.lda.part")), [])

    def test_a_disk_that_is_full(self):
        """A file may have so many bytes, and the tape has 25. With fewer there is none, and nothing beside."""
        text = b"1000 1\n2000 2\n"
        tape = tape_of(blocks_of(memory_of(text)))
        self.is_so(len(tape), 25)
        for size in range(len(tape) + 2):
            given = self.ldaodt(["make", f"{size}.lda"], text, file_size=size)
            if size < len(tape):
                self.ends(given, 4, "", fault(f"cannot write {size}.lda", errno.EFBIG))
            else:
                self.ends(given, 0)
        self.holds({f"{size}.lda": tape for size in (len(tape), len(tape) + 1)})

    def test_a_folder_that_may_not_be_written(self):
        os.mkdir(self.path("folder"))
        os.chmod(self.path("folder"), stat.S_IRUSR | stat.S_IXUSR)
        if os.access(self.path("folder"), os.W_OK):
            self.skipTest("who runs this may write everywhere")
        self.ends(self.ldaodt("make folder/a.lda", b"1000 1\n"), 4, "", fault("cannot write folder/a.lda", errno.EACCES))


# ---------------------------------------------------------------- the list of blocks


def placed(data):
    """The blocks of a tape, each its place, its address and its bytes, and how many bytes the tape has."""
    at, blocks = 0, []
    while True:
        at += len(data[at:]) - len(data[at:].lstrip(b"\0"))
        count, address = (int.from_bytes(data[at + it:at + it + 2], "little") for it in (2, 4))
        if count == 6:
            return blocks, at + 7
        blocks.append((at, address, data[at + 6:at + count]))
        at += count + 1


def listed(tapes):
    """What `check --blocks` prints of tapes before the usual text."""
    text, covered = "", set()
    for number, data in enumerate(tapes, 1):
        text += f"tape {number}\n" if len(tapes) > 1 else ""
        for place, (at, address, some) in enumerate(placed(data)[0], 1):
            text += f"block {place} at {at} {address:06o} to {address + len(some) - 1:06o} bytes {len(some)}\n"
            covered.update(range(address, address + len(some)))
    text += f"addresses {min(covered):06o} to {max(covered):06o}\n" if covered else "no addresses\n"
    return text + (f"start of tape {len(tapes)}\n" if len(tapes) > 1 else "")


def tape_by_chance(chance):
    """A tape of some blocks, with bytes 00 before and between them."""
    blocks = []
    for _ in range(chance.choice((0, 1, 2, 3, 9))):
        address = chance.choice((0, 1, 0o1000, 0o1001, 0o157000, 0o157777, chance.randrange(MEMORY_END)))
        length = min(chance.choice((1, 2, 3, 255, 256, 512, 1025)), MEMORY_END - address)
        blocks.append((address, bytes(chance.choice((0, 1, chance.randrange(256))) for _ in range(length))))
    blocks.append((chance.choice((1, 0o1000)), b""))
    return b"".join(bytes(chance.choice((0, 0, 1, 2, 700))) + block(*one) for one in blocks)


class Blocks(Case):
    """What `check --blocks` lists."""

    def is_listed(self, *tapes):
        """Asserts what is listed of tapes, and that the usual text stands behind it."""
        names = [f"{number}.lda" for number in range(len(tapes))]
        for name, data in zip(names, tapes):
            self.put(name, data)
        usual = self.ldaodt(["check", *names])
        self.is_so((usual.status, usual.err), (0, ""))
        for words in (["check", "--blocks", *names], ["check", *names, "--blocks"]):
            self.ends(self.ldaodt(words), 0, listed(tapes) + usual.out)

    def test_by_hand(self):
        self.put("a.lda", b"\0\0" + block(0o1000, b"\1\2\3") + b"\0" + block(0o157776, b"\4\5") + block(0o1000, b""))
        self.put("b.lda", tape_of([]))
        usual = "blocks 2 data 5 read 29\nstart 001000\ncanonical no\n"
        words = "words 3\n001000 177777 001001\n001002 000377 000003\n157776 177777 002404\n"
        blocks = "block 1 at 2 001000 to 001002 bytes 3\nblock 2 at 13 157776 to 157777 bytes 2\n"
        self.ends(self.ldaodt("check --blocks a.lda"), 0, f"{blocks}addresses 001000 to 157777\n{usual}{words}")
        none = "blocks 0 data 0 read 7\nno start 000001\ncanonical yes\n"
        self.ends(self.ldaodt("check --blocks b.lda"), 0, f"no addresses\n{none}words 0\n")
        self.ends(self.ldaodt("check --blocks a.lda b.lda"), 0,
                  f"tape 1\n{blocks}tape 2\naddresses 001000 to 157777\nstart of tape 2\n{usual}{none}{words}")

    def test_the_tapes_that_are_here(self):
        here = [FIRST, HELLO, f"{TOP}/examples/hello-patch.lda", f"{TOP}/tests/tapes/two-words.lda", f"{TOP}/tests/tapes/top-byte.lda"]
        for name in here:
            self.is_listed(bytes_of(name))
        self.is_listed(*map(bytes_of, here))

    def test_bytes_00_between_blocks(self):
        for before in (0, 1, 6, 7, 8, 70000):
            for between in (0, 1, 5, 513):
                for address, some in ((0o1000, b"\1"), (0o1001, bytes(300)), (0o1000, b"\1\0\6\0\0\0\xf9")):
                    self.is_listed(bytes(before) + block(address, some) + bytes(between) + block(0o3000, some) + bytes(between) + block(1, b""))

    def test_a_tape_on_standard_input(self):
        data = bytes(3) + bytes_of(HELLO) + b"what follows"
        self.ends(self.ldaodt("check - --blocks", data), 0, listed([data]) + self.ldaodt("check -", data).out)

    def test_a_tape_that_is_refused(self):
        """Nothing is listed."""
        self.put("a.lda", bytes_of(FIRST))
        self.put("b.lda", bytes_of(FIRST)[:-1])
        self.ends(self.ldaodt("check --blocks b.lda"), 3, "", "ldaodt: tape refused at 9: Cut\n")
        self.ends(self.ldaodt("check --blocks a.lda b.lda"), 3, "", "ldaodt: tape 2 refused at 9: Cut\n")

    def test_tapes_by_chance(self):
        chance = random.Random("blocks")
        for _ in range(60):
            self.is_listed(*(tape_by_chance(chance) for _ in range(chance.choice((1, 1, 2, 3)))))

    def test_many_blocks(self):
        """As many as a tape may have."""
        self.is_listed(b"".join(block(number % 0o160000, b"\1") for number in range(131000)) + block(1, b""))

    def test_an_output_that_is_full(self):
        self.put("a.lda", bytes_of(HELLO))
        self.ends(self.ldaodt("check --blocks a.lda", before="> /dev/full"), 4, "", "ldaodt: cannot write output\n")


if __name__ == "__main__":
    unittest.main()
