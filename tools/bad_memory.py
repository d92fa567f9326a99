"""Memory that is bad, for tools/machine: bits that read the same whatever is stored, banks that do not answer, and address lines that make
no difference, so that two addresses are one word. ODT and the program that runs meet the same memory."""
import argparse
import re

import pdp11

# The words of a bank, and how many banks there are below the addresses of devices.
BANK, BANKS = 4096, 7
TOP = 2 * BANK * BANKS

# Lines of a bus, of data and of addresses; the lowest of these chooses a byte of a word.
LINES = 16

STUCK = re.compile(r"([0-7]{1,6})(?:-([0-7]{1,6}))?:(\d{1,2}):([01])", re.ASCII)


class StuckBit:
    """A bit of the words of a range of addresses, and what it always reads."""

    def __init__(self, text):
        form = STUCK.fullmatch(text)
        if not form:
            raise argparse.ArgumentTypeError(f"{text!r} is none: an octal address, or two with a '-' between them, a bit, and 0 or 1, as 020000:2:0")
        self.first = int(form[1], 8)
        self.last = int(form[2] or form[1], 8)
        self.bit, self.value = int(form[3]), int(form[4])
        if self.first % 2 or self.last % 2 or not self.first <= self.last < TOP:
            raise argparse.ArgumentTypeError(f"{text!r}: an address is even and below {TOP:o}, and the second not below the first")
        if self.bit >= LINES:
            raise argparse.ArgumentTypeError(f"{text!r}: a bit is 0 to {LINES - 1}")


def numbered(low, high):
    """What reads a number from low to high."""
    def read(text):
        if not re.fullmatch(r"\d{1,2}", text, re.ASCII) or not low <= int(text) <= high:
            raise argparse.ArgumentTypeError(f"{text!r} is none: {low} to {high}")
        return int(text)
    return read


def add_options(add):
    """The options of bad memory, each of which may be given several times."""
    add("--stuck", metavar="AAAAAA:BIT:V", type=StuckBit, action="append", default=[],
        help="this bit, 0 to 15, of the word at this octal address always reads 0 or 1; AAAAAA-BBBBBB is each word of a range, as 020000-037776:2:0")
    add("--no-bank", metavar="N", type=numbered(0, BANKS - 1), action="append", default=[],
        help=f"this bank of {BANK} words, 0 to {BANKS - 1}, does not answer")
    add("--alias", metavar="BIT", type=numbered(1, LINES - 1), action="append", default=[],
        help=f"this bit of an address, 1 to {LINES - 1}, makes no difference: two addresses are one word")


def why_not(asked):
    """Why a memory of the size that is asked for can't be bad so; none where it can."""
    for stuck in asked.stuck:
        if stuck.last >= 2 * asked.words:
            return f"argument --stuck: {stuck.last:06o} is not in a memory of {asked.words} words"
    for bank in asked.no_bank:
        if bank * BANK >= asked.words:
            return f"argument --no-bank: a memory of {asked.words} words has no bank {bank}"
    for line in asked.alias:
        if 1 << line >= 2 * asked.words:
            return f"argument --alias: no address in a memory of {asked.words} words has the bit {line}"
    return None


class BadWords(list):
    """Words that are read and stored as a bad memory does it. A bank that does not answer is a trap for the program that asks for it."""

    def __init__(self, asked):
        super().__init__([0] * asked.words)
        self.missing = frozenset(asked.no_bank)
        # A word's number is half its address.
        self.reached = ~sum(1 << line >> 1 for line in set(asked.alias))
        self.stuck = {}
        for it in asked.stuck:
            for number in range(it.first // 2, it.last // 2 + 1):
                bits, values = self.stuck.get(number & self.reached, (0, 0))
                one = 1 << it.bit
                self.stuck[number & self.reached] = bits | one, values & ~one | one * it.value

    def answers(self, number):
        return number // BANK not in self.missing

    def place(self, number):
        if not self.answers(number):
            raise pdp11.Trap(pdp11.BUS_ERROR)
        return number & self.reached

    def __getitem__(self, number):
        place = self.place(number)
        bits, values = self.stuck.get(place, (0, 0))
        return super().__getitem__(place) & ~bits | values

    def __setitem__(self, number, value):
        super().__setitem__(self.place(number), value)


class BadMachine:
    """A machine with such a memory."""

    def has_word(self, address):
        return super().has_word(address) and self.words.answers(address // 2)
