"""What the tests of `ldaodt memory` share: a machine of which some chips, lines or boards are bad, and what has to be said of it.

What is said is worked out from the list of what is bad, bit by bit: it is not read off the machine. The memory here shares no line of text
with that of tools/machine."""
import random
import re
from typing import NamedTuple

from cases import Case, Console

# The words of a bank, and the chips of a board, one for each bit of a word.
BANK, BITS = 4096, 16
WORDS = 7 * BANK

# Each how many words one is tested where no range is asked for.
EVERY = 64

# The lines of an address, of which the lowest chooses a byte of a word; and the numbers that are deposited in a word to test a bus: in one of
# them any two of its bits differ. The last is another one where the word held it before.
LINES = 16
NUMBERS, OTHER_NUMBER = (0o125252, 0o146314, 0o170360, 0o177400), 0o000377


class Fault(NamedTuple):
    """A bit of some words, given by their addresses, and how it shows in the picture: it reads 0, reads 1, or is bad in another way.

    Of the last kind only the looks with certain numbers, counted at each word from 1, read it wrong."""

    addresses: range
    bit: int
    sign: str
    wrong_looks: tuple = ()


def chip(bank, bit, sign):
    """A chip that is dead: that bit of each word of a bank."""
    return Fault(range(2 * BANK * bank, 2 * BANK * (bank + 1), 2), bit, sign)


def word(address, bit, sign, *wrong_looks):
    """A bit of one word."""
    return Fault(range(address, address + 2, 2), bit, sign, wrong_looks)


class Chips:
    """The words of a memory, as a console looks at them and stores them.

    `dead` are the bits of an address that do not reach the chips, `touching` two data lines of which neither is 1 unless both are."""

    def __init__(self, faults=(), missing=(), count=WORDS, dead=(), touching=None, seed="chips"):
        chance = random.Random(seed)
        self.cells = [chance.randrange(1 << BITS) for _ in range(count)]
        self.missing, self.dead, self.touching = set(missing), dead, touching
        self.faults = {}
        for fault in faults:
            for address in fault.addresses:
                self.faults.setdefault(self.place(address // 2), []).append(fault)
        # How often each word was looked at, and each number that was stored, with its address.
        self.looks, self.stored = {}, []

    def __len__(self):
        return len(self.cells)

    def place(self, number):
        """The number of the chips' word that an address leads to."""
        for line in self.dead:
            number &= ~(1 << line >> 1)
        return number

    def joined(self, value):
        """What passes the data lines."""
        if self.touching and {value >> line & 1 for line in self.touching} == {0, 1}:
            for line in self.touching:
                value &= ~(1 << line)
        return value

    def reading(self, number, looks=0):
        """What a word reads at its look with a number."""
        value = self.cells[self.place(number)]
        for fault in self.faults.get(self.place(number), ()):
            one = 1 << fault.bit
            if fault.sign == "x":
                value ^= one * (looks in fault.wrong_looks)
            else:
                value = value & ~one | one * int(fault.sign)
        return self.joined(value)

    def __getitem__(self, number):
        self.looks[number] = self.looks.get(number, 0) + 1
        return self.reading(number, self.looks[number])

    def __setitem__(self, number, value):
        self.stored.append((2 * number, value))
        self.cells[self.place(number)] = self.joined(value)

    def readings(self):
        """What a person would read, of all words."""
        return [self.reading(number) for number in range(len(self.cells))]


class ChipConsole(Console):
    """ODT over such a memory."""

    def __init__(self, chips, **named):
        super().__init__(words=0, **named)
        self.words = chips

    def has_word(self, address):
        return super().has_word(address) and address // 2 // BANK not in self.words.missing


# ---------------------------------------------------------------- what has to be said

HEADER = " " * 16 + " ".join(f"{bit:2}" for bit in reversed(range(BITS)))


def bad_bits(address, faults):
    """How each bad bit of a word shows."""
    return {fault.bit: fault.sign for fault in faults if address in fault.addresses}


def sign_of(signs):
    """How a chip shows, of which these are the signs, one of each word that was tested."""
    return signs.pop() if len(signs) == 1 else "x"


def row(bank, tested, faults):
    """The line of a bank, of which these words were tested."""
    bad = [bad_bits(address, faults) for address in tested]
    signs = [sign_of({it.get(bit, ".") for it in bad}) for bit in reversed(range(BITS))]
    count = sum(bool(it) for it in bad)
    return f"{name_of(bank)}   {'  '.join(signs)}" + (f"   {count} of {len(tested)}" if count else "")


def name_of(bank):
    return f"{2 * BANK * bank:06o}-{2 * BANK * (bank + 1) - 2:06o}"


def with_bits(value, bits):
    """What a word reads where it has this number, and these bits that always read the same."""
    for bit, sign in bits.items():
        value = value & ~(1 << bit) | int(sign) << bit
    return value


def told(address, held, faults):
    """The line of a word that does not hold, all of whose bad bits always read the same."""
    bits, turned = bad_bits(address, faults), held ^ 0o177777
    return f"{address:06o} held {held:06o}; {turned:06o} reads {with_bits(turned, bits):06o}, {held:06o} reads {with_bits(held, bits):06o}"


class Test(NamedTuple):
    """A test of each so many words of a range, of a memory with these faults."""

    first: int = 0
    last: int = 2 * WORDS - 2
    every: int = EVERY
    faults: tuple = ()
    missing: tuple = ()
    count: int = WORDS

    def banks(self):
        return range(self.first // 2 // BANK, self.last // 2 // BANK + 1)

    def is_there(self, address):
        return address // 2 < self.count and address // 2 // BANK not in self.missing

    def asked_for(self):
        """The addresses of the words that are asked for: behind one that is not there the next one is the first word of the next bank."""
        address = self.first
        while address <= self.last:
            yield address
            address = address + 2 * self.every if self.is_there(address) else 2 * BANK * (address // 2 // BANK + 1)

    def tested(self):
        return [it for it in self.asked_for() if self.is_there(it)]

    def bad(self):
        return [it for it in self.tested() if bad_bits(it, self.faults)]

    def rows(self, count=None):
        """The rows of the banks, where so many words were tested."""
        done = self.tested()[:count]
        for bank in self.banks():
            asked_for = [it for it in self.asked_for() if it // 2 // BANK == bank]
            tested = [it for it in asked_for if it in done]
            gone = [it for it in asked_for if not self.is_there(it) and count is None]
            if tested:
                yield row(bank, tested, self.faults) + "".join(f"   no memory at {it:06o}" for it in gone)
            else:
                yield f"{name_of(bank)}   {'no memory' if gone else 'not tested'}"

    def good(self):
        """The first word that is tested and holds, if there is one: there a bus is tested, where each word of a range is."""
        return next((it for it in self.tested() if not bad_bits(it, self.faults)), None) if self.every == 1 else None

    def around(self, address):
        """The words that are one address line from another, of those that are there."""
        return [it for it in (address ^ 1 << line for line in range(1, LINES)) if it < 2 * WORDS and self.is_there(it)]

    def bus(self, same=(), touches=False):
        """The lines of the bus, where these words are one with the first good one, or two data lines touch."""
        at = self.good()
        if at is None:
            return []
        found = ["data lines touch"] if touches else [f"{at:06o} and {it:06o} are one word" for it in same]
        return [*found, f"tested the bus at {at:06o}, beside {0 if touches else len(self.around(at))} words"]

    def report(self, before, end="Tested", count=None, named=None, bus=None):
        """The whole report, where memory read so before: of so many words, if not of all, and with a word that is to be looked at."""
        tested = self.tested()[:count]
        bad = [it for it in tested if bad_bits(it, self.faults)]
        words = [told(it, before[it // 2], self.faults) for it in bad[:8]] + ([f"and {len(bad) - 8} more"] if len(bad) > 8 else [])
        look_at = [f"the word at {it:06o} held {before[it // 2]:06o}, now look at it" for it in ([] if named is None else [named])]
        bus = (self.bus() if end == "Tested" else []) if bus is None else bus
        lines = [HEADER, *self.rows(count), *words, f"tested {len(tested)} words, {len(bad)} do not hold", *bus, *look_at, f"end {end}"]
        return "".join(f"{it}\n" for it in lines)

    def words(self):
        """The words of the command that ask for it."""
        if self[:3] == Test()[:3]:
            return "memory LINE"
        return f"memory LINE {self.first:o} {self.last:o}" + (f" --every {self.every}" if self.every != 1 else "")


def changed(machine, before):
    """The addresses of the words that read otherwise than before."""
    return [2 * number for number, (was, it) in enumerate(zip(before, machine.words.readings())) if was != it]


def named_in(report):
    """The words that a report says to look at, and what they held."""
    return {int(address, 8): int(held, 8) for address, held in re.findall(r"the word at ([0-7]{6}) held ([0-7]{6}), now look at it", report)}


def shown_at_last(terminal):
    """The word that a terminal shows behind a run that was killed, if it shows one, and what it held."""
    last = re.sub(r"\x1b\[\??\d*[A-Za-z]", "", terminal.split("\r")[-1])
    return {int(address, 8): int(held, 8) for address, held in re.findall(r"^testing ([0-7]{6}), it held ([0-7]{6})", last)}


def any_test(chance):
    """A test by chance: of some words of a machine of any size, a bank of which may be missing, and some of which are bad."""
    while True:
        count, every, words = chance.randrange(BANK, WORDS + 1), chance.choice((1, 3, 64, 400)), chance.randrange(2, 24)
        first = 2 * chance.randrange(count)
        last = min(first + 2 * every * (words - 1), 2 * WORDS - 2)
        missing = tuple(chance.sample(range(7), chance.choice((0, 0, 1, 2))))
        test = Test(first, last, every, (), missing, count)
        if test.tested():
            break
    faults = [word(chance.choice(test.tested()), chance.randrange(BITS), chance.choice("01")) for _ in range(chance.randrange(4))]
    faults += [chip(chance.choice(test.tested()) // 2 // BANK, chance.randrange(BITS), chance.choice("01")) for _ in range(chance.randrange(3))]
    if chance.random() < 0.1:
        ones = chance.choice(test.tested()) // 2 // BANK
        faults += [chip(ones, bit, "1") for bit in range(BITS)]
    return test._replace(faults=tuple(faults))


def any_flicker(chance, test):
    """A bit of one of its words that half of the looks read wrong."""
    return word(chance.choice(test.tested()), chance.randrange(BITS), "x", *chance.sample(range(1, 2000), 1000))


def any_bus(chance, test):
    """By chance a bad bus for a test of each word of a range, in memory that is good otherwise: the test, what its chips are besides, and what
    has to be said of the bus."""
    if test.every != 1 or chance.random() < 0.5:
        return test, {}, test.bus()
    test = test._replace(faults=())
    if chance.random() < 0.5:
        return test, {"touching": tuple(chance.sample(range(BITS), 2))}, test.bus(touches=True)
    line = chance.randrange(1, LINES)
    return test, {"dead": (line,)}, test.bus({test.good() ^ 1 << line} & set(test.around(test.good())))


class ChipCase(Case):
    """Tests of memories."""

    def is_harmless(self, line, before, but=(), bus=None):
        """Asserts that nothing was typed that starts anything; that each number that was stored is what the word held, or its complement, or,
        where a bus is tested, one of the numbers of that; and that each word reads what it did, but for some."""
        machine = line.machine
        self.is_so((re.findall(r"[^0-7/\rZa]", machine.typed), machine.starts), ([], []))
        for address, value in machine.words.stored:
            held = before[address // 2]
            numbers = (*NUMBERS[:3], OTHER_NUMBER if held == NUMBERS[3] else NUMBERS[3]) if address == bus else ()
            self.assertIn(value, (held, held ^ 0o177777, *numbers), f"{address:06o}")
        self.assertLessEqual(set(changed(machine, before)), set(but))
