"""Cases of one instruction each, by chance: what a computer of tools/pdp11.py is like before it and after it."""
import collections
import random

import pdp11

# A memory of 8,192 words: 040000 is the first address past it. The instruction lies at 001000, what it works on in the window.
WORDS, MISSING = 8192, 0o40000
AT, WINDOW = 0o1000, range(0o2000, 0o2100, 2)

# Behind a trap a NOP is executed, at the address that its vector has; nothing else lies there.
VECTORS = (0o004, 0o010, 0o014, 0o020, 0o030, 0o034)
HANDLERS, NOP = 0o600, 0o240

# Where a result changes its sign, wraps or is zero, as a word and as a byte.
BORDERS = (0, 1, 2, 0o77776, 0o77777, 0o100000, 0o100001, 0o177776, 0o177777, 0o177, 0o200, 0o201, 0o376, 0o377, 0o400, 0o177400, 0o177600)

# The instructions: a name, its word, and which operands it has: S and D for source and destination, R for a register in their place,
# B for a branch's offset, b for that of SOB, M for a number of six bits, N for one of eight, C for codes.
KINDS = (
    *((name, code << 12, "SD") for name, code in (
        ("MOV", 0o01), ("CMP", 0o02), ("BIT", 0o03), ("BIC", 0o04), ("BIS", 0o05), ("ADD", 0o06),
        ("MOVB", 0o11), ("CMPB", 0o12), ("BITB", 0o13), ("BICB", 0o14), ("BISB", 0o15), ("SUB", 0o16))),
    *((name + form, code << 6 | byte, "D") for form, byte in (("", 0), ("B", 0o100000)) for name, code in (
        ("CLR", 0o50), ("COM", 0o51), ("INC", 0o52), ("DEC", 0o53), ("NEG", 0o54), ("ADC", 0o55), ("SBC", 0o56), ("TST", 0o57),
        ("ROR", 0o60), ("ROL", 0o61), ("ASR", 0o62), ("ASL", 0o63))),
    ("SWAB", 0o000300, "D"), ("SXT", 0o006700, "D"), ("XOR", 0o074000, "RD"), ("MTPS", 0o106400, "D"), ("MFPS", 0o106700, "D"),
    *((name, code << 8, "B") for name, code in (
        ("BR", 0o001), ("BNE", 0o002), ("BEQ", 0o003), ("BGE", 0o004), ("BLT", 0o005), ("BGT", 0o006), ("BLE", 0o007), ("BPL", 0o200),
        ("BMI", 0o201), ("BHI", 0o202), ("BLOS", 0o203), ("BVC", 0o204), ("BVS", 0o205), ("BCC", 0o206), ("BCS", 0o207))),
    ("JMP", 0o000100, "D"), ("JSR", 0o004000, "RD"), ("RTS", 0o000200, "r"), ("SOB", 0o077000, "Rb"), ("MARK", 0o006400, "M"),
    ("codes", 0o000240, "C"), ("EMT", 0o104000, "N"), ("TRAP", 0o104400, "N"),
    ("HALT", 0, ""), ("RTI", 2, ""), ("BPT", 3, ""), ("IOT", 4, ""), ("RESET", 5, ""), ("RTT", 6, ""),
    ("reserved", 0o000007, ""), ("reserved", 0o000010, "r"), ("reserved", 0o000230, "r"), ("reserved", 0o006500, "D"),
    ("reserved", 0o007000, "D"), ("reserved", 0o070000, "RD"), ("reserved", 0o075000, "r"), ("reserved", 0o106500, "D"),
    ("reserved", 0o107000, "D"), ("reserved", 0o170000, "D"),
)

WITH_OPERANDS = tuple(kind for kind in KINDS if "D" in kind[2] and kind[0] != "reserved")

# Those that are tried without the trace bit only.
UNTRACED = ("HALT", "RTT")

# What is there before an instruction, which words were put into memory for it, how many steps it needs, and what is there afterwards.
Case = collections.namedtuple("Case", "name before words steps after has_halted")
State = collections.namedtuple("State", "registers status window")


class Elsewhere(Exception):
    """An instruction came to where machines differ: to an address at which another may have a device, or to a trap whose stack lies
    where no memory is."""


class MemoryBus(pdp11.Bus):
    """A bus without a device at its top."""

    def read(self, address, size):
        if address >= 0o160000:
            raise Elsewhere
        return super().read(address, size)

    def write(self, address, value, size):
        if address >= 0o160000:
            raise Elsewhere
        super().write(address, value, size)


class NotingProcessor(pdp11.Processor):
    """It notes whether it has entered a trap."""

    has_trapped = False

    def enter(self, vector):
        self.has_trapped = True
        super().enter(vector)


class Maker:
    """Makes cases, one after another in one memory."""

    def __init__(self, seed, odd_addresses_trap=False, lowest_stack=0):
        self.chance, self.odd_addresses_trap, self.lowest_stack = random.Random(seed), odd_addresses_trap, lowest_stack
        self.memory = [0] * WORDS

    def value(self):
        return self.chance.choice((self.chance.choice(BORDERS), self.chance.randrange(0o200000), self.chance.randrange(0o400)))

    def address(self, is_byte):
        """An address to work on, in the window; now and then an odd one, or one past memory."""
        kind = self.chance.randrange(100)
        if kind < 3:
            return self.chance.randrange(MISSING, 0o160000, 2)
        return self.chance.choice(WINDOW) + (self.chance.randrange(2) if is_byte else kind < 6)

    def operand(self, is_byte):
        """An operand, for which registers and words are set so that it leads to such an address."""
        mode, number = self.chance.randrange(8), self.chance.randrange(8)
        address = self.address(is_byte)
        if mode in (3, 5, 7):
            pointer = self.chance.choice(WINDOW)
            self.words[pointer] = address
            address = pointer
        if mode >= 6:
            behind = AT + 2 * len(self.code) + 2
            index = self.value()
            base = behind if number == pdp11.PC else address - index & 0o177777
            self.code.append(address - base & 0o177777)
        elif number == pdp11.PC:
            if mode in (2, 3):
                self.code.append(address if mode == 3 else self.value())
            base = None
        else:
            step = 2 if mode == 5 or number == pdp11.SP or not is_byte else 1
            base = self.value() if mode == 0 else address + step & 0o177777 if mode in (4, 5) else address
        if number != pdp11.PC:
            self.registers[number] = base
        return mode << 3 | number

    def filled(self, word, operands):
        """An instruction with its operands."""
        is_byte = bool(word & 0o100000) and word >> 12 != 0o16
        chance = self.chance
        for letter in operands:
            word |= {
                "S": lambda: self.operand(is_byte) << 6, "D": lambda: self.operand(is_byte),
                "R": lambda: chance.randrange(8) << 6, "r": lambda: chance.randrange(8),
                "B": lambda: chance.randrange(0o400), "b": lambda: chance.randrange(0o100), "M": lambda: chance.randrange(0o100),
                "N": lambda: chance.randrange(0o400), "C": lambda: chance.randrange(0o40),
            }[letter]()
        return word

    def case(self, kind):
        """A case of a kind, or none where it led to where machines differ. Memory goes on from one to the next."""
        name, word, operands = kind
        chance = self.chance
        self.registers = [self.value() for _ in range(6)] + [self.address(False), AT]
        self.words, self.code = {at: self.value() for at in chance.sample(WINDOW, 3)}, [0]
        status = chance.randrange(16) | chance.choice((0, 0o200, 0o340))
        if name not in UNTRACED and chance.randrange(8) == 0:
            status |= pdp11.TRACE
        self.code[0] = self.filled(word, operands)
        if self.registers[pdp11.SP] < self.lowest_stack:
            return None
        self.words.update((AT + 2 * place, it) for place, it in enumerate(self.code))
        for number, vector in enumerate(VECTORS):
            self.words.update({vector: HANDLERS + 2 * number, vector + 2: chance.randrange(256) & ~0o20, HANDLERS + 2 * number: NOP})
        memory = list(self.memory)
        for address, value in self.words.items():
            memory[address // 2] = value
        before = self.state(self.registers, status, memory)
        try:
            processor, steps, has_halted = self.executed(memory, status)
        except Elsewhere:
            return None
        self.memory = memory
        return Case(name, before, self.words, steps, self.state(processor.registers, processor.status, memory), has_halted)

    def state(self, registers, status, memory):
        return State(tuple(registers), status, tuple(memory[at // 2] for at in WINDOW))

    def executed(self, memory, status):
        """Executes the instruction, and where it ended in a trap the first one behind that."""
        processor = NotingProcessor(MemoryBus(memory, pdp11.SerialLine(), self.odd_addresses_trap))
        processor.registers, processor.status = list(self.registers), status
        try:
            processor.step()
            steps = 2 if processor.has_trapped else 1
            if steps == 2:
                processor.step()
        except pdp11.Halt:
            if processor.has_trapped:
                raise Elsewhere from None
            return processor, 1, True
        return processor, steps, False

    def cases(self, count, kinds):
        """So many cases, of these kinds in turn."""
        made = []
        while len(made) < count:
            if case := self.case(kinds[len(made) % len(kinds)]):
                made.append(case)
        return made
