"""A PDP-11 in Python: the processor of an LSI-11 without its options, its memory, and the serial line of its console.

It is written from the definition of the PDP-11 alone and shares no line of text with `ldaodt`, so that a test may compare the two.
It knows each instruction of an LSI-11 but those of EIS and FIS, which trap as reserved ones, in all addressing modes, with its
traps, the trace bit and the console's interrupts. There is no line clock, and no other board but those that are put on the bus: a
reference to them, or to memory that isn't there, traps through 000004. Where models of the PDP-11 differ it does as an LSI-11.

    Processor     registers, condition codes, and one method for each group of instructions
    Bus           memory, the registers of the serial line, and those of further boards
    SerialLine    a receiver of one character and a transmitter of one
    Computer      these three, and the time, which is counted in instructions

Words, addresses and codes are octal here, as everywhere in this field.
"""
WORD, BYTE = 0o177777, 0o377
# By the size of an operand in bytes: its bits, and its sign.
MASK, SIGN = (0, BYTE, WORD), (0, 0o200, 0o100000)
HIGH_BYTE = 0o177400

# Registers 6 and 7.
SP, PC = 6, 7

# The processor status word: the priority, of which an LSI-11 looks at one bit; the trace bit; the condition codes N, Z, V and C.
MASKED, TRACE, CODES = 0o200, 0o020, 0o017
N, Z, V, C = 0o10, 0o04, 0o02, 0o01

# Vectors, each the address of a new program counter and a new status word.
BUS_ERROR, RESERVED, BREAKPOINT, IO_TRAP, EMULATOR_TRAP, TRAP_INSTRUCTION = 0o004, 0o010, 0o014, 0o020, 0o030, 0o034
RECEIVER_VECTOR, TRANSMITTER_VECTOR = 0o060, 0o064

# The serial line's registers, and the two bits of a status register.
RECEIVER_STATUS, RECEIVER_BUFFER, TRANSMITTER_STATUS, TRANSMITTER_BUFFER = 0o177560, 0o177562, 0o177564, 0o177566
READY, INTERRUPTS = 0o200, 0o100


class Trap(Exception):
    """The processor goes on where a vector says."""

    def __init__(self, vector):
        super().__init__(f"trap through {vector:06o}")
        self.vector = vector


class Halt(Exception):
    """The processor came to a HALT, or could not enter a trap since its stack is where no memory is."""


class Half:
    """The receiver or the transmitter of a serial line: its status register, and the interrupt that it wants."""

    def __init__(self, vector, is_ready):
        self.vector, self.is_ready, self.may_interrupt, self.wants = vector, is_ready, False, False

    def set(self, is_ready, may_interrupt):
        """Sets the two bits of the status. An interrupt is wanted once for each time that both become set."""
        was_asking = self.is_ready and self.may_interrupt
        self.is_ready, self.may_interrupt = is_ready, may_interrupt
        self.wants = is_ready and may_interrupt and (self.wants or not was_asking)

    def status(self):
        return READY * self.is_ready | INTERRUPTS * self.may_interrupt


class SerialLine:
    """The serial line of the console: a receiver of one character, and a transmitter of one.

    A character that comes before the last one was fetched takes its place; `overrun` counts those that were lost so. One that is
    written before the last one has left takes its place, too. When a character comes or leaves is for the computer to say."""

    def __init__(self):
        self.receiver, self.transmitter = Half(RECEIVER_VECTOR, False), Half(TRANSMITTER_VECTOR, True)
        self.received, self.leaving, self.overrun = 0, None, 0
        # Whether an interrupt is wanted, and how often something has changed here.
        self.wants, self.changes = False, 0

    def set(self, half, is_ready, may_interrupt):
        half.set(is_ready, may_interrupt)
        self.wants = self.receiver.wants or self.transmitter.wants
        self.changes += 1

    def arrive(self, character):
        """A character comes from the line."""
        self.overrun += self.receiver.is_ready
        self.received = character
        self.set(self.receiver, True, self.receiver.may_interrupt)

    def fetch(self):
        """The program, or ODT, fetches the character in the receiver."""
        if self.receiver.is_ready:
            self.set(self.receiver, False, self.receiver.may_interrupt)
        return self.received

    def give(self, character):
        """The program gives the transmitter a character."""
        self.leaving = character
        self.set(self.transmitter, False, self.transmitter.may_interrupt)

    def leave(self):
        """The transmitter's character has left for the line; returns it."""
        character, self.leaving = self.leaving, None
        self.set(self.transmitter, True, self.transmitter.may_interrupt)
        return character

    def reset(self):
        """The bus is reset: what the receiver holds is dropped; what is leaving, leaves."""
        self.set(self.receiver, False, False)
        self.set(self.transmitter, self.leaving is None, False)

    def interrupt(self):
        """Takes the interrupt that is wanted, the receiver's before the transmitter's; returns its vector."""
        half = self.receiver if self.receiver.wants else self.transmitter
        half.wants, self.wants = False, half is self.receiver and self.transmitter.wants
        self.changes += 1
        return half.vector

    def read(self, register):
        """Reads a register of the line."""
        if register == RECEIVER_STATUS:
            return self.receiver.status()
        if register == RECEIVER_BUFFER:
            return self.fetch()
        return self.transmitter.status() if register == TRANSMITTER_STATUS else 0

    def write(self, register, value):
        """Writes the low byte of a register of the line. Of a status only the permission to interrupt can be written."""
        if register == TRANSMITTER_BUFFER:
            self.give(value & BYTE)
        elif register != RECEIVER_BUFFER:
            half = self.receiver if register == RECEIVER_STATUS else self.transmitter
            self.set(half, half.is_ready, bool(value & INTERRUPTS))


class Bus:
    """What an address leads to: memory, a list of words from 000000 on, or a register of the serial line or of a further board.

    An LSI-11 takes the address of a word without its lowest bit; other models trap at an odd one."""

    REGISTERS = (RECEIVER_STATUS, RECEIVER_BUFFER, TRANSMITTER_STATUS, TRANSMITTER_BUFFER)

    def __init__(self, words, line, odd_addresses_trap):
        self.words, self.line, self.odd_addresses_trap = words, line, odd_addresses_trap
        # What answers at an even address where no memory is: it reads and writes the register of that address, and is reset.
        self.boards = dict.fromkeys(self.REGISTERS, line)
        # It grows with each word that gets another value, and with each question to a further board, whose next answer may be another.
        self.changes = 0

    def put(self, board, registers):
        """Puts a board onto the bus, which answers at these addresses."""
        self.boards |= dict.fromkeys(registers, board)

    def reset(self):
        """Resets each board."""
        for board in set(self.boards.values()):
            board.reset()

    def board(self, address):
        """The board that answers at an address."""
        board = self.boards.get(address & ~1)
        if board is None:
            raise Trap(BUS_ERROR)
        self.changes += board is not self.line
        return board

    def read(self, address, size):
        """Reads a word or a byte."""
        if size == 2 and address & 1 and self.odd_addresses_trap:
            raise Trap(BUS_ERROR)
        if address < 2 * len(self.words):
            word = self.words[address >> 1]
        else:
            word = self.board(address).read(address & ~1)
        return word if size == 2 else word >> 8 if address & 1 else word & BYTE

    def write(self, address, value, size):
        """Writes a word or a byte."""
        if size == 2 and address & 1 and self.odd_addresses_trap:
            raise Trap(BUS_ERROR)
        if address < 2 * len(self.words):
            word = self.words[address >> 1]
            if size == 1:
                value = word & BYTE | value << 8 if address & 1 else word & HIGH_BYTE | value
            if value != word:
                self.words[address >> 1] = value
                self.changes += 1
        else:
            board = self.board(address)
            if size == 2 or not address & 1:
                board.write(address & ~1, value)


# What a branch asks the condition codes for, by the high byte of the instruction.
CONDITIONS = {
    0o001: lambda it: True,                      # BR
    0o002: lambda it: not it.z,                  # BNE
    0o003: lambda it: it.z,                      # BEQ
    0o004: lambda it: it.n == it.v,              # BGE
    0o005: lambda it: it.n != it.v,              # BLT
    0o006: lambda it: not it.z and it.n == it.v,  # BGT
    0o007: lambda it: it.z or it.n != it.v,      # BLE
    0o200: lambda it: not it.n,                  # BPL
    0o201: lambda it: it.n,                      # BMI
    0o202: lambda it: not it.c and not it.z,     # BHI
    0o203: lambda it: it.c or it.z,              # BLOS
    0o204: lambda it: not it.v,                  # BVC
    0o205: lambda it: it.v,                      # BVS
    0o206: lambda it: not it.c,                  # BCC, BHIS
    0o207: lambda it: it.c,                      # BCS, BLO
}


def size_of(instruction):
    """The size of an instruction's operands in bytes: the byte form has its highest bit set."""
    return 1 if instruction & 0o100000 else 2


class Processor:
    """Eight registers, the status word, and what each instruction does with them and the bus.

    Where an operand lies is its *place*: an address, or, below zero, a register, -8 for R0 to -1 for the program counter."""

    def __init__(self, bus):
        self.bus, self.registers = bus, [0] * 8
        self.upper, self.n, self.z, self.v, self.c = 0, False, False, False, False
        self.is_waiting = self.is_traced = False
        self.operations = {}

    # ------------------------------------------------------------ status

    @property
    def status(self):
        """The processor status word."""
        return self.upper | N * self.n | Z * self.z | V * self.v | C * self.c

    @status.setter
    def status(self, value):
        self.upper = value & BYTE & ~CODES
        self.n, self.z, self.v, self.c = (bool(value & bit) for bit in (N, Z, V, C))

    def judge(self, value, size):
        """N and Z are those of a value."""
        self.n, self.z = bool(value & SIGN[size]), value == 0

    # ------------------------------------------------------------ one instruction

    def step(self):
        """Enters an interrupt, or executes one instruction, with the trap that it ends in. Raises Halt."""
        if self.bus.line.wants and not self.upper & MASKED:
            self.is_waiting = False
            self.enter(self.bus.line.interrupt())
            return
        if self.is_waiting:
            return
        self.is_traced = bool(self.upper & TRACE)
        try:
            instruction = self.next_word()
            (self.operations.get(instruction) or self.known(instruction))(instruction)
        except Trap as trap:
            self.enter(trap.vector)
            return
        if self.is_traced:
            self.enter(BREAKPOINT)

    def known(self, instruction):
        """Finds what executes an instruction, and keeps it for the next time."""
        for first, last, name in INSTRUCTIONS:
            if first <= instruction <= last:
                self.operations[instruction] = operation = getattr(self, name)
                return operation
        raise Trap(RESERVED)

    def enter(self, vector):
        """Enters a trap or an interrupt: status and program counter go onto the stack, and new ones come from the vector."""
        status, address = self.status, self.registers[PC]
        try:
            new_address, self.status = self.bus.read(vector, 2), self.bus.read(vector + 2, 2)
            self.push(status)
            self.push(address)
        except Trap:
            raise Halt from None
        self.registers[PC] = new_address

    def next_word(self):
        """Fetches the word at the program counter."""
        address = self.registers[PC]
        word = self.bus.read(address, 2)
        self.registers[PC] = address + 2 & WORD
        return word

    def push(self, value):
        self.registers[SP] = self.registers[SP] - 2 & WORD
        self.bus.write(self.registers[SP], value, 2)

    def pop(self):
        address = self.registers[SP]
        value = self.bus.read(address, 2)
        self.registers[SP] = address + 2 & WORD
        return value

    # ------------------------------------------------------------ operands

    def place(self, operand, size):
        """Where an operand lies, by the mode and the register in its six lowest bits. Registers step as they are passed."""
        mode, number = operand >> 3 & 7, operand & 7
        if mode == 0:
            return number - 8
        if mode == 1:
            return self.registers[number]
        if mode >= 6:
            index = self.next_word()
            address = index + self.registers[number] & WORD
            return address if mode == 6 else self.bus.read(address, 2)
        # A step is the operand's size; of an address, and of a pointer to the stack or the program, always a word.
        step = 2 if mode & 1 or number >= SP else size
        address = self.registers[number]
        if mode <= 3:
            self.registers[number] = address + step & WORD
        else:
            self.registers[number] = address = address - step & WORD
        return self.bus.read(address, 2) if mode & 1 else address

    def read(self, place, size):
        """Reads an operand."""
        return self.registers[place] & MASK[size] if place < 0 else self.bus.read(place, size)

    def write(self, place, value, size):
        """Writes an operand. A byte in a register leaves the register's high byte as it is."""
        if place >= 0:
            self.bus.write(place, value, size)
        else:
            self.registers[place] = value if size == 2 else self.registers[place] & HIGH_BYTE | value

    def write_extended(self, place, value, size):
        """Writes an operand; a byte fills a register with its sign, which only MOVB and MFPS do."""
        if place < 0 and size == 1:
            value, size = value | HIGH_BYTE if value & 0o200 else value, 2
        self.write(place, value, size)

    # ------------------------------------------------------------ two operands

    def move(self, instruction):
        """MOV, MOVB."""
        size = size_of(instruction)
        value = self.read(self.place(instruction >> 6, size), size)
        place = self.place(instruction, size)
        self.judge(value, size)
        self.v = False
        self.write_extended(place, value, size)

    def compare(self, instruction):
        """CMP, CMPB: the source less the destination."""
        size = size_of(instruction)
        source = self.read(self.place(instruction >> 6, size), size)
        target = self.read(self.place(instruction, size), size)
        self.subtracted(source, target, size)

    def subtracted(self, value, less, size):
        """The difference of two operands, and its codes: C is a borrow, V a sign that can't be."""
        result = value - less & MASK[size]
        self.judge(result, size)
        self.v, self.c = bool((value ^ less) & (value ^ result) & SIGN[size]), value < less
        return result

    def subtract(self, instruction):
        """SUB: the destination less the source. It has no byte form."""
        source = self.read(self.place(instruction >> 6, 2), 2)
        place = self.place(instruction, 2)
        self.write(place, self.subtracted(self.read(place, 2), source, 2), 2)

    def add(self, instruction):
        """ADD. It has no byte form."""
        source = self.read(self.place(instruction >> 6, 2), 2)
        place = self.place(instruction, 2)
        target = self.read(place, 2)
        result = source + target & WORD
        self.judge(result, 2)
        self.v, self.c = bool(~(source ^ target) & (source ^ result) & SIGN[2]), source + target > WORD
        self.write(place, result, 2)

    def bits(self, instruction):
        """BIT, BIC, BIS and their byte forms: C stays."""
        size = size_of(instruction)
        source = self.read(self.place(instruction >> 6, size), size)
        place = self.place(instruction, size)
        target = self.read(place, size)
        operation = instruction >> 12 & 7
        result = source & target if operation == 3 else target & ~source if operation == 4 else target | source
        self.judge(result, size)
        self.v = False
        if operation != 3:
            self.write(place, result, size)

    def exclusive_or(self, instruction):
        """XOR of a register into the destination: C stays."""
        source = self.registers[instruction >> 6 & 7]
        place = self.place(instruction, 2)
        result = source ^ self.read(place, 2)
        self.judge(result, 2)
        self.v = False
        self.write(place, result, 2)

    # ------------------------------------------------------------ one operand

    def clear(self, instruction):
        """CLR, CLRB."""
        size = size_of(instruction)
        place = self.place(instruction, size)
        self.judge(0, size)
        self.v = self.c = False
        self.write(place, 0, size)

    def test(self, instruction):
        """TST, TSTB."""
        size = size_of(instruction)
        self.judge(self.read(self.place(instruction, size), size), size)
        self.v = self.c = False

    def count(self, instruction):
        """COM, INC, DEC, NEG, ADC, SBC and their byte forms."""
        size = size_of(instruction)
        place = self.place(instruction, size)
        value, sign = self.read(place, size), SIGN[size]
        match instruction >> 6 & 0o77:
            case 0o51:  # COM
                result, self.v, self.c = ~value, False, True
            case 0o52:  # INC: C stays
                result, self.v = value + 1, value == sign - 1
            case 0o53:  # DEC: C stays
                result, self.v = value - 1, value == sign
            case 0o54:  # NEG
                result, self.v, self.c = -value, value == sign, value != 0
            case 0o55:  # ADC
                result, self.v, self.c = value + self.c, self.c and value == sign - 1, self.c and value == MASK[size]
            case _:  # SBC
                result, self.v, self.c = value - self.c, self.c and value == sign, self.c and value == 0
        result &= MASK[size]
        self.judge(result, size)
        self.write(place, result, size)

    def shift(self, instruction):
        """ROR, ROL, ASR, ASL and their byte forms: C is the bit that is shifted out, V whether N and C differ."""
        size = size_of(instruction)
        place = self.place(instruction, size)
        value, sign = self.read(place, size), SIGN[size]
        match instruction >> 6 & 0o77:
            case 0o60:  # ROR
                result, out = value >> 1 | sign * self.c, value & 1
            case 0o61:  # ROL
                result, out = value << 1 | self.c, value & sign
            case 0o62:  # ASR
                result, out = value >> 1 | value & sign, value & 1
            case _:  # ASL
                result, out = value << 1, value & sign
        result &= MASK[size]
        self.judge(result, size)
        self.c = bool(out)
        self.v = self.n != self.c
        self.write(place, result, size)

    def swap_bytes(self, instruction):
        """SWAB: N and Z are those of the new low byte."""
        place = self.place(instruction, 2)
        value = self.read(place, 2)
        result = value >> 8 | value << 8 & HIGH_BYTE
        self.judge(result & BYTE, 1)
        self.v = self.c = False
        self.write(place, result, 2)

    def sign_extend(self, instruction):
        """SXT: a word of N. N and C stay."""
        place = self.place(instruction, 2)
        self.z, self.v = not self.n, False
        self.write(place, WORD * self.n, 2)

    # ------------------------------------------------------------ another way

    def branch(self, instruction):
        """BR and the branches on condition codes: the low byte counts words, forward or, with its sign, back."""
        if CONDITIONS[instruction >> 8](self):
            words = instruction & BYTE
            self.registers[PC] = self.registers[PC] + 2 * (words - 256 if words & 0o200 else words) & WORD

    def subtract_one_and_branch(self, instruction):
        """SOB: back by so many words as its six lowest bits say, while the register isn't 0. The codes stay."""
        number = instruction >> 6 & 7
        self.registers[number] = self.registers[number] - 1 & WORD
        if self.registers[number]:
            self.registers[PC] = self.registers[PC] - 2 * (instruction & 0o77) & WORD

    def target(self, instruction):
        """Where a JMP or a JSR goes to: no register, which traps through 000004."""
        place = self.place(instruction, 2)
        if place < 0:
            raise Trap(BUS_ERROR)
        return place

    def jump(self, instruction):
        """JMP."""
        self.registers[PC] = self.target(instruction)

    def jump_to_subroutine(self, instruction):
        """JSR: the register goes onto the stack, and the return address into the register. Where that is the stack pointer, the
        stack has stepped before."""
        address, number = self.target(instruction), instruction >> 6 & 7
        self.registers[SP] = self.registers[SP] - 2 & WORD
        self.bus.write(self.registers[SP], self.registers[number], 2)
        self.registers[number] = self.registers[PC]
        self.registers[PC] = address

    def return_from_subroutine(self, instruction):
        """RTS."""
        number = instruction & 7
        self.registers[PC] = self.registers[number]
        self.registers[number] = self.pop()

    def mark(self, instruction):
        """MARK: drops so many words of the stack, and returns by R5."""
        self.registers[SP] = self.registers[PC] + 2 * (instruction & 0o77) & WORD
        self.registers[PC] = self.registers[5]
        self.registers[5] = self.pop()

    # ------------------------------------------------------------ traps and status

    def trap(self, instruction):
        """EMT, TRAP, BPT, IOT."""
        if instruction >= 0o104000:
            raise Trap(EMULATOR_TRAP if instruction < 0o104400 else TRAP_INSTRUCTION)
        raise Trap(BREAKPOINT if instruction == 3 else IO_TRAP)

    def return_from_interrupt(self, instruction):
        """RTI, RTT: a trace bit that RTI brings back traps before the next instruction, and one that RTT brings back after it."""
        self.registers[PC] = self.pop()
        self.status = self.pop()
        self.is_traced = instruction == 2 and (self.is_traced or bool(self.upper & TRACE))

    def change_codes(self, instruction):
        """NOP, CLC to CCC, SEC to SCC: the codes that the four lowest bits name are cleared, or set."""
        codes = instruction & CODES
        self.status = self.status | codes if instruction & 0o20 else self.status & ~codes

    def move_to_status(self, instruction):
        """MTPS: the trace bit stays."""
        value = self.read(self.place(instruction, 1), 1)
        self.status = value & ~TRACE | self.upper & TRACE

    def move_from_status(self, instruction):
        """MFPS: C stays."""
        value = self.status
        place = self.place(instruction, 1)
        self.judge(value, 1)
        self.v = False
        self.write_extended(place, value, 1)

    def halt(self, _instruction):
        """HALT."""
        raise Halt

    def wait(self, _instruction):
        """WAIT for an interrupt."""
        self.is_waiting = True

    def reset(self, _instruction):
        """RESET of the bus."""
        self.bus.reset()


# The first and the last word of each group of instructions, and the method that executes it. Other words are reserved.
INSTRUCTIONS = (
    (0o000000, 0o000000, "halt"),
    (0o000001, 0o000001, "wait"),
    (0o000002, 0o000002, "return_from_interrupt"),  # RTI
    (0o000003, 0o000004, "trap"),  # BPT, IOT
    (0o000005, 0o000005, "reset"),
    (0o000006, 0o000006, "return_from_interrupt"),  # RTT
    (0o000100, 0o000177, "jump"),
    (0o000200, 0o000207, "return_from_subroutine"),
    (0o000240, 0o000277, "change_codes"),
    (0o000300, 0o000377, "swap_bytes"),
    (0o000400, 0o003777, "branch"),
    (0o004000, 0o004777, "jump_to_subroutine"),
    (0o005000, 0o005077, "clear"),
    (0o005100, 0o005677, "count"),  # COM, INC, DEC, NEG, ADC, SBC
    (0o005700, 0o005777, "test"),
    (0o006000, 0o006377, "shift"),  # ROR, ROL, ASR, ASL
    (0o006400, 0o006477, "mark"),
    (0o006700, 0o006777, "sign_extend"),
    (0o010000, 0o017777, "move"),
    (0o020000, 0o027777, "compare"),
    (0o030000, 0o057777, "bits"),  # BIT, BIC, BIS
    (0o060000, 0o067777, "add"),
    (0o074000, 0o074777, "exclusive_or"),
    (0o077000, 0o077777, "subtract_one_and_branch"),
    (0o100000, 0o103777, "branch"),
    (0o104000, 0o104777, "trap"),  # EMT, TRAP
    (0o105000, 0o105077, "clear"),  # and the byte forms
    (0o105100, 0o105677, "count"),
    (0o105700, 0o105777, "test"),
    (0o106000, 0o106377, "shift"),
    (0o106400, 0o106477, "move_to_status"),
    (0o106700, 0o106777, "move_from_status"),
    (0o110000, 0o117777, "move"),
    (0o120000, 0o127777, "compare"),
    (0o130000, 0o157777, "bits"),
    (0o160000, 0o167777, "subtract"),
)


class LoopWatch:
    """Finds out that a program goes round in a loop in which nothing changes, as one does that waits for the console.

    It is shown what a computer is like at each jump back, which every loop has. If that is what it was at an earlier jump, the same
    will follow, again and again, until something comes from outside. It compares with one earlier jump, for which it takes a later
    one now and then, so that it finds each loop with up to so many jumps back."""

    MOST_JUMPS = 64

    def __init__(self):
        self.changes, self.like, self.jumps, self.due = None, None, 0, 0

    def has_seen(self, changes, like):
        """Whether it was like that at the earlier jump; `changes` counts what has changed in memory and on the line."""
        if changes == self.changes and like == self.like:
            return True
        if changes != self.changes:
            self.jumps = self.due = 0
        if self.jumps == self.due:
            self.changes, self.like, self.jumps, self.due = changes, like, 0, min(2 * self.due + 1, self.MOST_JUMPS)
        self.jumps += 1
        return False


class Computer:
    """A processor with its memory and the serial line of its console. Its time is counted in instructions.

    A character takes so many of them on the line, and one that comes is given to `arrive` when it has come. At 9600 baud a character
    takes 1,042 microseconds, in which an LSI-11 executes more than a hundred instructions. The transmitter has two buffers, as a
    DLV11 has: the second is on the line while the program fills the first. With one, as a DL11 has, the next character can't be
    given before the last has gone over the line. While a program only waits for the console, nothing is executed: time passes
    without it."""

    CHARACTER_TIME = 100

    def __init__(self, words, character_time=CHARACTER_TIME, odd_addresses_trap=False, buffers=2):
        self.line = SerialLine()
        self.bus = Bus(words, self.line, odd_addresses_trap)
        self.processor, self.watch = Processor(self.bus), LoopWatch()
        self.character_time, self.buffers, self.time = character_time, buffers, 0
        # When all that has left has gone over the line, and when the character leaves that was given, if one was.
        self.free_at, self.leaves_at = 0, None
        # Whether it has not halted, and whether the program only waits for the console.
        self.is_running = self.is_waiting = False

    @property
    def is_busy(self):
        """Whether anything is to be expected of it before a character comes."""
        return self.is_running and not (self.is_waiting and self.line.leaving is None)

    def start(self, address):
        """Starts at an address, behind a reset of the bus, with a status of 0. Registers R0 to R6 stay what they are."""
        self.bus.reset()
        self.processor.registers[PC], self.processor.status = address, 0
        self.processor.is_waiting, self.is_running, self.is_waiting = False, True, False

    def arrive(self, character):
        """A character has come to the receiver."""
        self.line.arrive(character)
        self.is_waiting = False

    def run(self, time=None):
        """Goes on for so long, or until it halts; returns the characters that have left by then. Without a time it is that of a
        character. Behind a halt what the transmitter still held has left, too."""
        end = self.time + (time or self.character_time)
        left = bytearray()
        while (character := self.run_to(end)) is not None:
            left.append(character)
        return bytes(left)

    def run_to(self, end):
        """Goes on up to a time, until it halts, or until a character leaves, which it returns. That has gone over the line when this
        is free."""
        while self.is_running and self.time < end:
            if self.is_waiting:
                self.time = end if self.leaves_at is None else min(end, self.leaves_at)
            else:
                self.execute()
            if self.line.leaving is not None and self.has_left():
                self.leaves_at, self.is_waiting = None, False
                return self.line.leave()
        return None

    def execute(self):
        """Executes one instruction."""
        processor, registers = self.processor, self.processor.registers
        before = registers[PC]
        try:
            processor.step()
        except Halt:
            self.is_running = False
        self.time += 1
        if registers[PC] <= before:
            changes = self.bus.changes + self.line.changes
            self.is_waiting = self.watch.has_seen(changes, (*registers, processor.status, processor.is_waiting))

    def has_left(self):
        """Whether the transmitter's character has left by now: for the line, or, of one buffer, over it."""
        if self.leaves_at is None:
            begins = max(self.time, self.free_at)
            self.free_at = begins + self.character_time
            self.leaves_at = begins if self.buffers == 2 else self.free_at
        return self.time >= self.leaves_at or not self.is_running
