"""What the tests of `examples/toolbox` share: its texts, disks for SIMH and runs of a program in it, and an LSI-11 with boards."""
import collections
import re

import pdp11
import simh
import tu58
from lsi11 import RunningMachine
from odt_peer import RUNNING
from outside import TOP, tape_of

TOOLBOX = f"{TOP}/examples/toolbox"
NOP, PRIORITY_7 = 0o000240, 0o340

# What all boots have in common: where they start, the words to change, and what the console prints at their halts.
START, UNIT, CONTROL, SECONDS = 0o2000, 0o2014, 0o2020, 0o2034
NOTHING_ANSWERS, NEVER_CAME, REPORTED = 0o2026, 0o2030, 0o2032

# No board is there; and one that is there has none of the bits for which a boot waits: the paper tape's punch.
NOWHERE, ELSEWHERE = 0o164000, 0o177554

# A boot block: it prints the text behind it and halts, where the console prints the address of that.
PRINT = (0o000240, 0o012702, 0o000034, 0o105737, 0o177564, 0o100375, 0o112237, 0o177566, 0o105712, 0o001371, 0o105737, 0o177564, 0o100375, 0o000000)
TEXT = 0o34

# One that halts, and where that is; no other of the block's bytes is 0.
HALTING = (NOP, NOP, 0o000000)
HALTED = 0o6


def lines_of(name):
    """The lines of a text: address, word and comment."""
    with open(f"{TOOLBOX}/{name}.words", encoding="ascii") as file:
        lines = [re.fullmatch(r"([0-7]{6}) ([0-7]{6})  ; (.*)", line) for line in file.read().splitlines() if not line.startswith(";")]
    return [(int(it[1], 8), int(it[2], 8), it[3]) for it in lines]


def words_of(name):
    """The words of a text, by their addresses."""
    return {address: word for address, word, _ in lines_of(name)}


def start_of(name):
    """Where a text starts: behind its beginning stands START."""
    return next(address for address, _, comment in lines_of(name) if comment.startswith("START:"))


def bytes_of_words(words):
    return b"".join(word.to_bytes(2, "little") for word in words)


def block_that_prints(text):
    return bytes_of_words(PRINT) + f"{text}\0".encode()


def block_that_halts(unit):
    """A block of a unit of its own."""
    code = bytes_of_words(HALTING)
    return code + bytes((7 * place + unit) % 255 + 1 for place in range(len(code), 512))


# ---------------------------------------------------------------- in SIMH

# A drive of SIMH: the text that boots it, and how many bytes that reads; the device, its control register, and how one of its units is set up, for
# which `{}` stands; where block 0 begins, and the size of a disk; in which registers SIMH keeps how long it takes; another unit than 0.
Drive = collections.namedtuple("Drive", "boot read device control set_up first size times another")

DRIVES = (
    Drive("rk05", 512, "rk", 0o177404, (), 0, 2_494_464, ("stime", "rtime"), 3),
    Drive("rl", 512, "rl", 0o174400, ("set rl{} rl01",), 0, 5_242_880, ("rtime",), 2),
    Drive("rl", 512, "rl", 0o174400, ("set rl{} rl02",), 0, 10_485_760, ("rtime",), 3),
    Drive("rx01", 128, "rx", 0o177170, (), 26 * 128, 256_256, ("stime",), 1),
    Drive("rx02", 128, "ry", 0o177170, ("set ry{} single",), 26 * 128, 256_256, ("stime",), 1),
    Drive("rx02", 256, "ry", 0o177170, ("set ry{} double",), 26 * 256, 512_512, ("stime",), 1),
)

# SIMH has one of the two at a time.
ENABLED = {"ry": ("set rx disable", "set ry enable")}

# How long a drive takes, in instructions: an LSI-11 executes so many in some ten milliseconds.
A_WHILE = 2000

# The Q-bus processors of SIMH beside the 11/03. A larger one has no MTPS.
LARGER = ("11/23", "11/23+", "11/53", "11/73", "11/73B", "11/83", "11/93")


def made_ready(drive, units):
    """The commands that make a device of SIMH ready, with such units."""
    return [*ENABLED.get(drive.device, ()), f"deposit {drive.device} stop_ioe 0", *(f"deposit {drive.device} {it} {A_WHILE}" for it in drive.times),
            *(it.format(unit) for unit in units for it in drive.set_up)]


def attached(drive, unit, room, block):
    """The command that attaches a disk with such a block 0, which is made."""
    path = f"{room}/{drive.device}{unit}-{drive.size}.dsk"
    with open(path, "wb") as file:
        file.seek(drive.first)
        file.write(block)
        file.truncate(drive.size)
    return f"attach {drive.device}{unit} {path}"


def code_at(address, words):
    """The commands that run some words up to their HALT."""
    return [*(f"deposit {address + 2 * place:o} {word:o}" for place, word in enumerate(words)), "deposit psw 340", f"deposit pc {address:o}", "step 100000"]


def moved_away(unit):
    """The commands that bring the heads of an RL's unit to cylinder 48, lower side: a seek, and it waits until they have arrived."""
    return code_at(0o3000, (0o012737, 48 << 7 | 0o25, 0o174404, 0o012737, 0o6 | unit << 8, 0o174400, 0o105737, 0o174400, 0o100375,
                            0o032737, 0o1, 0o174400, 0o001774, 0o0))


def waiting_for_more():
    """The commands that bring the heads of an RX to track 8, by reading a sector there, and leave its control in the middle of filling its buffer."""
    return code_at(0o3000, (0o012737, 0o7, 0o177170, 0o105737, 0o177170, 0o100375, 0o012737, 0o1, 0o177172, 0o105737, 0o177170, 0o100375,
                            0o012737, 0o10, 0o177172, 0o032737, 0o40, 0o177170, 0o001774, 0o012737, 0o1, 0o177170, 0o0))


# What an earlier program has left behind: heads elsewhere; and what a reset takes away, an error, a command that is not at its end, or the highest bits of
# an address, which an RLV12 has.
LEFT = {
    "rk": lambda unit: ["deposit rk rker 40", "deposit rk rkcs 140200"],
    "rl": lambda unit: [*moved_away(unit), "deposit rl rlbae 40"],
    "rx": lambda unit: waiting_for_more(),
    "ry": lambda unit: waiting_for_more(),
}

# A run of a program in SIMH: the words that are others, commands before it, what R4 holds, and how many instructions it has at most; and what came of it:
# where it halted, if it did, its registers, and memory up to where a boot may reach.
Run = collections.namedtuple("Run", "changed before counter steps", defaults=({}, (), 1, 100_000))
Outcome = collections.namedtuple("Outcome", "halted registers memory")

BETWEEN = "that is all of it"

# How many seconds SIMH has for hundreds of runs, or for one of millions of instructions, on a computer that is very busy.
LONG = 10 * simh.SECONDS
STACK, REACHED = 0o1400, 0o1002

# SIMH's line clock can't be switched off; by these words it does nothing.
CLOCK = {0o100: 0o1500, 0o102: 0o340, 0o1500: 0o000002}


def ran(name, set_up, runs, room):
    """What comes of some runs of a text, one after another in one SIMH. Nothing is reset between them but by the program itself; its registers hold 1, and
    all memory below it holds a word that does nothing. The console stays silent: what it prints comes between what SIMH says."""
    commands = [*set_up]
    for number, run in enumerate(runs):
        tape = f"{room}/{name}-{number}.lda"
        with open(tape, "wb") as file:
            words = {**words_of(name), **run.changed}
            file.write(tape_of([(address, word.to_bytes(2, "little")) for address, word in sorted(words.items())], START))
        commands += [f"deposit 0-1776 {NOP:o}", *(f"deposit {address:o} {word:o}" for address, word in CLOCK.items()), *run.before,
                     *(f"deposit {register} 1" for register in simh.REGISTERS[:6]), f"deposit r4 {run.counter:o}", f"deposit sp {STACK:o}", "deposit psw 0",
                     f"load {tape}", f"deposit pc {start_of(name):o}", f"step {run.steps}", "examine r0-r5,sp,pc,psw", f"examine -o 0-{REACHED - 2:o}",
                     f"echo {BETWEEN}"]
    return [outcome(it) for it in simh.said_to(commands, LONG).split(f"{BETWEEN}\n")[:-1]]


def outcome(said):
    *_, halted = [None, *re.findall(r"^HALT instruction, PC: (\d+)", said, re.MULTILINE)]
    words = simh.words_in(said)
    return Outcome(halted and int(halted, 8), simh.registers_in(said), [words.get(address, 0) for address in range(0, REACHED, 2)])


# ---------------------------------------------------------------- a machine with boards

class Registers:
    """Registers that hold a number each."""

    def __init__(self, addresses, number=0o123456):
        self.held, self.reads, self.writes = dict.fromkeys(addresses, number), [], []

    def reset(self):
        pass

    def read(self, register):
        self.reads.append(register)
        return self.held[register]

    def write(self, register, value):
        self.writes.append(register)
        self.held[register] = value


class PagedRom(Registers):
    """The boot ROM of a BDV11: a byte of the page register 177520 says which page of 128 words is seen at 173000, the other which at 173400."""

    PAGE_REGISTER, FIRST, PAGE_WORDS, PAGES = 0o177520, 0o173000, 128, 16

    def __init__(self):
        super().__init__([self.PAGE_REGISTER], 0)
        self.words = [(257 * number + 1) % 65536 for number in range(self.PAGES * self.PAGE_WORDS)]
        self.addresses = [*range(self.FIRST, self.FIRST + 4 * self.PAGE_WORDS, 2), self.PAGE_REGISTER]

    def reset(self):
        self.held[self.PAGE_REGISTER] = 0o400

    def read(self, register):
        if register == self.PAGE_REGISTER:
            return super().read(register)
        pages = self.held[self.PAGE_REGISTER]
        place, upper = (register - self.FIRST) // 2 % self.PAGE_WORDS, register - self.FIRST >= 2 * self.PAGE_WORDS
        return self.words[(pages >> 8 if upper else pages & pdp11.BYTE) % self.PAGES * self.PAGE_WORDS + place]


class WatchfulBus(pdp11.Bus):
    """A bus that keeps which addresses were tried where no memory is."""

    def __init__(self, bus):
        super().__init__(bus.words, bus.line, bus.odd_addresses_trap)
        self.tried = []

    def board(self, address):
        self.tried.append(address)
        return super().board(address)


class MachineWithBoards(RunningMachine):
    """An LSI-11 with boards, all of whose memory holds a word. What registers hold when a program begins is anything, here 1, and `counter` in R4; and the
    stack is where no memory is."""

    def __init__(self, words=28672, boards=(), memory=NOP, counter=1):
        super().__init__(words)
        self.words[:] = [memory] * words
        self.computer.bus = self.computer.processor.bus = WatchfulBus(self.computer.bus)
        self.computer.processor.registers[:7] = [1, 1, 1, 1, counter, 1, 0]
        for board, addresses in boards:
            self.computer.bus.put(board, addresses)

    @property
    def registers(self):
        return self.computer.processor.registers

    def has_tape(self, drive, kind=tu58.Line):
        """Has a TU58 at a second serial line."""
        self.computer.bus.put(kind(drive, lambda: self.computer.time), tu58.REGISTERS)

    def runs(self, name, changed, most=60_000, priority=PRIORITY_7):
        """Runs a text, some of whose words are changed, for so many instructions; returns all that the console prints, or None where it did not halt, or at
        another priority."""
        for address, word in {**words_of(name), **changed}.items():
            self.words[address // 2] = word
        self.starts.append(start_of(name))
        self.mode = RUNNING
        printed = self.started()
        while self.mode == RUNNING and self.computer.time < most:
            printed += self.go_on()
        return None if self.mode == RUNNING or self.computer.processor.status & PRIORITY_7 != priority else printed


class CrowdedLine(tu58.Line):
    """The line to a TU58, of whose status registers each bit that means nothing is 1, and of 300 baud, as far as a break is concerned. Behind the reset with
    which a program starts a character comes that nobody asked for."""

    NOTHING, SLOW_CHARACTER = 0o077476, 32 * pdp11.Computer.CHARACTER_TIME
    resets = 0

    def __init__(self, drive, clock):
        super().__init__(drive, clock, self.SLOW_CHARACTER)

    def reset(self):
        super().reset()
        self.resets += 1
        self.held = tu58.CONTINUE if self.resets == 2 else None


class DamagingLine(tu58.Line):
    """A line that marks the hundredth character as damaged."""

    fetched = 0

    def read(self, register):
        value = super().read(register)
        if register != tu58.REGISTERS[1]:
            return value
        self.fetched += 1
        return value | 0o120000 if self.fetched == 100 else value


class SilentDrive(tu58.Drive):
    """A drive that heeds nothing."""

    def hear_break(self):
        pass


class LosingDrive(tu58.Drive):
    """A drive of whose block 0 the line loses a byte, once."""

    has_lost = False

    def take(self, byte):
        super().take(byte)
        if len(self.leaving) == tu58.BLOCK and not self.has_lost:
            self.has_lost = True
            del self.leaving[50]
