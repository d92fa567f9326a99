"""A TU58, the drive of small tape cartridges that is at the end of a serial line, as far as booting goes, and a second serial line for a
computer of pdp11.py that leads to it. Written from the descriptions of the two.

A break makes the drive forget whatever was under way; INIT twice is answered by CONTINUE, and BOOT and a cartridge's number by the 512
bytes of that cartridge's block 0, as they are.
"""
import pdp11

INIT, BOOT, CONTINUE = 0o004, 0o010, 0o020
BLOCK = 512

# The line's registers: the receiver's status, what came, the transmitter's status, what is to go; and a bit of the third.
REGISTERS = range(0o176500, 0o176510, 2)
BREAK = 0o001


class Drive:
    """The drive: `leaving` is what it has still to send. It was switched on in the middle of something, and so heeds nothing up to a break;
    and one INIT more than it is asked for goes before CONTINUE."""

    def __init__(self, *cartridges):
        self.cartridges, self.leaving = cartridges, bytearray()
        self.last, self.heeds = None, ()

    def hear_break(self):
        self.leaving.clear()
        self.last, self.heeds = None, (INIT,)

    def take(self, byte):
        """A character has come."""
        last, self.last = self.last, byte
        if last not in self.heeds:
            return
        if (last, byte) == (INIT, INIT):
            self.last, self.heeds = None, (INIT, BOOT)
            self.leaving += bytes([INIT, CONTINUE])
        elif last == BOOT and byte < len(self.cartridges):
            self.last = None
            self.leaving += self.cartridges[byte][:BLOCK].ljust(BLOCK, b"\0")


class Line:
    """The line, at which a program has to wait: a character has come, or the next may be given, each third time that it asks for that. One
    that is given before is lost; and a break is one that lasts as long as a character, which `clock` tells, in instructions."""

    SLOWNESS = 3

    # What is read of a bit of the two status registers that means nothing.
    NOTHING = 0

    def __init__(self, drive, clock, character_time=pdp11.Computer.CHARACTER_TIME):
        self.drive, self.clock, self.character_time = drive, clock, character_time
        self.reset()

    def reset(self):
        self.held, self.questions, self.may_give, self.broken_at = None, 0, False, None

    def is_third(self):
        self.questions += 1
        return self.questions % self.SLOWNESS == 0

    def read(self, register):
        match register:
            case 0o176500:
                if self.held is None and self.drive.leaving and self.is_third():
                    self.held = self.drive.leaving.pop(0)
                return pdp11.READY * (self.held is not None) | self.NOTHING
            case 0o176502:
                held, self.held = self.held, None
                return held or 0
            case 0o176504:
                self.may_give = self.is_third()
                return pdp11.READY * self.may_give | BREAK * (self.broken_at is not None) | self.NOTHING
            case _:
                return 0

    def write(self, register, value):
        match register:
            case 0o176504:
                self.set_break(bool(value & BREAK))
            case 0o176506 if self.may_give:
                self.may_give = False
                self.drive.take(value & pdp11.BYTE)

    def set_break(self, is_broken):
        if self.broken_at is not None and self.clock() - self.broken_at >= self.character_time:
            self.drive.hear_break()
        self.broken_at = self.clock() if is_broken else None


def put(computer, *cartridges):
    """Puts a line with a drive onto a computer's bus."""
    computer.bus.put(Line(Drive(*cartridges), lambda: computer.time), REGISTERS)
