"""`ldaodt load --fast` in simulated time: lines of each speed, transmitters of one buffer and of two, ends whose clocks differ, processors
that are too slow for both ways at once, and a line that carries one way at a time."""
import unittest

from fast_cases import (ALL, BACKGROUND, EXCHANGED, GAIN, IMAGE, PLACE, START, STARTED, WORDS, FastCase, Model, PacedConsole, image_of,
                        memory_with, words_of)
from paced_line import QUIET, PacedLine

# Seconds that an instruction takes, so many that a character must not come faster.
SLOW, QUICK = 20e-6, 9e-6

# How much slower the machine's clock is than the host's.
CLOCKS = (-0.05, 0, 0.05)


class Paced(FastCase):
    """Loads of one image, each over a line of its own."""

    def setUp(self):
        super().setUp()
        # While the line's time stands still, the program's goes on.
        self.quiet = max(self.quiet, 1000)
        self.put_tape("a.lda", IMAGE)

    def loaded(self, line, words=None):
        """Loads, and returns the program's answer."""
        tape, _, more = (words or self.usual).partition(" ")
        return line.load(["load", tape, "LINE", *more.split(), "--quiet", str(self.quiet)], cwd=self.room)

    def lines(self, baud, instruction):
        """A line for each transmitter and each clock."""
        for buffers in (1, 2):
            for slower in CLOCKS:
                with self.subTest(buffers=buffers, slower=slower):
                    machine = PacedConsole(IMAGE)
                    machine.computer.buffers = buffers
                    yield PacedLine(machine, baud, instruction, slower)


class BothWays(Paced):
    """Processors that are quick enough: one stub fills all, and no character comes too early."""

    def is_whole(self, baud, instruction):
        for line in self.lines(baud, instruction):
            self.went_as(Model(WORDS, [BACKGROUND] * 4096).fast(), line, self.loaded(line))
            self.is_so(line.computer.line.overrun, 0)

    def test_300_baud(self):
        self.is_whole(300, SLOW)

    def test_9600_baud(self):
        self.is_whole(9600, SLOW)

    def test_38400_baud(self):
        self.is_whole(38400, QUICK)


class OneWay(Paced):
    """The first stub verifies nothing; the second is sent a byte at a time, and fills all."""

    def is_whole(self, line):
        given = self.loaded(line)
        self.is_so((given.status, given.out.split(" ", 2)[2], given.err), (0, f"spent 0 verified {len(WORDS)} of {len(WORDS)}\nend Started\n", ""))
        self.is_so(line.machine.starts, [PLACE, PLACE, START])
        self.is_so(list(line.machine.words), memory_with(IMAGE, 4096))

    def test_processors_that_are_too_slow_at_38400_baud(self):
        for instruction in (12e-6, SLOW):
            for line in self.lines(38400, instruction):
                self.is_whole(line)
                self.assertGreater(line.computer.line.overrun, 0)

    def test_a_line_that_carries_one_way_at_a_time(self):
        self.is_whole(PacedLine(PacedConsole(IMAGE), 9600, SLOW, is_one_way=True))


class Times(Paced):
    """What a load takes, counted by hand."""

    def test_a_load_by_odt(self):
        """Of 100 words: 19 characters and 62 for each word, one behind the other, and each of 8 and 22 keys waits for its answer."""
        image = image_of(100)
        self.put_tape("b.lda", image)
        for latency in (0, 0.016):
            line = PacedLine(PacedConsole(image), 9600, latency=latency)
            self.went_as(Model(words_of(image), [BACKGROUND] * 4096).ordinary(), line, self.loaded(line, "b.lda"))
            self.assertAlmostEqual(line.seconds, QUIET + (19 + 62 * 100) * 10 / 9600 + (8 + 22 * 100) * latency, places=3)

    def test_both_ways_at_once(self):
        """Each word takes four characters each way, and little more than these one way; what ODT says before and behind, one after another.
        Four times nothing may come: before the look at the highest word, the stub, the exchange and the words where the stub lay."""
        line = PacedLine(PacedConsole(IMAGE), 9600)
        self.went_as(Model(WORDS, [BACKGROUND] * 4096).fast(), line, self.loaded(line))
        self.assertLess(line.seconds, 4 * QUIET + (STARTED + ALL - EXCHANGED + 1.05 * 4 * GAIN) * 10 / 9600)


if __name__ == "__main__":
    unittest.main()
