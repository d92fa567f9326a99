"""An LSI-11 in Python: ODT, as odt_peer.py has it, over a computer of pdp11.py, which runs whatever is started there."""
import odt_peer
import pdp11


class RunningMachine(odt_peer.Machine):
    """A machine on which a program that is started runs: it hears the keys that are typed then, and what it prints is the answer.

    Each key is a character's time: where the program has not fetched the last one by then, the next takes its place. At a halt ODT
    prints the address behind it and its prompt, and takes what the receiver holds as its next key. With the HALT switch on the
    machine halts before it has executed anything."""

    def __init__(self, words=28672, style=0, says=(), has_halt_switch_on=False, character_time=pdp11.Computer.CHARACTER_TIME):
        super().__init__(words, style, says)
        self.computer = pdp11.Computer(self.words, character_time)
        self.has_halt_switch_on = has_halt_switch_on

    @property
    def is_busy(self):
        return self.mode == odt_peer.RUNNING and self.computer.is_busy

    def take(self, key):
        if self.mode == odt_peer.RUNNING:
            self.computer.arrive(ord(key))
            return self.printed()
        starts = len(self.starts)
        answer = super().take(key)
        return answer + self.started() if len(self.starts) > starts else answer

    def go_on(self):
        return self.printed()

    def started(self):
        """Starts the program; returns what it prints in a character's time."""
        self.computer.bus.words = self.words
        self.computer.start(self.starts[-1])
        self.computer.is_running = not self.has_halt_switch_on
        return self.printed()

    def printed(self):
        """What the program prints in a character's time, and ODT behind it where it halts."""
        text = self.computer.run().decode("latin-1")
        return text if self.computer.is_running else text + self.halted()

    def halted(self):
        """Comes back to ODT; returns what it prints."""
        address, line = self.computer.processor.registers[pdp11.PC], self.computer.line
        shown = self.to_prompt(f"{self.newline}{address:06o}")
        return shown + super().take(chr(line.fetch())) if line.receiver.is_ready else shown
