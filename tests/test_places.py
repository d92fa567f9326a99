"""Names in each other's places on the command line: a tape where the line belongs, a device where a tape does. Each is refused
before anything is read, since who reads a device waits for what it says.
"""
import errno
import os
import pty
import unittest

from cases import Case, Console
from commands import AT_A_MACHINE, OF_TAPES
from outside import NO_TERMINAL, fault, run


class Places(Case):
    """A device in the test's folder, and what may be taken for it."""

    def setUp(self):
        super().setUp()
        self.put_tapes("first.lda", "two-words.lda")
        self.put("a.script", b"clean\n")
        os.mkdir(self.path("folder"))
        os.mkfifo(self.path("pipe"))
        self.device = self.device_at(Console())
        os.symlink(self.device.name, self.path("ttyUSB0"))

    def is_refused(self, words, err):
        """Asserts that words are refused at once: nothing is typed, nothing printed, and no file made or read."""
        with self.subTest(words):
            self.ends(run(words.split(), cwd=self.room, seconds=10), 2, "", f"ldaodt: {err}\n")
            self.device.settle()
            self.is_so(self.device.machine.typed, "")
            self.holds({"a.script": "clean\n"})

    def holds(self, files):
        here = set(files) | {"folder", "pipe", "ttyUSB0", "first.lda", "two-words.lda"}
        self.is_so(set(os.listdir(self.room)), here)

    def test_a_line_that_is_no_device(self):
        """As in the order of cp, or with the line left out."""
        for line in ("./two-words.lda", "./folder", "./pipe", "./", self.path("first.lda")):
            for it in AT_A_MACHINE:
                for words in (it.line("first.lda", "./ttyUSB0", line=line), it.line("./ttyUSB0", line=line)):
                    self.is_refused(words, f"{line} is no serial device: {it.name} {it.order}")
            self.is_refused(f"load first.lda {line} ./ttyUSB0 --record a.record", f"{line} is no serial device: load TAPE LINE [MORE]..")

    def test_a_terminal_that_is_read(self):
        peer = self.console_at(Console())
        for it in OF_TAPES:
            for tapes in (["./ttyUSB0"], ["first.lda", "./ttyUSB0"]):
                self.is_refused(it.line(*tapes, line=peer.name), "./ttyUSB0 is a terminal, no tape")
        self.is_refused("load ./ttyUSB0 ./ttyUSB0", "./ttyUSB0 is a terminal, no tape")
        self.is_refused("rehearse first.lda ./ttyUSB0", "./ttyUSB0 is a terminal, no script")
        self.is_refused("make new.lda ./ttyUSB0", "./ttyUSB0 is a terminal, no words")
        self.is_refused(f"load first.lda {peer.name} --record ./ttyUSB0", "./ttyUSB0 is a terminal, no record")
        self.is_so(peer.connections, 0)

    def test_a_name_that_would_command_a_terminal(self):
        """It is shown as in every fault."""
        self.put("\x1b[2J", b"")
        given = run(["load", "first.lda", "./\x1b[2J"], cwd=self.room, seconds=10)
        self.ends(given, 2, "", "ldaodt: ./\\u{1b}[2J is no serial device: load TAPE LINE [MORE]..\n")

    def test_what_is_left_to_who_opens_it(self):
        """What is not there, and a line that is another device; standard input may be a terminal, and is read to its end."""
        os.symlink("/dev/null", self.path("null"))
        for line, why in (("./nowhere", errno.ENOENT), ("./null", NO_TERMINAL)):
            self.ends(run(["load", "first.lda", line], cwd=self.room, seconds=10), 4, "", fault(f"cannot connect to {line}", why))
        self.ends(run(["check", "./nowhere"], cwd=self.room, seconds=10), 4, "", fault("cannot read ./nowhere", errno.ENOENT))
        ours, theirs = pty.openpty()
        os.write(ours, b"\x04")
        given = run(["check", "-"], cwd=self.room, seconds=10, stdin=theirs)
        self.ends(given, 3, "", "ldaodt: tape refused at 0: NoTransfer\n")
        for end in (ours, theirs):
            os.close(end)


if __name__ == "__main__":
    unittest.main()
