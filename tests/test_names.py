"""Names of every length that the system takes, for each word that names a file, a device or a port: none is too long for the program
before it is too long for the system."""
import errno
import os
import unittest

from cases import Case, Console
from commands import READING
from outside import bytes_of, fault

# The system's limits, in bytes: of a name in a folder, and of a path.
LONGEST_NAME, LONGEST_PATH = 255, 4095

# What the name of a new file has more, beside the one whose place it takes.
BESIDE = len(".ldaodt-new")

# Lengths at which a program's own room could end, up to the longest one.
LENGTHS = (31, 32, 33, 48, 49, 60, 64, 65, 127, 128, 129, 255, 256, 257, 1024, 1025, 2049)

SCRIPT = b"clean\n"


def path_to(name, length):
    """A path of this length to a file of the working folder."""
    steps, odd = divmod(length - len(name), 2)
    return "./" * (steps - odd) + ".//" * odd + name if steps > odd else name


def paths_to(name, longest=LONGEST_PATH):
    """Paths to it, of all those lengths and of the longest."""
    return [path_to(name, length) for length in (*LENGTHS, longest) if length > len(name) + 3]


class Names(Case):
    def setUp(self):
        super().setUp()
        self.put_tapes("first.lda")
        self.put("a.script", SCRIPT)

    def checked(self):
        return self.ldaodt("check first.lda")

    def test_the_lengths_are_right(self):
        for name in ("a", "first.lda"):
            self.is_so([len(it) for it in paths_to(name)], [it for it in (*LENGTHS, LONGEST_PATH) if it > len(name) + 3])

    def test_tapes_and_scripts(self):
        for command, tapes in [(command, tapes) for command in READING for tapes in ((), ("first.lda",))]:
            plain = self.ldaodt(command.words(*tapes, "first.lda"))
            self.is_so(plain.status, 0)
            for path in paths_to("first.lda"):
                with self.subTest(command.name, tapes=tapes, length=len(path)):
                    self.is_so(self.ldaodt(command.words(*tapes, path)), plain)
        plain = self.ldaodt("rehearse first.lda a.script")
        for path in paths_to("a.script"):
            with self.subTest("script", length=len(path)):
                self.is_so(self.ldaodt(["rehearse", "first.lda", path]), plain)

    def test_a_name_as_long_as_may_be(self):
        name = "t" * LONGEST_NAME
        os.link(self.path("first.lda"), self.path(name))
        self.is_so(self.ldaodt(["check", name]), self.checked())
        self.ends(self.ldaodt(["check", name + "t"]), 4, "", fault(f"cannot read {name}t", errno.ENAMETOOLONG))

    def test_longer_than_the_system_takes(self):
        path = path_to("first.lda", LONGEST_PATH + 1)
        self.ends(self.ldaodt(["check", path]), 4, "", fault(f"cannot read {path}", errno.ENAMETOOLONG))
        path = path_to("ttyUSB0", LONGEST_PATH + 1)
        self.ends(self.ldaodt(["probe", path]), 4, "", fault(f"cannot connect to {path}", errno.ENAMETOOLONG))

    def test_tapes_at_a_machine(self):
        line = self.console_at(Console(memory={0o1000: 0o011064}))
        for path in paths_to("first.lda"):
            with self.subTest(length=len(path)):
                given = self.ldaodt(["verify", path, line.address, "--quiet", str(self.quiet)])
                self.ends(given, 0, "sent 9 spent 0 looked 1 of 1 differ 0\nend Same\n")

    def test_devices(self):
        """Names below /dev/serial/by-id have 60 characters and more."""
        device = self.device_at(Console(memory={0o1000: 0o011064}))
        os.symlink(device.address, self.path("ttyUSB0"))
        by_id = "usb-FTDI_FT232R_USB_UART_" + "A" * (LONGEST_NAME - 25)
        os.symlink(device.address, self.path(by_id))
        for path in (f"./{by_id}", *paths_to("ttyUSB0")):
            with self.subTest(length=len(path)):
                given = self.ldaodt(["verify", "first.lda", path, "--quiet", str(self.quiet)])
                self.ends(given, 0, "sent 9 spent 0 looked 1 of 1 differ 0\nend Same\n")

    def test_ports(self):
        """A port's number may have zeroes before it. Nothing of an address is cut off."""
        line = self.console_at(Console(memory={0o1000: 0o011064}))
        host, port = line.address.rsplit(":", 1)
        for length in LENGTHS:
            address = f"{host}:{port.rjust(length, '0')}"
            with self.subTest(length=len(address)):
                given = self.ldaodt(["verify", "first.lda", address, "--quiet", str(self.quiet)])
                self.ends(given, 0, "sent 9 spent 0 looked 1 of 1 differ 0\nend Same\n")
        for length in LENGTHS:
            address = f"{'h' * length}.invalid:1"
            with self.subTest(length=len(address)):
                self.leads_nowhere(self.ldaodt(["probe", address]), address)

    def test_no_space_belongs_to_an_address(self):
        """What stands before or behind it is no part of one that is left out."""
        line = self.console_at(Console())
        for address in (f" {line.address}", f"{line.address} "):
            self.leads_nowhere(self.ldaodt(["probe", address]), address)
        self.is_so(line.connections, 0)

    def test_records(self):
        """Where the new record's name would be too long the record is written in place."""
        for path in [*paths_to("a.record"), *paths_to("a.record", LONGEST_PATH - BESIDE), "r" * (LONGEST_NAME - BESIDE), "r" * LONGEST_NAME]:
            with self.subTest(length=len(path)):
                line = self.console_at(Console())
                given = self.ldaodt(["load", "first.lda", line.address, "--record", path, "--quiet", str(self.quiet)])
                self.ends(given, 0, "sent 30 spent 0 verified 1 of 1\nend Started\n")
                self.is_so(bytes_of(self.path(os.path.basename(path))), b"LDAODT 2\n001000 011064\nG\n")
                os.remove(self.path(os.path.basename(path)))

    def test_saved_tapes(self):
        line = self.console_at(Console(memory={0o1000: 0o011064}))
        for path in [*paths_to("saved.lda", LONGEST_PATH - BESIDE), "s" * (LONGEST_NAME - BESIDE)]:
            with self.subTest(length=len(path)):
                given = self.ldaodt(["save", path, line.address, "1000", "1000", "--start", "1000", "--quiet", str(self.quiet)])
                self.ends(given, 0, "sent 17 spent 0 read 1 of 1\nend Saved\n")
                self.is_so(self.ldaodt(["check", path]), self.checked())
                os.remove(self.path(os.path.basename(path)))


if __name__ == "__main__":
    unittest.main()
