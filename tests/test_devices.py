"""Loads of a machine at a serial device, which is a pseudo-terminal here: how it may be set, which names are refused,
what a hang-up, a stopped output and a process that was held for a while are heard as, and listening."""
import errno
import fcntl
import os
import select
import shutil
import signal
import termios
import time
import unittest
from concurrent.futures import ThreadPoolExecutor

from cases import Case, Console, DeafConsole
from commands import AT_A_MACHINE
from outside import HELLO, IN_USE, NO_OUTPUT, NO_TERMINAL, Answer, bytes_of, fault, line_failed

# All that is typed at a machine of zeroed memory to load and start first.lda, what is reported, and the record.
WHOLE = "Z001000/011064\r001000/\r001000G"
STARTED = "sent 30 spent 0 verified 1 of 1\nend Started\n"
MARKED = "LDAODT 2\n001000 011064\nG\n"
FAILED = line_failed("closed")

# How a person may have set the device: by the line of docs/REAL-MACHINE.md, with less, and for readers that wait.
SETTINGS = (
    "9600 raw -echo cs8 -parenb -cstopb -crtscts clocal -hupcl",
    "raw -echo",
    "raw -echo min 0 time 1",
    "raw -echo min 0 time 0",
    "raw -echo min 5 time 3",
)


def all_at_once(trial, rows):
    """Tries all rows side by side."""
    with ThreadPoolExecutor(len(rows)) as pool:
        return list(pool.map(trial, rows))


class Devices(Case):
    """A load has first.lda in its folder."""

    def setUp(self):
        super().setUp()
        self.put_tapes("first.lda")

    def finish(self, process, seconds=60):
        out, err = process.communicate(timeout=seconds)
        return Answer(process.returncode, out, err)

    def was_typed(self, device, keys):
        self.is_so(device.machine.typed, keys)


class Loads(Devices):
    """Loads that come to their end."""

    def test_a_whole_load_with_each_setting(self):
        def trial(row):
            number, settings = row
            device = self.device_at(Console(), settings=settings)
            return settings, device, self.load(device, f"first.lda --record {number}.record")

        for number, (settings, device, given) in enumerate(all_at_once(trial, list(enumerate(SETTINGS)))):
            with self.subTest(settings):
                self.ends(given, 0, STARTED)
                self.was_typed(device, WHOLE)
                self.is_so((device.machine.word(0o1000), device.machine.starts), (0o011064, [0o1000]))
                self.is_so(bytes_of(self.path(f"{number}.record")).decode(), MARKED)

    def test_a_machine_that_starts_over_behind_a_record(self):
        """The record's word is looked at first, over a device as over a port."""
        device = self.device_at(Console(memory={0o1000: 0o011064}))
        self.put("a.record", b"LDAODT 2\n001000 011064\n")
        self.ends(self.load(device, "first.lda --record a.record"), 0, "sent 17 spent 0 verified 1 of 1\nend Started\n")
        self.was_typed(device, "Z001000/\rZ001000G")

    def test_a_word_that_is_no_memory(self):
        device = self.device_at(Console(words=256))
        self.ends(self.load(device), 5, "sent 8 spent 0 verified 0 of 1\nend NoWord 001000\n")

    def test_a_console_that_answers_nothing(self):
        """Each of its four keys is a `Z`, behind a silence."""
        device = self.device_at(DeafConsole())
        began = time.monotonic()
        self.ends(self.load(device, "first.lda --patience 3"), 5, "sent 4 spent 3 verified 0 of 1\nend GaveUp\n")
        self.assertGreaterEqual(time.monotonic() - began, 4 * self.quiet / 1000)
        self.was_typed(device, "ZZZZ")

    def test_a_long_quiet_time(self):
        """It passes before the only key and behind it."""
        device = self.device_at(DeafConsole())
        began = time.monotonic()
        self.ends(self.load(device, "first.lda --patience 0", quiet=2500), 5, "sent 1 spent 0 verified 0 of 1\nend GaveUp\n")
        self.assertGreaterEqual(time.monotonic() - began, 2 * 2.5)

    def test_seven_bits_and_no_padding(self):
        """The console sends a parity bit with each character, and a 000 behind it."""
        class Parity(Console):
            def take(self, key):
                return "".join(chr(ord(it) | 128) + "\0" for it in super().take(key))

        device = self.device_at(Parity())
        self.ends(self.load(device), 0, STARTED)

    def test_a_process_that_is_held(self):
        """It is held for longer than the quiet time, and has not heard a silence meanwhile. At 9,600 baud a load of
        28 words takes some three seconds."""
        shutil.copyfile(HELLO, self.path("hello.lda"))
        device = self.device_at(Console(), baud=9600)
        process = self.begin(self.load_words(device, "hello.lda", quiet=max(1000, self.quiet)))
        for keys in (20, 150, 400):
            self.until(lambda keys=keys: len(device.machine.typed) >= keys)
            process.send_signal(signal.SIGSTOP)
            time.sleep(1.5 * max(1, self.quiet / 1000))
            process.send_signal(signal.SIGCONT)
        given = self.finish(process)
        self.ends(given, 0, "sent 610 spent 0 verified 28 of 28\nend Started\n")


class Refusals(Devices):
    """Names that are no serial device, or none that may be used."""

    def is_refused(self, name, is_none=False, why=None):
        """A name that is there and no character device is refused as such, before anything is read."""
        self.put("a.record", b"LDAODT 2\n")
        given = self.ldaodt(["load", "first.lda", name, "--quiet", str(self.quiet), "--record", "a.record"])
        if is_none:
            self.ends(given, 2, "", f"ldaodt: {name} is no serial device: load TAPE LINE [MORE]..\n")
        else:
            self.ends(given, 4, "", fault(f"cannot connect to {name}", why))
        self.is_so(bytes_of(self.path("a.record")), b"LDAODT 2\n")

    def test_names_that_are_no_device(self):
        self.put("plain", b"")
        os.mkfifo(self.path("pipe"))
        for name in ("./plain", "./pipe", "./", "/", "/dev"):
            with self.subTest(name):
                self.is_refused(name, is_none=True)
        for name in ("./nothing", "./nothing/device"):
            with self.subTest(name):
                self.is_refused(name, why=errno.ENOENT)
        for name in ("/dev/null", "/dev/zero", "/dev/full"):
            with self.subTest(name):
                self.is_refused(name, why=NO_TERMINAL)

    def test_a_pipe_is_not_even_opened(self):
        """Who reads it would find out that somebody had come and gone."""
        os.mkfifo(self.path("pipe"))
        reader = os.open(self.path("pipe"), os.O_RDONLY | os.O_NONBLOCK)
        self.addCleanup(os.close, reader)
        self.is_refused("./pipe", is_none=True)
        waiting = select.poll()
        waiting.register(reader, 0)
        self.is_so(waiting.poll(0), [])

    def test_a_device_that_may_not_be_opened(self):
        """The superuser may open each, so that another user tries it then."""
        device = self.device_at(Console())
        is_root = os.geteuid() == 0
        os.chmod(device.name, 0o600 if is_root else 0)
        os.chmod(self.room, 0o755)
        given = self.ldaodt(["load", "first.lda", device.name], setup=(lambda: os.setuid(65534)) if is_root else None)
        self.ends(given, 4, "", fault(f"cannot connect to {device.name}", errno.EACCES))
        device.settle()
        self.was_typed(device, "")

    def test_a_device_that_somebody_has(self):
        device = self.device_at(Console())
        fcntl.flock(device.theirs, fcntl.LOCK_EX)
        self.is_refused(device.name, why=IN_USE)
        fcntl.flock(device.theirs, fcntl.LOCK_UN)
        self.ends(self.load(device), 0, STARTED)

    def test_a_second_load(self):
        """It is refused, and the first goes on."""
        device = self.device_at(Console())
        first = self.begin(self.load_words(device))
        self.until(lambda: is_locked(device))
        self.is_refused(device.name, why=IN_USE)
        self.ends(self.finish(first), 0, STARTED)
        self.was_typed(device, WHOLE)

    def test_a_device_in_this_folder(self):
        """A name with no slash is none of a device, also where one has that name here."""
        device = self.device_at(Console())
        os.symlink(device.name, self.path("ttyUSB0"))
        given = self.ldaodt("load first.lda ttyUSB0")
        self.is_so((given.status, given.out, "ttyUSB0" in given.err), (2, "", True))
        self.was_typed(device, "")
        device.address = "./ttyUSB0"
        self.ends(self.load(device), 0, STARTED)
        for command in AT_A_MACHINE:
            device.machine = Console(memory={0o1000: 0o011064})
            given = self.ldaodt(f"{command.line(line=device.address)} --quiet {self.quiet}")
            device.settle()
            self.is_so((command.name, given.status, given.out.split("\n")[-2], given.err), (command.name, 0, f"end {command.end}", ""))


def is_locked(device):
    """Whether somebody else has a device."""
    try:
        fcntl.flock(device.theirs, fcntl.LOCK_EX | fcntl.LOCK_NB)
    except OSError:
        return True
    fcntl.flock(device.theirs, fcntl.LOCK_UN)
    return False


class Failures(Devices):
    """Lines that fail."""

    def test_a_hang_up_behind_each_character(self):
        """It ends the load at once, and is no silence. Up to the echo of the last digit before `G` there are 5, 62
        and 12 characters."""
        def trial(characters):
            device = self.device_at(Console(), close_after=characters)
            given = self.load(device, f"first.lda --record {characters}.record")
            return characters, device, given, bytes_of(self.path(f"{characters}.record")).decode()

        with ThreadPoolExecutor(16) as pool:
            for characters, device, given, record in pool.map(trial, range(1, 79)):
                with self.subTest(characters):
                    self.is_so((given.status, given.err, given.out.split("\n")[1:]), (4, FAILED, ["end LineFailed", ""]))
                    self.is_so(device.machine.starts, [])
                    self.assertIn(record, ("LDAODT 2\n", "LDAODT 2\n001000 011064", "LDAODT 2\n001000 011064\nG\n"))
                    self.is_so("011064" in record and device.machine.word(0o1000) != 0o011064, False)

    def test_a_hang_up_while_it_listens(self):
        """The quiet time is a minute, and the load is over long before."""
        device = self.device_at(Console())
        process = self.begin(self.load_words(device, quiet=60000))
        self.until(lambda: is_locked(device))
        device.hang_up()
        self.ends(self.finish(process, seconds=30), 4, "sent 0 spent 0 verified 0 of 1\nend LineFailed\n", FAILED)

    def test_output_that_is_stopped(self):
        """The first key waits for the quiet time, and the load ends."""
        device = self.device_at(Console())
        termios.tcflow(device.theirs, termios.TCOOFF)
        began = time.monotonic()
        self.ends(self.load(device), 4, "sent 1 spent 0 verified 0 of 1\nend LineFailed\n", line_failed("send"))
        self.assertGreaterEqual(time.monotonic() - began, 2 * self.quiet / 1000)
        termios.tcflow(device.theirs, termios.TCOON)

    def test_the_echo_left_on(self):
        """What the machine prints is typed back at it, for ever: the load types nothing that could change memory, and
        says that it listens."""
        device = self.device_at(Console(), settings="raw echo")
        process = self.begin(self.load_words(device))
        time.sleep(3)
        self.assertIsNone(process.poll())
        process.kill()
        device.hang_up()
        self.is_so((device.machine.starts, any(device.machine.words)), ([], False))

    def test_lines_that_a_terminal_would_keep(self):
        """Without `raw` a terminal keeps what has no end of line, and no answer is heard."""
        device = self.device_at(Console(), settings="sane -echo")
        self.ends(self.load(device, "first.lda --patience 2"), 5, "sent 3 spent 2 verified 0 of 1\nend GaveUp\n")
        self.is_so(device.machine.starts, [])


HELLO_TEXT = "HELLO FROM THE LSI-11\r\n"
PASSES = [(0.3, f"END PASS {number}\r\n") for number in range(8)]
DIGITS = "0123456789" * 500

# How the console is reached, what the program says that is started, the further words of the load, and what is printed
# behind the report.
LISTENINGS = {
    "once": ("device_at", [(0, HELLO_TEXT)], "--listen 1", HELLO_TEXT),
    "once, over a port": ("console_at", [(0, HELLO_TEXT)], "--listen 1", HELLO_TEXT),
    # A pause is shorter than the quiet time, and all of it longer.
    "with pauses": ("device_at", PASSES, "--listen 1", "".join(text for _, text in PASSES)),
    "with pauses, over a port": ("console_at", PASSES, "--listen 1", "".join(text for _, text in PASSES)),
    "behind a pause that two silences outlast": ("device_at", [(1.5, HELLO_TEXT)], "--listen 2", HELLO_TEXT),
    "much at once": ("device_at", [(0, DIGITS)], "--listen 1", DIGITS),
    # Bit 7 is cleared and 000 dropped, and all else is as it came.
    "bits and control characters": ("device_at", [(0, "\xc8\x00I\x07\x1b[1m\x7f\r\n")], "--listen 1", "HI\x07\x1b[1m\x7f\r\n"),
    "nothing": ("device_at", [], "--listen 1", ""),
    "without the option": ("device_at", [(0, HELLO_TEXT)], "", ""),
}


class Listening(Devices):
    """What the program prints that was started."""

    def test_what_is_said(self):
        def trial(name):
            console, says, words, _ = LISTENINGS[name]
            line = getattr(self, console)(Console(says=says))
            return line, self.load(line, f"first.lda {words}")

        for name, (line, given) in zip(LISTENINGS, all_at_once(trial, list(LISTENINGS))):
            with self.subTest(name):
                self.ends(given, 0, STARTED + LISTENINGS[name][-1])
                self.was_typed(line, WHOLE)

    def read(self, process, text):
        """Reads this of what a load prints, which has not ended by then."""
        said = b""
        while len(said) < len(text):
            piece = os.read(process.stdout.fileno(), 1)
            self.assertTrue(piece, repr(said))
            said += piece
        self.is_so(said.decode(), text)
        self.assertIsNone(process.poll())

    def test_a_hang_up(self):
        """A machine that prints for ever is heard until it hangs up, and that is no fault of the load."""
        device = self.device_at(Console(says=[(0.1, "END PASS\r\n")] * 1000))
        process = self.begin(self.load_words(device, "first.lda --listen 60"))
        self.read(process, STARTED + "END PASS\r\n" * 3)
        device.hang_up()
        rest, err = process.communicate(timeout=60)
        self.is_so((process.returncode, err), (0, ""))
        self.assertTrue(("END PASS\n" * 1000).startswith(rest.replace("\r", "")), repr(rest))

    def test_each_character_comes_at_once(self):
        """What is said is read before listening is over, and a reader that goes then is told of."""
        device = self.device_at(Console(says=[(0, HELLO_TEXT), (1, HELLO_TEXT)]))
        process = self.begin(self.load_words(device, "first.lda --listen 60"))
        self.read(process, STARTED + HELLO_TEXT)
        process.stdout.close()
        process.stdout = None
        _, err = process.communicate(timeout=60)
        self.is_so((process.returncode, err), (4, NO_OUTPUT))

    def test_an_output_that_is_full(self):
        device = self.device_at(Console(says=[(0, HELLO_TEXT)]))
        self.ends(self.load(device, "first.lda --listen 60", before="> /dev/full"), 4, "", NO_OUTPUT)

    def test_not_after_other_ends(self):
        """Nothing was started, so that nothing is listened to: the load is over long before a minute."""
        self.put_tapes("no-word.lda")
        device = self.device_at(Console(words=256))
        self.ends(self.load(device, "first.lda --listen 600"), 5, "sent 8 spent 0 verified 0 of 1\nend NoWord 001000\n")
        self.ends(self.load(device, "no-word.lda --listen 600"), 0, "sent 0 spent 0 verified 0 of 0\nend Loaded\n")


if __name__ == "__main__":
    unittest.main()
