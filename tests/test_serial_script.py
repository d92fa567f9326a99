"""`tools/serial`: by which words it sets a device, with which words it runs the program, what it says where a device can't be used,
what a scan finds, and what is heard between a load and a terminal. Beside a `stty`, a program and terminals that note how they were
called; then with the real `stty` and the real program; and where it is installed."""
import contextlib
import fcntl
import grp
import os
import pty
import re
import shutil
import signal
import subprocess
import sys
import termios
import time
import unittest

from cases import Case, Console
from commands import AT_A_MACHINE
from outside import HELLO, PROGRAM, TOP, Answer, bytes_of, text_of
from test_devices import is_locked
from test_probe import WideConsole

# A command that notes its words, and its device where that is its input; it says and ends as the test asks.
STAND_IN = """#!/bin/bash
name=${0##*/}
printf '%s\\n' "$name${*:+ $*}" >> "$NOTES"
[ "$name" != stty ] || [ "$1" = -F ] || readlink /proc/self/fd/0 >> "$NOTES"
said=${name}_says ended=${name}_ends
[ -z "${!said-}" ] || echo "${!said}" >&2
exit "${!ended-0}"
"""

# The program's help of a command.
HELPING = '[ "${2-}" != --help ] || exec cat "$HELPS/$1"\n'

# A group that is no user's of these tests.
ANOTHER_GROUP = 1

# What the script calls and a test has no stand-in for.
CALLED = "bash dirname readlink flock stat cat timeout sleep mktemp grep sed tee rm ls".split()

TERMINALS = ("picocom", "tio", "minicom")

# SPEED, and the words by which the device is set; the first are those of docs/REAL-MACHINE.md.
SETTINGS = {
    "9600": "9600 raw -echo cs8 -parenb -cstopb -crtscts clocal -hupcl",
    "300/8n1": "300 raw -echo cs8 -parenb -cstopb -crtscts clocal -hupcl",
    "9600/7e1": "9600 raw -echo cs7 parenb -parodd inpck ignpar -cstopb -crtscts clocal -hupcl",
    "1200/7O1": "1200 raw -echo cs7 parenb parodd inpck ignpar -cstopb -crtscts clocal -hupcl",
    "110/8n2": "110 raw -echo cs8 -parenb cstopb -crtscts clocal -hupcl",
}

# Baud, and the milliseconds of silence that the script asks for there; none where those of ldaodt itself will do. The first two, and the last,
# as docs/LINE.md has them.
QUICK_QUIET = 500
SILENCES = {110: 4100, 150: 3193, 200: 2570, 300: None, 600: None, 1199: None, 1200: QUICK_QUIET, 9600: QUICK_QUIET, 115200: QUICK_QUIET}

# What the program says where it is asked for help, as the page of transcripts has it.
HELPS = dict(re.findall(r"^\$ ./ldaodt (\w+) --help\n(.*?)^```$", bytes_of(f"{TOP}/tests/help.md").decode(), re.MULTILINE | re.DOTALL))


def without_line(command, *tapes):
    """A command line as this script is given it."""
    return " ".join(it for it in command.words(*tapes) if it != "LINE")


# What a person writes behind SPEED and DEVICE, and how the program is called.
PLACES = (
    # Most commands have LINE behind the first tape, and further ones behind it.
    *((without_line(it, "a.lda", "b.lda", "c.lda"), it.line("a.lda", "b.lda", "c.lda")) for it in AT_A_MACHINE),
    ("load a.lda", "load a.lda LINE"),
    ("verify a.lda b.lda", "verify a.lda LINE b.lda"),
    ("save a.lda 0 157776", "save a.lda LINE 0 157776"),
    ("probe", "probe LINE"),
    ("memory", "memory LINE"),
    ("memory 20000 37776 --every 3", "memory LINE 20000 37776 --every 3"),
    # What stands behind an option that has a value is no tape, wherever that stands.
    ("load --record a.record a.lda --listen 10 b.lda", "load --record a.record a.lda LINE --listen 10 b.lda"),
    ("load --patience 100 --quiet 300 --start 1000 a.lda", "load --patience 100 --quiet 300 --start 1000 a.lda LINE"),
    ("load --listen 10 a.lda b.lda", "load --listen 10 a.lda LINE b.lda"),
    ("save --start 1000 a.lda 0 100", "save --start 1000 a.lda LINE 0 100"),
    ("probe --address 2000", "probe LINE --address 2000"),
    # An option that has none, or has it in one word, or is not known here.
    ("load --recheck --no-start a.lda", "load --recheck --no-start a.lda LINE"),
    ("load --record=a.record a.lda", "load --record=a.record a.lda LINE"),
    ("verify --log a.lda", "verify --log a.lda LINE"),
    # A tape that is standard input is no option.
    ("load -", "load - LINE"),
    ("load -- a.lda", "load -- a.lda LINE"),
    ("load -- -a.lda --talk", "load -- -a.lda LINE --talk"),
    ("load --log -- --record b.lda", "load --log -- --record LINE b.lda"),
    # What the program refuses, it has to see: no tape, no value, and an option of `load` alone.
    ("load", "load"),
    ("load a.lda --record", "load a.lda LINE --record"),
    ("verify a.lda --talk", "verify a.lda LINE --talk"),
)

# Command lines that are refused, and what their fault names.
REFUSED = (
    ("9601x DEVICE probe", "9601x"),
    ("0 DEVICE probe", "no speed is 0"),
    ("9600/9n1 DEVICE probe", "9600/9n1"),
    ("9600/7e DEVICE probe", "9600/7e"),
    ("-9600 DEVICE probe", "-9600"),
    ("probe DEVICE", "probe"),
    ("9600", "DEVICE is missing"),
    ("9600 DEVICE", "which command?"),
    ("9600 DEVICE check a.lda", "check"),
    ("9600 DEVICE type", "type"),
    ("9600 DEVICE talk now", "talk takes nothing more"),
    ("9600 127.0.0.1:2323 probe", "HOST:PORT"),
    ("scan", "DEVICE is missing"),
    ("scan DEVICE 9600", "scan takes DEVICE alone"),
)

# The statuses that are not ldaodt's or a terminal's, as help has them.
STATUSES = [
    ("0", "scan: an ODT answers"),
    ("2", "the command line was refused"),
    ("4", "the device can't be used"),
    ("5", "scan: no ODT answers"),
    ("127", "ldaodt, or a terminal for talk, is not installed"),
]

# What `stty` says of the device, what is told of it, and what a person is to do.
TROUBLES = (
    ("stty: DEVICE: No such file or directory", "No such file or directory", "ls -l /dev/serial/by-id/"),
    ("stty: DEVICE: No such device or address", "No such device or address", "ls -l /dev/serial/by-id/"),
    ("stty: DEVICE: Input/output error", "Input/output error", "ls -l /dev/serial/by-id/"),
    ("stty: DEVICE: Permission denied", "Permission denied", "dialout"),
    ("stty: DEVICE: Device or resource busy", "Device or resource busy", "fuser -v DEVICE"),
    ("stty: DEVICE: Inappropriate ioctl for device", "Inappropriate ioctl for device", "/dev/ttyACM0"),
    ("stty: DEVICE: unable to perform all requested operations", "unable to perform all requested operations", "does not know this speed"),
    ("stty: 'standard input': Invalid argument", "Invalid argument", "does not know this speed"),
    ("stty: invalid argument '9600'\nTry 'stty --help' for more information.", "invalid argument '9600'", "does not know this speed"),
    ("stty: something new", "something new", "docs/REAL-MACHINE.md, step 3"),
)

# How each terminal is called at 9600/7e1; minicom is told the rest by a file.
TERMINAL_WORDS = {
    "picocom": "picocom --noinit DEVICE",
    "tio": "tio -n -b 9600 -d 7 -p even -s 1 -f none DEVICE",
    "minicom": "minicom -o -D DEVICE -b 9600",
}

# What a scan tries: each speed with 8 bits and no parity, and then with these.
SPEEDS = "9600 300 1200 2400 4800 19200 38400 110".split()
FRAMINGS = ["", "7e1", "8n2"]
SETTINGS_TRIED = [f"{speed}/{framing}".rstrip("/") for framing in FRAMINGS for speed in SPEEDS]

# The quiet times of a scan, and of ldaodt where none is given.
SCAN_QUIET, OWN_QUIET = 500, 2000

# A terminal that begins as picocom and tio do: what waits is thrown away. Before, it makes the machine say something; and again once
# nobody else can be listening.
FLUSHING = f"""#!{sys.executable}
import os, sys, termios, time
line = os.open(sys.argv[-1], os.O_RDWR | os.O_NOCTTY)
os.write(line, b"k")
time.sleep(0.5)
termios.tcflush(line, termios.TCIFLUSH)
time.sleep(2.5)
os.write(line, b"l")
said = b""
while b"LATER" not in said:
    said += os.read(line, 100)
print(said.decode())
sys.exit(7)
"""

STARTED = "sent 30 spent 0 verified 1 of 1\nend Started\n"


class Talking(Console):
    """Its program answers two keys."""

    def take(self, key):
        return {"k": "KEPT ", "l": "LATER"}.get(key) or super().take(key)


class Paced(Console):
    """It answers at one speed of its device; at any other nothing that it says is a character of ODT."""

    def __init__(self, speed):
        super().__init__()
        self.speed, self.device, self.unheard = speed, None, ""

    def take(self, key):
        if termios.tcgetattr(self.device.theirs)[4] == self.speed:
            return super().take(key)
        self.unheard += key
        return "\0~"


class Script(Case):
    """A test has the script beside stand-ins: in its folder, with a program of its own, where it names none of those here."""

    def setUp(self):
        super().setUp()
        self.ours, self.theirs = pty.openpty()
        self.device = os.ttyname(self.theirs)
        for end in (self.ours, self.theirs):
            self.addCleanup(os.close, end)
        os.makedirs(self.path("bin"))
        os.makedirs(self.path("tools"))
        shutil.copy(f"{TOP}/tools/serial", self.path("tools/serial"))
        for name in CALLED:
            os.symlink(shutil.which(name), self.path(f"bin/{name}"))
        os.mkdir(self.path("helps"))
        for name, text in HELPS.items():
            self.put(f"helps/{name}", text.encode())

    def stand_in(self, *paths, text=STAND_IN):
        """Puts commands there; one in the program's place has its help, too."""
        for path in paths:
            first, rest = text.split("\n", 1)
            with open(self.path(path), "w", encoding="utf-8") as file:
                file.write(f"{first}\n{HELPING}{rest}" if path.endswith("ldaodt") else text)
            os.chmod(self.path(path), 0o755)

    def serial(self, words, script=None, keys=b"", lone=True, **more):
        """Runs the script; DEVICE and LINE stand for the device. `lone` says that no command is found but those of the test."""
        words = words.split() if isinstance(words, str) else words
        words = [it.replace("DEVICE", self.device) for it in words]
        path = self.path("bin") if lone else f"{self.path('bin')}:{os.environ['PATH']}"
        env = {**os.environ, "PATH": path, "NOTES": self.path("notes"), "HELPS": self.path("helps"), "TMPDIR": self.room, **more.pop("env", {})}
        open(self.path("notes"), "a").close()
        ran = subprocess.run([script or self.path("tools/serial"), *words], input=keys, env=env, cwd=self.room, capture_output=True, timeout=300, **more)
        return Answer(ran.returncode, text_of(ran.stdout), text_of(ran.stderr))

    def notes(self):
        """How the stand-ins were called since this was asked last, with DEVICE for the device."""
        with open(self.path("notes"), encoding="utf-8") as file:
            noted = file.read().replace(self.device, "DEVICE").splitlines()
        os.remove(self.path("notes"))
        return noted


class Words(Script):
    """The words of `stty` and of the program."""

    def setUp(self):
        super().setUp()
        self.stand_in("bin/stty", "ldaodt")

    def test_the_words_of_stty(self):
        """The device may be opened only once it waits for no carrier; and it is set while it is open."""
        for speed, words in SETTINGS.items():
            with self.subTest(speed):
                self.ends(self.serial(f"{speed} DEVICE verify a.lda --quiet 2000"), 0)
                self.is_so(self.notes(), ["stty -F DEVICE clocal -hupcl", f"stty {words}", "DEVICE", "ldaodt verify a.lda DEVICE --quiet 2000"])

    def test_the_quiet_time_of_a_line(self):
        """Where none is given a slow one has the time of 34 characters of 11 bits and 0.7 seconds, if that is above the 2 that ldaodt takes itself,
        and the script says so; one that is quick enough has half a second."""
        for speed, milliseconds in SILENCES.items():
            for words, called in (("load a.lda", "load%s a.lda DEVICE"), ("verify a.lda b.lda", "verify%s a.lda DEVICE b.lda"), ("probe", "probe%s DEVICE"),
                                  ("load -- a.lda", "load%s -- a.lda DEVICE")):
                with self.subTest(speed, words=words):
                    is_slow = milliseconds and speed < 300
                    said = f"ldaodt-serial: --quiet {milliseconds}: at {speed} baud 34 characters take {milliseconds - 700} ms\n" if is_slow else ""
                    self.ends(self.serial(f"{speed} DEVICE {words}"), 0, "", said)
                    self.is_so(self.notes()[-1], "ldaodt " + called % (f" --quiet {milliseconds}" if milliseconds else ""))
        for speed in 110, 9600:
            for words in ("load a.lda DEVICE --quiet 300", "load a.lda DEVICE --quiet=300"):
                self.ends(self.serial(f"{speed} DEVICE {words.replace(' DEVICE', '')}"), 0)
                self.is_so(self.notes()[-1], f"ldaodt {words}")

    def test_it_is_above_what_a_stub_may_still_send(self):
        """34 characters of 11 bits, at each speed: so that the next key meets ODT."""
        for speed, milliseconds in SILENCES.items():
            self.assertGreater(milliseconds or OWN_QUIET, 34 * 11 * 1000 / speed)

    def test_the_pages_have_the_same_words(self):
        page = lambda name: " ".join(bytes_of(f"{TOP}/docs/{name}").decode().split())
        machine, line, manual = page("REAL-MACHINE.md"), page("LINE.md"), page("ldaodt-serial.1")
        self.is_so(re.findall(r"stty -F /dev/ttyUSB0 (9600 [^`]*-hupcl) ", machine)[0], SETTINGS["9600"])
        with_parity, = re.findall(r"`(cs7 [^`]*)` for 7 bits with even parity", machine)
        self.is_so(f"9600 raw -echo {with_parity} -cstopb -crtscts clocal -hupcl", SETTINGS["9600/7e1"])
        self.is_so(re.findall(r"`(inpck [^`]*)`", line), ["inpck ignpar"])
        for speed in (110, 150):
            self.assertIn(f"{SILENCES[speed]} at {speed}", line)
        self.is_so(re.findall(r"`--quiet (\d+)` from (\d+) baud on", line), [(str(QUICK_QUIET), "1200")])
        self.is_so(re.findall(r"Fl -quiet (?:Ar )?(\d+) from (\d+) baud on", manual), [(str(QUICK_QUIET), "1200")])
        self.is_so(re.findall(r"quiet time of (\d+) milliseconds", manual), [str(SCAN_QUIET)])
        self.is_so(re.findall(r"\d+", re.search(r"Probes at (.*?) baud", manual)[1]), SPEEDS)
        self.is_so(re.findall(r"[78][neo][12]", re.search(r"then at each with (.*?), up to", manual)[1]), [it for it in FRAMINGS if it])

    def test_where_the_device_stands(self):
        for words, called in PLACES:
            with self.subTest(words):
                self.ends(self.serial(f"300 DEVICE {words}"), 0)
                self.is_so(self.notes()[-1], f"ldaodt {called.replace('LINE', 'DEVICE')}")

    def test_a_space_is_a_space(self):
        self.stand_in("ldaodt", text="#!/bin/bash\nprintf '%s\\n' \"$@\" >> \"$NOTES\"\n")
        self.ends(self.serial(["300", "DEVICE", "load", "a b.lda", "", "--record", "$HOME *"]), 0)
        self.is_so(self.notes()[-6:], ["load", "a b.lda", "DEVICE", "", "--record", "$HOME *"])

    def test_help_of_a_command_sets_nothing(self):
        """Nor does it ask for the device."""
        for option in ("--help", "-h"):
            self.ends(self.serial(f"9600 /dev/none probe {option}"), 0, HELPS["probe"])
            self.is_so(self.notes(), [])

    def test_the_status_and_what_is_said_are_the_program_s(self):
        for status in range(8):
            self.ends(self.serial("9600 DEVICE probe", env={"ldaodt_ends": str(status), "ldaodt_says": "ldaodt: so"}), status, "", "ldaodt: so\n")

    def test_the_input_is_the_program_s(self):
        self.stand_in("ldaodt", text="#!/bin/bash\ncat\n")
        self.ends(self.serial("9600 DEVICE load -", keys=b"\x01\0tape"), 0, "\x01\0tape")

    def test_the_device_stays_open(self):
        """Else its settings may go with the last who has it. It is no terminal for who has none: an adapter that is pulled out
        would end the program before its report."""
        self.stand_in("ldaodt", text="#!/bin/bash\nreadlink /proc/$$/fd/3\n( : < /dev/tty ) 2> /dev/null && echo a terminal\nexit 0\n")
        self.ends(self.serial("9600 DEVICE probe", start_new_session=True), 0, f"{self.device}\n")

    def test_which_program_it_is(self):
        """The one beside the script, or above it, or on the PATH; through a link to the script, too."""
        answers = {name: f"#!/bin/bash\necho {name}\n" for name in ("tools/ldaodt", "ldaodt", "bin/ldaodt")}
        for name, text in answers.items():
            self.stand_in(name, text=text)
        os.symlink("../tools/serial", self.path("bin/ldaodt-serial"))
        for name in answers:
            self.ends(self.serial("9600 DEVICE probe"), 0, f"{name}\n")
            self.ends(self.serial("9600 DEVICE probe", script=self.path("bin/ldaodt-serial")), 0, f"{name}\n")
            # A folder of that name is none.
            os.remove(self.path(name))
            os.mkdir(self.path(name))
        given = self.serial("9600 DEVICE probe")
        self.is_so((given.status, given.out, given.err.split("\n")[0]),
                   (127, "", "ldaodt-serial: there is no ldaodt beside this script, nor on the PATH"))

    def test_command_lines_that_are_refused(self):
        for words, named in REFUSED:
            with self.subTest(words):
                given = self.serial(words)
                self.is_so((given.status, given.out, given.err.startswith("ldaodt-serial: "), named in given.err), (2, "", True, True))
                self.is_so(self.notes(), [])

    def test_help(self):
        given = self.serial("--help")
        self.is_so((given.status, given.err, self.serial("-h"), self.serial("help")), (0, "", given, given))
        self.assertLess(max(map(len, given.out.split("\n"))), 80)
        for word in (*SPEEDS, *TERMINALS, "--talk", "7e1"):
            self.assertIn(word, given.out)
        self.is_so(re.findall(r"^  (\d+) +(.*)$", given.out, re.MULTILINE), STATUSES)
        self.ends(self.serial(""), 2, "", given.out)


# A Python whose adapter has these flags, in a file, and may be refused a change of them.
ADAPTER = f"""#!{sys.executable}
import errno, fcntl, os, sys
def ioctl(line, request, told):
    assert os.ttyname(line) == os.environ["ADAPTER"], os.ttyname(line)
    with open(os.environ["FLAGS"]) as file:
        flags = int(file.read(), 8)
    if request == 0x541E:
        return told[:16] + flags.to_bytes(4, sys.byteorder) + bytes(range(20, len(told)))
    assert request == 0x541F and told[20:] == bytes(range(20, len(told))), told
    if "REFUSES" in os.environ:
        raise OSError(errno.EPERM, "so")
    with open(os.environ["FLAGS"], "w") as file:
        file.write(f"{{int.from_bytes(told[16:20], sys.byteorder):o}}")
fcntl.ioctl = ioctl
assert sys.argv[1] == "-Ic", sys.argv
code, sys.argv = sys.argv[2], ["-c", *sys.argv[3:]]
exec(code, {{"__name__": "__main__"}})
"""

# The flags of an adapter as it comes, and the one for low latency.
FLAGS, LOW_LATENCY = 0o100, 0o20000


class Adapters(Script):
    """Adapters that hold characters back: their flag for low latency, beside a stand-in for the calls, since no pseudo-terminal has it."""

    TOLD = "ldaodt-serial: low latency while this runs\n"

    def setUp(self):
        super().setUp()
        self.stand_in("bin/stty", "bin/minicom")
        self.stand_in("bin/python3", text=ADAPTER)
        self.stand_in("ldaodt", text='#!/bin/bash\ncat "$FLAGS"\n[ -t 3 ] || echo no device\necho " $*"\necho "end Started"\nexit "${ldaodt_ends-0}"\n')
        self.flags(FLAGS)
        text = bytes_of(self.path("tools/serial")).decode()
        self.assertEqual(text.count("/sys/bus/usb-serial/devices/"), 1)
        self.put("tools/serial", text.replace("/sys/bus/usb-serial/devices/", self.path("timers/")).encode())

    def flags(self, flags=None):
        if flags is not None:
            self.put("flags", f"{flags:o}".encode())
        return int(bytes_of(self.path("flags")), 8)

    def asked(self, words="300 DEVICE load a.lda", **more):
        return self.serial(words, env={"FLAGS": self.path("flags"), "ADAPTER": self.device, **more})

    def held(self, milliseconds):
        """An adapter whose timer is so long; returns what is told of it."""
        timer = self.path(f"timers/{os.path.basename(self.device)}/latency_timer")
        os.makedirs(os.path.dirname(timer), exist_ok=True)
        self.put(os.path.relpath(timer, self.room), f"{milliseconds}\n".encode())
        return f"ldaodt-serial: the adapter holds characters back for {milliseconds} ms: 'echo 1 | sudo tee {timer}' ends that\n"

    def test_it_is_set_while_the_program_runs(self):
        """And put back, however that ends; its status is the program's."""
        for status in (0, 5):
            given = self.asked(ldaodt_ends=str(status))
            self.ends(given, status, f"{FLAGS | LOW_LATENCY:o} load a.lda {self.device}\nend Started\n", self.TOLD)
            self.is_so(self.flags(), FLAGS)

    def test_behind_a_load(self):
        given = self.asked("300 DEVICE load a.lda --talk")
        self.is_so((given.status, given.out.split("\n")[0], given.err.startswith(self.TOLD)), (0, f"{FLAGS | LOW_LATENCY:o} load --listen 1 a.lda {self.device}", True))
        self.is_so((self.flags(), self.notes()[-1]), (FLAGS, "minicom -o -D DEVICE -b 300"))

    def test_one_that_has_it_keeps_it(self):
        self.flags(FLAGS | LOW_LATENCY)
        self.held(1)
        self.ends(self.asked(), 0, f"{FLAGS | LOW_LATENCY:o} load a.lda {self.device}\nend Started\n", "")
        self.is_so(self.flags(), FLAGS | LOW_LATENCY)

    def test_where_it_may_not_be(self):
        """It is said what ends that, where a timer says that the adapter holds anything back; without Python, too."""
        told = self.held(16)
        for more in ({"REFUSES": "1"}, None):
            if more is None:
                os.remove(self.path("bin/python3"))
            self.ends(self.asked(**(more or {})), 0, f"{FLAGS:o} load a.lda {self.device}\nend Started\n", told)
        self.held(1)
        self.ends(self.asked(), 0, f"{FLAGS:o} load a.lda {self.device}\nend Started\n", "")

    def test_what_would_end_it_is_handed_on(self):
        """To whom it was sent alone, or, as by Ctrl-C, to all; the flag is put back then, and the end is that of the program."""
        for name, number in (("TERM", signal.SIGTERM), ("HUP", signal.SIGHUP), ("INT", signal.SIGINT)):
            with self.subTest(name):
                env = {**os.environ, "PATH": self.path("bin"), "NOTES": self.path("notes"), "HELPS": self.path("helps"), "FLAGS": self.path("flags"),
                       "ADAPTER": self.device}
                self.stand_in("ldaodt", text='#!/bin/bash\ntrap "kill %1; exit 41" TERM\ntrap "kill %1; exit 42" HUP\ntrap "kill %1; exit 43" INT\n'
                              'cat "$FLAGS"; sleep 20 & echo " runs"; wait\n')
                heed = lambda: [signal.signal(it, signal.SIG_DFL) for it in (signal.SIGINT, signal.SIGHUP, signal.SIGTERM)]
                with subprocess.Popen([self.path("tools/serial"), "300", self.device, "probe"], cwd=self.room, env=env, stdin=subprocess.DEVNULL,
                                      stdout=subprocess.PIPE, stderr=subprocess.DEVNULL, text=True, start_new_session=True, preexec_fn=heed) as ran:
                    self.is_so(ran.stdout.readline(), f"{FLAGS | LOW_LATENCY:o} runs\n")
                    (os.killpg if number == signal.SIGINT else os.kill)(ran.pid, number)
                    ran.communicate(timeout=60)
                self.is_so((ran.returncode, self.flags()), ({"TERM": 41, "HUP": 42, "INT": 43}[name], FLAGS))

    def test_a_program_that_a_signal_ends(self):
        """So ends the script."""
        self.stand_in("ldaodt", text='#!/bin/bash\nkill -TERM $$\n')
        self.is_so((self.asked().status, self.flags()), (-signal.SIGTERM, FLAGS))


class Troubles(Script):
    """Devices that can't be used."""

    def setUp(self):
        super().setUp()
        self.stand_in("ldaodt")

    def is_trouble(self, given, device, reason, remedy):
        """It ends with 4, two lines, of which the first names the device and the reason, and calls no program."""
        first, second, rest = given.err.split("\n", 2)
        self.is_so((given.status, given.out, first, rest), (4, "", f"ldaodt-serial: cannot set {device} to 9600/8n1: {reason}", ""))
        self.assertIn(remedy, second)
        self.is_so([it for it in self.notes() if it.startswith("ldaodt")], [])

    def test_what_stty_says(self):
        self.stand_in("bin/stty")
        for said, reason, remedy in TROUBLES:
            with self.subTest(said):
                given = self.serial("9600 DEVICE probe", env={"stty_says": said.replace("DEVICE", self.device), "stty_ends": "1"})
                self.is_trouble(given, self.device, reason, remedy.replace("DEVICE", self.device))

    def test_the_words_of_stty_are_read_in_no_other_language(self):
        """The program's are the person's own."""
        self.stand_in("bin/stty", text="#!/bin/bash\necho \"stty: it: $LC_ALL\" >&2\nexit 1\n")
        self.is_trouble(self.serial("9600 DEVICE probe", env={"LC_ALL": "C.UTF-8"}), self.device, "C", "step 3")
        self.stand_in("bin/stty")
        self.stand_in("ldaodt", text="#!/bin/bash\necho \"$LC_ALL\"\n")
        self.ends(self.serial("9600 DEVICE probe", env={"LC_ALL": "C.UTF-8"}), 0, "C.UTF-8\n")

    def test_names_that_are_no_device(self):
        self.put("plain", b"")
        os.symlink("nothing", self.path("gone"))
        for name, reason, remedy in (
            ("./nothing", "No such file or directory", "by-id"),
            ("./gone", "No such file or directory", "by-id"),
            ("./plain/device", "Not a directory", "step 3"),
            # As udev names an adapter by its place, which is unplugged here: no bridge's name has a slash.
            ("./by-path/pci-0000:00:14.0-usb", "No such file or directory", "by-id"),
            ("./plain", "not a serial device", "/dev/ttyACM0"),
            ("/dev", "not a serial device", "/dev/ttyACM0"),
            ("/dev/null", "Inappropriate ioctl for device", "/dev/ttyACM0"),
        ):
            with self.subTest(name):
                self.is_trouble(self.serial(["9600", name, "probe"], lone=False), name, reason, remedy)
        self.is_so(sorted(set(os.listdir(self.room)) & {"nothing", "plain"}), ["plain"])

    def test_a_device_that_may_not_be_opened(self):
        """The superuser may open each, so that another user tries it then."""
        is_root = os.geteuid() == 0
        os.chmod(self.device, 0o600 if is_root else 0)
        os.chmod(self.room, 0o777)
        self.put("notes", b"")
        os.chmod(self.path("notes"), 0o666)
        whose = {"user": 65534} if is_root else {}
        self.is_trouble(self.serial("9600 DEVICE probe", lone=False, **whose), self.device, "Permission denied", "dialout")
        if is_root:
            os.chown(self.device, -1, ANOTHER_GROUP)
        # Its own group is told, and not that of a link to it.
        os.symlink(self.device, self.path("line"))
        group = grp.getgrgid(os.stat(self.device).st_gid).gr_name
        self.is_trouble(self.serial("9600 ./line probe", lone=False, **whose), "./line", "Permission denied", f"you may lack the group {group}, ")

    def test_a_device_that_somebody_has(self):
        """Whoever locks it, as each load does, keeps the settings that it has."""
        self.stand_in("bin/stty")
        fcntl.flock(self.theirs, fcntl.LOCK_EX)
        given = self.serial("9600 DEVICE probe")
        noted = self.notes()
        self.is_so(noted, ["stty -F DEVICE clocal -hupcl"])
        self.put("notes", b"")
        self.is_trouble(given, self.device, "in use by another program", "fuser -v")
        # What is told can be pasted, also where its name has a space.
        os.symlink(self.device, self.path("my line"))
        self.is_trouble(self.serial(["9600", "./my line", "probe"]), "./my\\ line", "in use by another program", "'fuser -v ./my\\ line'")
        fcntl.flock(self.theirs, fcntl.LOCK_UN)
        self.ends(self.serial("9600 DEVICE probe"), 0)

    def test_a_name_without_a_slash(self):
        """It is one of this folder; where there is none, one of that name in /dev is pointed to."""
        self.stand_in("bin/stty")
        os.symlink(self.device, self.path("ttyUSB0"))
        self.ends(self.serial("9600 ttyUSB0 probe"), 0)
        self.is_so([self.notes()[it] for it in (0,)], ["stty -F ./ttyUSB0 clocal -hupcl"])
        self.ends(self.serial("9600 null probe"), 4, "", "ldaodt-serial: there is no null in this folder\nsay /dev/null\n")


# A program that says of a speed what the test has of it, and of any other that nothing was heard.
PROBING = """#!/bin/bash
setting=$(stty -F "${@: -1}" speed)
case $(stty -F "${@: -1}" -a) in
    *cs7*) setting+=/7e1 ;;
    *' cstopb'*) setting+=/8n2 ;;
esac
echo "$setting: ldaodt $*" >> "$NOTES"
report=report_${setting//\\//_} status=status_${setting//\\//_}
printf %s "${!report-prompt no
heard nothing
help: docs/REAL-MACHINE.md, \"Nothing answers\"
end NoPrompt
}"
exit "${!status-5}"
"""

PROBED = "prompt yes\nstyle 0\nkeeps small letters not known\nforgets digits yes\nmemory 000000 to 157776\nkey 2.1 ms\na load of 28672 words takes 31 minutes at this pace\nend Probed\n"
STORES = "prompt yes\nstyle 0\nkeeps small letters not known\nforgets digits no: do not load this machine\nthe word at 001000 holds 000000 again\nend NotTrusted\n"
NO_WORD = "prompt yes\nend NoWord 001000\n"
BAD_LINE = "prompt yes\nheard ?\\r\\n@00\nhelp: so\nstyle 0\nkeeps small letters not known\nforgets digits not known\nend GaveUp\n"
PROMPT = "prompt yes\nheard @001000/00000\nhelp: so\nend GaveUp\n"
OTHERS = "prompt yes\nheard @001000/0000000\nhelp: so\nend GaveUp\n"
TALKS = "prompt no\nheard S\\r\\nMEMORY TEST PAS\nhelp: so\nend TurnsOver\n"
BROKEN = "prompt yes\nstyle 0\nkeeps small letters not known\nforgets digits not known\nthe word at 001000 held 000000, now look at it\nend LineFailed\n"

# What a scan tries of a pseudo-terminal, which knows no 7 bits.
TRIED = [it for it in SETTINGS_TRIED if not it.endswith("/7e1")]

# The setting of a report, the report, its status; how many are tried, how the scan ends, what it says of that setting, and what is to be
# written then.
SCANS = (
    # The speeds that most have come first, and the last one is tried, too.
    (9600, PROBED, 0, 1, 0, "an ODT answers\n" + PROBED, "load TAPE"),
    (110, PROBED, 0, 8, 0, "an ODT answers\n" + PROBED, "load TAPE"),
    ("9600/8n2", PROBED, 0, 9, 0, "an ODT answers\n" + PROBED, "load TAPE"),
    ("110/8n2", PROBED, 0, 16, 0, "an ODT answers\n" + PROBED, "load TAPE"),
    # An ODT that may not be loaded answers, too; and so does one that has no word there, or is behind a bad line.
    (300, STORES, 5, 2, 0, "an ODT answers\n" + STORES, "probe"),
    (300, NO_WORD, 5, 2, 0, "an ODT answers\n" + NO_WORD, "probe"),
    (300, BAD_LINE, 5, 2, 0, "an ODT answers\n" + BAD_LINE, "probe"),
    # A prompt alone is none.
    (300, PROMPT, 5, 16, 5, "no ODT, heard @001000/00000\n", None),
    # Longer numbers come at the right speed alone.
    (300, OTHERS, 5, 2, 5, "no ODT of 16 bits, heard @001000/0000000\n", None),
    # What never falls silent does so at no speed.
    (300, TALKS, 5, 2, 5, "no ODT, heard S\\r\\nMEMORY TEST PAS\n", None),
    # A line that fails is no matter of a speed; what was left in the machine is told.
    (300, BROKEN, 4, 2, 4, BROKEN, None),
    (300, "", 4, 2, 4, "", None),
    # Nor is want of memory, or another program at the device: any end but a probe's own two.
    (300, "", 7, 2, 7, "", None),
)


class Scans(Script):
    """At which speed an ODT answers."""

    def setUp(self):
        super().setUp()
        os.symlink(shutil.which("stty"), self.path("bin/stty"))

    def test_what_is_tried_and_said(self):
        self.stand_in("ldaodt", text=PROBING)
        for setting, report, status, count, ended, said, written in SCANS:
            with self.subTest(setting, report=report):
                name = str(setting).replace("/", "_")
                given = self.serial("scan DEVICE", env={f"report_{name}": report, f"status_{name}": str(status)})
                self.is_so(self.notes(), [f"{it}: ldaodt probe --quiet {SCAN_QUIET} DEVICE" for it in TRIED[:count]])
                lines = {it: f"{it}: no ODT, heard nothing\n" for it in TRIED[:count]}
                lines[str(setting)] = said if ended in (4, 7) else f"{setting}: {said}"
                if count > len(SPEEDS):
                    lines[SPEEDS[-1]] += "9600/7e1: this device can't be set so\n"
                wanted = "".join(lines.values()) + (f"now write: {self.path('tools/serial')} {setting} {self.device} {written}\n" if written else "")
                self.is_so((given.status, given.out), (ended, wanted))
                kind = " of 16 bits" if report == OTHERS else ""
                self.is_so(given.err.split("\n")[0], f"ldaodt-serial: no ODT{kind} answers at {self.device}" if ended == 5 else "")

    def test_settings_that_a_pseudo_terminal_does_not_know(self):
        """With a `stty` that sets nothing each is tried in its turn, up to the one that answers, as it is set."""
        os.remove(self.path("bin/stty"))
        self.stand_in("bin/stty")
        self.stand_in("ldaodt", text='#!/bin/bash\n[ "$(grep -c " cs7 " "$NOTES")" = 3 ] && '
                      '{ echo "prompt yes"; echo "style 0"; exit 0; }\necho "heard nothing"\nexit 5\n')
        given = self.serial("scan DEVICE")
        tried = SETTINGS_TRIED[:SETTINGS_TRIED.index("1200/7e1") + 1]
        self.is_so([it.split(":")[0] for it in given.out.splitlines() if re.match(r"\d+(/\w+)?: ", it)], tried)
        self.is_so((given.status, given.out.splitlines()[-1]), (0, f"now write: {self.path('tools/serial')} 1200/7e1 {self.device} load TAPE"))
        set_to = [it.removeprefix("stty ") for it in self.notes() if " raw " in it]
        self.is_so(set_to[::len(set_to) - 1], [SETTINGS["9600"], SETTINGS["9600/7e1"].replace("9600", "1200")])

    def test_what_a_terminal_is_told(self):
        """How long it may take, once, and not what the program tells a terminal of each probe; its faults are handed on."""
        self.stand_in("ldaodt", text='#!/bin/bash\n[ ! -t 2 ] || echo mostly 8 seconds >&2\necho a fault >&2\necho "heard nothing"\nexit $((++tries < 2 ? 5 : 4))\n')
        ours, theirs = pty.openpty()
        with open(ours, "rb", buffering=0) as screen, open(theirs, "wb", buffering=0) as terminal:
            env = {**os.environ, "PATH": self.path("bin"), "NOTES": self.path("notes"), "HELPS": self.path("helps"), "tries": "1"}
            subprocess.run([self.path("tools/serial"), "scan", self.device], cwd=self.room, env=env, stdin=subprocess.DEVNULL, stdout=subprocess.DEVNULL, stderr=terminal, timeout=60)
            self.is_so(screen.read(4096), b"ldaodt-serial: up to 24 settings, at each some seconds\r\na fault\r\n")

    def test_what_is_to_be_written_can_be_written(self):
        """Names with a space, of the script and of its device: the line is one for a shell."""
        self.stand_in("ldaodt", text=PROBING)
        os.makedirs(self.path("my tools"))
        shutil.copy(self.path("tools/serial"), self.path("my tools/serial"))
        os.symlink(self.device, self.path("my line"))
        given = self.serial(["scan", "./my line"], script=self.path("my tools/serial"), env={"report_9600": PROBED, "status_9600": "0"})
        written = given.out.split("now write: ")[1].replace("load TAPE", "probe")
        self.notes()
        env = {**os.environ, "PATH": self.path("bin"), "NOTES": self.path("notes"), "HELPS": self.path("helps")}
        ran = subprocess.run(["bash", "-c", written], cwd=self.room, env=env, capture_output=True, timeout=60)
        self.is_so((ran.returncode, self.notes()), (5, ["9600: ldaodt probe --quiet 500 ./my line"]))

    def test_an_interrupt(self):
        """Ctrl-C ends the scan, and no other speed is tried."""
        self.stand_in("ldaodt", text="#!/bin/bash\necho probes >> \"$NOTES\"\nkill -INT 0\nsleep 20\n")
        heed = lambda: signal.signal(signal.SIGINT, signal.SIG_DFL)
        given = self.serial("scan DEVICE", start_new_session=True, preexec_fn=heed)
        self.is_so((given.status in (130, -signal.SIGINT), given.out, self.notes()), (True, "", ["probes"]))

    def test_a_device_that_goes_between_two_speeds(self):
        self.stand_in("ldaodt", text="#!/bin/bash\nrm ./line\necho 'heard nothing'\nexit 5\n")
        os.symlink(self.device, self.path("line"))
        given = self.serial("scan ./line")
        self.is_so((given.status, given.out), (4, "9600: no ODT, heard nothing\n"))
        self.is_so(given.err.split("\n")[0], "ldaodt-serial: cannot set ./line to 300/8n1: No such file or directory")


class Terminals(Script):
    """A terminal at the machine."""

    def setUp(self):
        super().setUp()
        self.stand_in("bin/stty", "ldaodt")

    def test_each_terminal_and_which_of_several(self):
        """The first one of those that are installed is called."""
        self.stand_in(*(f"bin/{it}" for it in TERMINALS))
        for name in TERMINALS:
            with self.subTest(name):
                given = self.serial("9600/7e1 DEVICE talk", env={f"{name}_ends": "3"})
                self.is_so((given.status, given.out, "leaves" in given.err and "BREAK" in given.err), (3, "", True))
                self.is_so(self.notes()[-2:], ["DEVICE", TERMINAL_WORDS[name]])
            os.remove(self.path(f"bin/{name}"))

    def test_what_tio_is_told(self):
        """By words: none, odd or even, and how many bits."""
        self.stand_in("bin/tio")
        for speed, words in (("9600", "-b 9600 -d 8 -p none -s 1"), ("1200/7o2", "-b 1200 -d 7 -p odd -s 2"), ("300/7e1", "-b 300 -d 7 -p even -s 1")):
            self.is_so(self.serial(f"{speed} DEVICE talk").status, 0)
            self.is_so(self.notes()[-1], f"tio -n {words} -f none DEVICE")

    def test_where_there_is_none(self):
        """Nothing is set and nothing loaded."""
        for words in ("9600 DEVICE talk", "9600 DEVICE load a.lda --talk"):
            self.ends(self.serial(words), 127, "", "ldaodt-serial: no terminal program is installed\n'sudo apt install picocom', or tio, or minicom\n")
            self.is_so(self.notes(), [])

    def test_what_minicom_is_told(self):
        """By default it waits for handshake lines. What tells it goes again."""
        self.stand_in("bin/minicom", text='#!/bin/bash\nwhile IFS= read -r line; do echo "$line"; done < "$HOME/.minirc.dfl"\n')
        self.is_so(self.serial("9600/7o2 DEVICE talk").out, "pu rtscts No\npu bits 7\npu parity O\npu stopbits 2\n")
        self.is_so([it for it in os.listdir(self.room) if it.startswith("tmp.")], [])

    def test_the_keyboard_behind_a_load_of_standard_input(self):
        """The terminal has it, where the tape came from a file."""
        self.stand_in("bin/minicom", text='#!/bin/bash\nread -r line\necho "typed: $line" >> "$NOTES"\n')
        self.stand_in("ldaodt", text='#!/bin/bash\nread -r line\necho "tape: $line" >> "$NOTES"\n')
        self.put("tape", b"a tape\nand more\n")
        env = {**os.environ, "PATH": self.path("bin"), "NOTES": self.path("notes"), "HELPS": self.path("helps"), "TMPDIR": self.room}
        person, status = pty.fork()
        if not person:
            os.chdir(self.room)
            os.execve("/bin/bash", ["bash", "-c", f"tools/serial 9600 {self.device} load - --talk < tape"], env)
        os.write(status, b"by hand\n")
        with contextlib.suppress(OSError):
            while os.read(status, 4096):
                pass
        os.close(status)
        os.waitpid(person, 0)
        self.is_so(self.notes()[-2:], ["tape: a tape", "typed: by hand"])

    def test_nothing_is_left_behind(self):
        """Of the report no file stays, however a load ends, while it goes on, too."""
        self.stand_in("bin/minicom")
        self.stand_in("ldaodt", text='#!/bin/bash\nls "$TMPDIR" >> "$NOTES"\necho first\necho "end Started"\nkill "-${killed-CONT}" "$PPID"\nexit "${ended-0}"\n')
        for more, status in (({}, 0), ({"ended": "5"}, 5), ({"killed": "KILL"}, -signal.SIGKILL)):
            with self.subTest(more=more):
                self.is_so(self.serial("9600 DEVICE load a.lda --talk", env=more).status, status)
                self.is_so([it for it in [*self.notes(), *os.listdir(self.room)] if it.startswith("tmp.")], [])

    def test_nothing_is_left_behind_where_a_name_has_a_space(self):
        """Nor does anything else go: what stands beside that by a part of its name."""
        self.stand_in("bin/minicom")
        for name in ("a b", "a"):
            os.mkdir(self.path(name))
        for words in ("talk", "load a.lda --talk"):
            self.is_so(self.serial(f"300 DEVICE {words}", env={"TMPDIR": self.path("a b")}).status, 0)
            self.is_so((os.listdir(self.path("a b")), os.path.isdir(self.path("a"))), ([], True))

    def test_what_was_said_before_at_a_device_whose_name_has_a_space(self):
        """It is shown, as at any other."""
        os.symlink(self.device, self.path("tty USB0"))
        for terminal in ("picocom", "tio"):
            self.stand_in(f"bin/{terminal}")
            os.write(self.ours, b"KEPT\n")
            given = self.serial(["300", "./tty USB0", "load", "a.lda", "--talk"])
            self.is_so((given.status, given.out), (0, "KEPT\n"))
            os.remove(self.path(f"bin/{terminal}"))

    def test_behind_an_interrupt(self):
        """Ctrl-C ends the program's listening alone; what it says then is heard, and the terminal begins."""
        self.stand_in("bin/minicom")
        self.stand_in("ldaodt", text='#!/bin/bash\ntrap "echo heard; trap - INT; kill -INT \$\$" INT\necho first\necho "end Started"\nsleep 0.5\nkill -INT 0\nsleep 1\n')
        heed = lambda: signal.signal(signal.SIGINT, signal.SIG_DFL)
        given = self.serial("9600 DEVICE load a.lda --talk", start_new_session=True, preexec_fn=heed)
        self.is_so((given.status, given.out), (0, "first\nend Started\nheard\n"))
        self.is_so(self.notes()[-1], "minicom -o -D DEVICE -b 9600")

    def test_behind_an_early_interrupt(self):
        """What shows the report has not begun to work then."""
        os.remove(self.path("bin/tee"))
        self.stand_in("bin/tee", text=f'#!/bin/bash\nsleep 1\nexec {shutil.which("tee")} "$@"\n')
        self.test_behind_an_interrupt()

    def test_what_a_terminal_heeds(self):
        """Interrupts, which this script ignored while it loaded."""
        self.stand_in("bin/minicom", text='#!/bin/bash\ngrep SigIgn "/proc/$$/status" >> "$NOTES"\n')
        given = self.serial("9600 DEVICE load a.lda --talk", preexec_fn=lambda: signal.signal(signal.SIGINT, signal.SIG_DFL))
        self.is_so(given.status, 0)
        self.is_so(int(self.notes()[-1].split()[1], 16) & 1 << signal.SIGINT - 1, 0)

    def test_behind_a_load(self):
        """One that ended well, and has listened for a second or as long as it was told to; no option of that is the program's."""
        self.stand_in("bin/minicom")
        for words, called in (
            ("load --talk a.lda", "load --listen 1 a.lda DEVICE"),
            ("load --talk -- a.lda", "load --listen 1 -- a.lda DEVICE"),
            ("load a.lda b.lda --talk --listen 5", "load a.lda DEVICE b.lda --listen 5"),
            ("load a.lda --listen=5 --talk", "load a.lda DEVICE --listen=5"),
        ):
            with self.subTest(words):
                self.is_so(self.serial(f"300 DEVICE {words}", env={"minicom_ends": "3"}).status, 3)
                self.is_so(self.notes()[-2:], [f"ldaodt {called}", "minicom -o -D DEVICE -b 300"])
        # 130 is an interrupt, here of a load that started nothing.
        for status in (*range(1, 8), 130):
            self.ends(self.serial("300 DEVICE load a.lda --talk", env={"ldaodt_ends": str(status)}), status)
            self.is_so(self.notes()[-1], "ldaodt load --listen 1 a.lda DEVICE")

    def test_behind_a_load_at_a_slow_line(self):
        """It has the quiet time of that, too."""
        self.stand_in("bin/minicom")
        given = self.serial("110 DEVICE load a.lda --talk")
        self.is_so((given.status, given.err.split("\n")[0]), (0, "ldaodt-serial: --quiet 4100: at 110 baud 34 characters take 3400 ms"))
        self.is_so(self.notes()[-2], "ldaodt load --listen 1 --quiet 4100 a.lda DEVICE")


class Machines(Script):
    """With the real `stty` and the program, at a machine whose device is set as a terminal is."""

    def setUp(self):
        super().setUp()
        self.put_tapes("first.lda")
        os.symlink(PROGRAM, self.path("ldaodt"))
        os.symlink(shutil.which("stty"), self.path("bin/stty"))

    def machine(self, machine):
        line = self.device_at(machine, settings="sane 300")
        self.device = line.name
        return line

    def begin(self, words):
        """Begins a command, as at a terminal: in a group of its own, to be interrupted as a whole."""
        env = {**os.environ, "PATH": self.path("bin"), "NOTES": self.path("notes")}
        heed = lambda: signal.signal(signal.SIGINT, signal.SIG_DFL)
        process = subprocess.Popen([self.path("tools/serial"), *words.replace("DEVICE", self.device).split()], cwd=self.room, env=env, text=True,
                                   stdin=subprocess.DEVNULL, stdout=subprocess.PIPE, stderr=subprocess.PIPE, start_new_session=True, preexec_fn=heed)
        self.addCleanup(process.communicate)
        self.addCleanup(process.kill)
        return process

    def until_it_loads(self, process, line):
        """Waits until the program of such a command has the device; before, the script looks whether it is free."""
        until = time.monotonic() + 60
        # An emulator names the program behind words of its own.
        has_begun = lambda: re.search(r"/ldaodt\S* load ", subprocess.run(["ps", "-s", str(process.pid), "-o", "args="], capture_output=True, text=True).stdout)
        while not (has_begun() and is_locked(line)):
            self.assertLess(time.monotonic(), until, "it never came to that")
            time.sleep(0.01)

    def test_how_the_device_is_set_then(self):
        """No load succeeds at a device that is set as a terminal is, and none with an echo."""
        line = self.machine(Console())
        self.ends(self.serial(f"1200 DEVICE load first.lda --quiet {self.quiet}"), 0, STARTED)
        line.settle()
        self.is_so((line.machine.word(0o1000), line.machine.starts), (0o011064, [0o1000]))
        inputs, outputs, control, local, *speeds = termios.tcgetattr(line.theirs)[:6]
        self.is_so(inputs & (termios.ICRNL | termios.INLCR | termios.IGNCR | termios.ISTRIP | termios.IXON | termios.IXOFF), 0)
        self.is_so(outputs & termios.OPOST, 0)
        self.is_so(local & (termios.ECHO | termios.ICANON | termios.ISIG), 0)
        framing = termios.CSIZE | termios.PARENB | termios.CSTOPB | termios.CRTSCTS | termios.CLOCAL | termios.HUPCL
        self.is_so(control & framing, termios.CS8 | termios.CLOCAL)
        self.is_so(speeds, [termios.B1200, termios.B1200])

    def test_each_command(self):
        self.machine(Console(memory={0o1000: 0o011064}))
        for command in reversed(AT_A_MACHINE):
            with self.subTest(command.name):
                given = self.serial(f"9600 DEVICE {without_line(command)} --quiet {self.quiet}")
                self.is_so((given.status, given.out.split("\n")[-2], given.err), (0, f"end {command.end}", ""))

    def test_a_command_that_is_none(self):
        """The program says so."""
        given = self.serial("9600 DEVICE frobnicate")
        self.is_so((given.status, given.out, given.err.split("\n")[0]), (2, "", "error: unrecognized subcommand 'frobnicate'"))

    def test_what_a_pseudo_terminal_can_not_be_set_to(self):
        """As an adapter that knows no 7 bits: nothing is typed. What it can be set to it is: behind `raw`, which would take it back, stands
        what drops a character of the wrong parity."""
        line = self.machine(Console())
        given = self.serial("9600/7e1 DEVICE probe")
        self.is_so((given.status, given.out, "to 9600/7e1: " in given.err, "does not know this speed, or these bits" in given.err), (4, "", True, True))
        line.settle()
        self.is_so(line.machine.typed, "")
        self.is_so(termios.tcgetattr(line.theirs)[0] & (termios.INPCK | termios.IGNPAR | termios.PARMRK | termios.ISTRIP), termios.INPCK | termios.IGNPAR)

    def test_beside_a_load(self):
        """The load goes on at its speed."""
        line = self.machine(Console())
        first = self.begin("1200 DEVICE load first.lda --quiet 10000")
        self.until_it_loads(first, line)
        for words in ("300 DEVICE probe", "scan DEVICE", "300 DEVICE load first.lda"):
            given = self.serial(words)
            self.is_so((given.status, "in use by another program" in given.err), (4, True))
        self.is_so((first.communicate(timeout=60), first.returncode), ((STARTED, ""), 0))
        self.is_so(termios.tcgetattr(line.theirs)[4], termios.B1200)

    def test_a_scan(self):
        """At a wrong speed nothing is typed but `Z`."""
        line = self.machine(Paced(termios.B300))
        line.machine.device = line
        given = self.serial("scan DEVICE")
        self.assertRegex(given.out, r"\A9600: no ODT, heard ~+\n300: an ODT answers\nprompt yes\n(.*\n)+end Probed\nnow write: \S+ 300 \S+ load TAPE\n\Z")
        self.is_so((given.status, given.err, set(line.machine.unheard)), (0, "", {"Z"}))

    def test_a_scan_of_a_console_with_longer_numbers(self):
        """It is found at its speed, and not passed over."""
        self.machine(WideConsole())
        given = self.serial("scan DEVICE")
        self.assertRegex(given.out, r"\A9600: no ODT of 16 bits, heard .*@001000/0000000\n\Z")
        self.is_so(given.status, 5)

    def test_what_is_said_until_a_terminal_begins(self):
        """It is shown, though the terminal throws away what waits for it; and what comes then is the terminal's. `tio` would end where
        somebody else reads, too, so that nobody does once it has begun."""
        for terminal, shown in (("picocom", "KEPT LATER"), ("tio", "LATER")):
            with self.subTest(terminal):
                self.machine(Talking())
                self.stand_in(f"bin/{terminal}", text=FLUSHING)
                given = self.serial(f"9600 DEVICE load first.lda --quiet {self.quiet} --talk")
                self.is_so((given.status, given.out), (7, f"{STARTED}{shown}\n"))
                os.remove(self.path(f"bin/{terminal}"))

    def test_an_interrupt_while_it_listens(self):
        """A program that prints for ever is interrupted, and talked with."""
        self.machine(Console(says=[(0.1, "END PASS\r\n")] * 300))
        self.stand_in("bin/minicom")
        process = self.begin(f"9600 DEVICE load first.lda --quiet {self.quiet} --talk")
        for line in process.stdout:
            if "END PASS" in line:
                break
        os.killpg(process.pid, signal.SIGINT)
        process.communicate(timeout=60)
        self.is_so((process.returncode, self.notes()[-1]), (0, "minicom -o -D DEVICE -b 9600"))

    def test_an_interrupt_in_a_load(self):
        """No terminal follows it."""
        line = self.machine(Console())
        self.stand_in("bin/minicom")
        process = self.begin("9600 DEVICE load first.lda --quiet 60000 --talk")
        self.until_it_loads(process, line)
        os.killpg(process.pid, signal.SIGINT)
        process.communicate(timeout=60)
        self.is_so((process.returncode, os.path.exists(self.path("notes"))), (130, False))

    def test_the_simulated_machine(self):
        """`tools/machine` runs what it is loaded with."""
        shutil.copyfile(HELLO, self.path("hello.lda"))
        subprocess.run([f"{TOP}/tools/machine", "./ttyUSB0"], cwd=self.room, check=True, stdout=subprocess.DEVNULL)
        self.addCleanup(os.remove, self.path("ttyUSB0"))
        given = self.serial(f"9600 ttyUSB0 load hello.lda --record hello.record --listen 1 --quiet {max(300, self.quiet)}")
        self.ends(given, 0, "sent 610 spent 0 verified 28 of 28\nend Started\nHELLO FROM THE LSI-11\r\n\r\n001040\r\n@")


class Installed(Script):
    """Where `make install` and `make dist` put it: beside the program, which it finds there."""

    def setUp(self):
        super().setUp()
        self.top = self.path("repository")
        for folder in ("docs", "examples", "tools"):
            shutil.copytree(f"{TOP}/{folder}", f"{self.top}/{folder}")
        os.mkdir(f"{self.top}/tests")
        for name in ("README.md", "CHANGELOG.md", "CONTRIBUTING.md", "Makefile", "tests/README.md"):
            shutil.copy(f"{TOP}/{name}", f"{self.top}/{name}")
        self.stand_in("bin/stty", "repository/ldaodt")

    def lay_out(self, *words):
        env = {**os.environ, "NOTES": self.path("notes"), "PATH": f"{self.path('bin')}:{os.environ['PATH']}"}
        return subprocess.run([f"{self.top}/tools/lay-out", *words], env=env, capture_output=True, text=True, check=True).stdout

    def test_below_a_folder_and_gone_again(self):
        self.lay_out("install", self.path("a prefix"))
        self.ends(self.serial("300 DEVICE probe", script=self.path("a prefix/bin/ldaodt-serial")), 0)
        self.is_so(self.notes()[-1], "ldaodt probe DEVICE")
        self.assertTrue(os.path.exists(self.path("a prefix/share/man/man1/ldaodt-serial.1")))
        # What it says names the page that is installed.
        given = self.serial(["300", "./nothing/it", "probe"], script=self.path("a prefix/bin/ldaodt-serial"), env={"stty_says": "so", "stty_ends": "1"})
        named = given.err.split("\n")[1].split(", step")[0]
        self.is_so((given.status, named), (4, self.path("a prefix/share/doc/ldaodt/docs/REAL-MACHINE.md")))
        self.lay_out("uninstall", self.path("a prefix"))
        self.is_so([name for _, _, files in os.walk(self.path("a prefix")) for name in files], [])

    def test_in_the_archive(self):
        """Beside the program, and where the documents have it."""
        self.stand_in("repository/ldaodt", text='#!/bin/bash\n[ "$1" != --version ] || echo "ldaodt 0.0.0"\necho "$*" >> "$NOTES"\n')
        # A script has no processor in its head.
        self.stand_in("bin/od", text="#!/bin/bash\necho 62\n")
        archive = self.lay_out("dist").strip()
        subprocess.run(["tar", "-C", self.room, "-xf", f"{self.top}/{archive}"], check=True)
        for name in ("ldaodt-serial", "tools/serial"):
            self.ends(self.serial("300 DEVICE probe", script=self.path(f"ldaodt-0.0.0/{name}")), 0)
            self.is_so(self.notes()[-1], "probe DEVICE")
            given = self.serial(["300", "./nothing/it", "probe"], script=self.path(f"ldaodt-0.0.0/{name}"), env={"stty_says": "so", "stty_ends": "1"})
            self.is_so(given.err.split("\n")[1].split(", step")[0], self.path("ldaodt-0.0.0/docs/REAL-MACHINE.md"))
        self.assertTrue(os.path.exists(self.path("ldaodt-0.0.0/docs/ldaodt-serial.1")))


if __name__ == "__main__":
    unittest.main()
