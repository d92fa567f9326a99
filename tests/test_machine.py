"""`tools/machine`, the simulated machine of the pages, and `tools/odt_peer.py`, also where what is started runs: programs that print, hear, are
interrupted, wait, go on for ever and halt; the HALT switch, bad memory, losses, changes, speeds, and a line that breaks while a program prints."""
import contextlib
import glob
import importlib.machinery
import importlib.util
import os
import select
import signal
import socket
import subprocess
import sys
import termios
import time
import unittest
import unittest.mock

from cases import Case, LossyRunningConsole, RunningConsole
from outside import TOP, bytes_of
from programs import COMPUTING, ECHO, ENDLESS, HELLO_TEXT, SILENT, WAITING, placed, words_of_hello
from stub_listing import CHUNK, HALTED, answered, stub_words, typed

# Some bytes of a chunk.
PART = 16

SECONDS = 20

def is_there(end, seconds):
    return bool(select.select([end], [], [], seconds)[0])


class Terminal:
    """A person at a machine's console."""

    def __init__(self, read, write):
        self.end, self.read, self.write = *read, write
        self.heard = ""

    def types(self, keys):
        self.write(keys.encode("latin-1"))

    def hears(self, ending):
        """All that came up to an ending, which is then forgotten."""
        limit = time.monotonic() + SECONDS
        while not self.heard.endswith(ending):
            if not is_there(self.end, limit - time.monotonic()) or not (got := self.read(1)):
                raise AssertionError(f"it is {self.heard!r:.500} and does not end with {ending!r}")
            self.heard += got.decode("latin-1")
        heard, self.heard = self.heard, ""
        return heard

    def hears_nothing(self, seconds=0.2):
        return not is_there(self.end, seconds)

    def puts(self, words):
        """Deposits words."""
        for address, word in words.items():
            self.types(f"{address:06o}/")
            self.hears(f"{address:06o}/000000 ")
            self.types(f"{word:06o}\r")
            self.hears(f"{word:06o}\r\n@")

    def starts(self, address=0o1000):
        self.types(f"{address:06o}G")
        self.hears(f"{address:06o}G")


class Machine(Case):
    """The command."""

    def switched_on(self, options=""):
        """A person at a machine that was switched on."""
        path = self.path("lsi11")
        told = subprocess.run([f"{TOP}/tools/machine", *options.split(), path], capture_output=True, text=True, timeout=60, check=True)
        self.is_so(told.stdout, f"{path} is the console of a simulated LSI-11, until it is removed: rm {path}\n")
        self.addCleanup(self.switch_off)
        end = os.open(path, os.O_RDWR | os.O_NOCTTY)
        self.addCleanup(os.close, end)
        return Terminal((end, lambda size: os.read(end, size)), lambda keys: os.write(end, keys))

    def switch_off(self):
        if os.path.islink(self.path("lsi11")):
            os.remove(self.path("lsi11"))

    def process(self):
        """The process of the machine; none where there is none any more."""
        for path in glob.glob("/proc/[0-9]*/cmdline"):
            words = bytes_of_process(path).split(b"\0")
            if self.path("lsi11").encode() in words and any(it.endswith(b"tools/machine") for it in words):
                return int(path.split("/")[2])
        return None

    def waits(self, is_so):
        """Waits until something is so; returns whether it became so."""
        end = time.monotonic() + SECONDS
        while not is_so() and time.monotonic() < end:
            time.sleep(0.05)
        return is_so()

    def test_hello(self):
        it = self.switched_on()
        it.puts(words_of_hello())
        for _ in range(2):
            it.starts()
            self.is_so(it.hears("@"), f"{HELLO_TEXT}\r\n001040\r\n@")
        # Elsewhere there is another program: a HALT.
        it.starts(0o4000)
        self.is_so(it.hears("@"), "\r\n004002\r\n@")

    def test_how_much_memory(self):
        for options, end in (("", 0o160000), ("--words 4096", 0o20000)):
            it = self.switched_on(options)
            self.is_so((self.looks(it, end - 2), self.looks(it, end)), (0, None))
            self.switch_off()

    def test_each_style(self):
        """A space behind the `/`, a second CR, an illegal key that is echoed."""
        for style in range(8):
            it = self.switched_on(f"--style {style}")
            prompt = "\r\r\n@" if style & 2 else "\r\n@"
            it.types("Z")
            self.is_so(it.hears("@"), f"{'Z?' if style & 4 else '?'}{prompt}")
            it.types("1000/\r")
            self.is_so(it.hears("@"), f"1000/{' ' if style & 1 else ''}000000 {prompt}")
            self.switch_off()

    def test_a_program_that_is_interrupted(self):
        """It hears each key that is typed, prints it, and halts at Z; ODT then has the next key."""
        it = self.switched_on("--style 2")
        for address, word in placed(ECHO).items():
            it.types(f"{address:06o}/{word:06o}\r")
            it.hears("@")
        it.starts()
        for key in "AB12/G":
            it.types(key)
            it.hears(key)
        it.types("Z")
        self.is_so(it.hears("@"), "Z\r\r\n001062\r\r\n@")
        it.types("60/")
        self.is_so(it.hears("/001040 "), "60/001040 ")

    def test_a_program_that_only_waits(self):
        """It leaves this computer alone, and goes on at the next key."""
        it = self.switched_on()
        it.puts(placed(WAITING))
        it.starts()
        self.assertTrue(it.hears_nothing())
        before = processor_time(self.process())
        time.sleep(1)
        self.assertLess(processor_time(self.process()) - before, 0.2)
        it.types("A")
        # The key was not fetched: it is ODT's next one.
        self.is_so(it.hears("?\r\n@"), "\r\n001010\r\n@?\r\n@")

    def test_a_program_that_prints_for_ever(self):
        """It may be switched off, also where nobody hears it."""
        it = self.switched_on()
        it.puts(placed(ENDLESS))
        it.starts()
        it.types("Z1000/")
        self.is_so(it.hears("A" * 1000), "A" * 1000)
        time.sleep(0.5)
        self.switch_off()
        self.assertTrue(self.waits(lambda: self.process() is None))

    def test_a_program_that_computes_for_ever(self):
        it = self.switched_on()
        it.puts(placed(COMPUTING))
        it.starts()
        it.types("@Z/")
        self.assertTrue(it.hears_nothing())
        self.switch_off()
        self.assertTrue(self.waits(lambda: self.process() is None))

    def test_the_stub(self):
        """Its chunks come as a whole, and are answered."""
        it, place, data = self.switched_on("--words 4096"), 0o4000, bytes(range(256))
        it.puts(placed(stub_words(place, [(0o1001, 0o1401)]), place))
        it.starts(place)
        for first, end in ((0, CHUNK - 1), *((at, at + CHUNK) for at in range(CHUNK - 1, 0o360, CHUNK))):
            it.types(typed(data[first:end]))
            self.is_so(it.hears(answered(data[first:end])), answered(data[first:end]))
        it.types(typed(data[0o377:]))
        self.is_so(it.hears("@"), answered(data[0o377:]) + f"\r\n{place + HALTED:06o}\r\n@")
        it.types("1002/")
        it.hears("1002/001001 ")

    def test_the_halt_switch(self):
        """Of a machine whose memory is bad, or that takes its time, too."""
        for options in ("--halt", "--halt --stuck 20000:0:1", "--halt --speed 9600"):
            it = self.switched_on(options)
            it.puts(words_of_hello())
            it.starts()
            self.is_so(it.hears("@"), "\r\n001000\r\n@")
            self.switch_off()

    def test_losses(self):
        """All of them, none of them, and by a chance that can be had again."""
        it = self.switched_on("--loss 100")
        it.types("Z1000/")
        self.assertTrue(it.hears_nothing())
        self.switch_off()
        shown = []
        for seed in (1, 1, 2):
            it = self.switched_on(f"--loss 50 --seed {seed}")
            it.types("Z" * 200)
            while not it.hears_nothing(3 * self.quiet / 1000):
                it.heard += os.read(it.end, 64).decode()
            shown.append(it.heard)
            self.switch_off()
        self.is_so(shown[0], shown[1])
        self.assertNotEqual(shown[0], shown[2])
        # Each key has four characters of answer; one of two keys passes, and of their 400 one of two.
        self.assertTrue(140 < len(shown[0]) < 260, len(shown[0]))

    def test_losses_at_a_line_of_a_speed(self):
        """Each way, too: of 200 keys one of two passes, and of their 400 characters of answer one of two."""
        it = self.switched_on("--loss 50 --seed 1 --speed 38400")
        it.types("Z" * 200)
        while not it.hears_nothing(3 * self.quiet / 1000):
            it.heard += os.read(it.end, 64).decode()
        self.assertTrue(140 < len(it.heard) < 260, len(it.heard))

    def changes(self, options, keys="Z" * 100):
        """What the line changes in each character that keys, of which none is one of ODT's, are answered by."""
        it = self.switched_on(options)
        it.types(keys)
        wanted = keys.encode() if "--console echo" in options else b"?\r\n@" * len(keys)
        heard = b""
        while len(heard) < len(wanted):
            self.assertTrue(is_there(it.end, SECONDS), heard)
            heard += os.read(it.end, 64)
        self.switch_off()
        return [one ^ other for one, other in zip(heard, wanted, strict=True)]

    def test_changes(self):
        """Of a hundred characters so many, each by one bit of seven, by a chance that can be had again."""
        self.is_so(set(self.changes("--change 100")), {1 << bit for bit in range(7)})
        shown = [self.changes(f"--change 25 --seed {seed}") for seed in (1, 1, 2)]
        self.is_so(shown[0], shown[1])
        self.assertNotEqual(shown[0], shown[2])
        # Of 400 characters a hundred; of none more than one bit.
        self.assertTrue(60 < sum(map(bool, shown[0])) < 140, shown[0])
        self.is_so([it for it in shown[0] if it & it - 1 or it >= 128], [])

    def test_changes_each_way(self):
        """What echoes its keys answers each behind two changes: of one bit and another, or of one bit twice."""
        changed = [it.bit_count() for it in self.changes("--change 100 --console echo")]
        self.is_so(set(changed), {0, 2})

    def test_a_console_that_is_another(self):
        """One that prints eight digits, in good memory and in bad, and in another style."""
        for options, shown in (("", "00000000 \r\n@"), ("--style 2", "00000000 \r\r\n@"), ("--style 2 --stuck 1000:0:1", "00000001 \r\r\n@")):
            it = self.switched_on(f"--console wide {options}")
            it.types("1000/\r")
            self.is_so(it.hears("@"), f"1000/{shown}")
            self.switch_off()

    def test_a_console_that_prints_unasked_is_none(self):
        """Its line would hold only what came before a key."""
        told = subprocess.run([f"{TOP}/tools/machine", "--console", "endless", self.path("lsi11")], capture_output=True, text=True, timeout=60)
        self.is_so((told.returncode, told.stdout, "argument --console: invalid choice: 'endless'" in told.stderr), (2, "", True))
        self.is_so(os.path.lexists(self.path("lsi11")), False)

    def test_a_line_of_a_speed(self):
        """At 300 baud a character takes a thirtieth of a second, what ODT answers and what a program prints. Both ways go on at once: of so
        many digits each is answered while the next is typed."""
        it = self.switched_on("--speed 300")
        began = time.monotonic()
        it.types("1000/")
        self.is_so(it.hears(" "), "1000/000000 ")
        # Five keys, and behind the last one its echo and seven characters.
        self.assertGreaterEqual(time.monotonic() - began, 12.5 / 30)
        it.types("\r")
        it.hears("@")
        began = time.monotonic()
        it.types("1234567" * 6)
        it.hears("1234567" * 6)
        took = time.monotonic() - began
        self.assertTrue(42 / 30 <= took < 2 * 42 / 30, took)
        it.types("Z")
        it.hears("@")

    def test_keys_at_a_line_of_a_speed(self):
        """Each takes its time, also where nothing answers it: thirty keys, and the eleven characters behind a HALT."""
        it = self.switched_on("--speed 300")
        it.puts(placed(SILENT))
        it.starts()
        began = time.monotonic()
        it.types("A" * 29 + "Z")
        self.is_so(it.hears("@"), "\r\n001022\r\n@")
        self.assertGreaterEqual(time.monotonic() - began, 39 / 30)

    def test_nobody_types_at_a_line_of_a_speed(self):
        """It looks twice a second, and leaves this computer to others."""
        it = self.switched_on("--speed 38400")
        it.types("Z")
        it.hears("@")
        before = turns_of(self.process())
        time.sleep(1)
        self.assertLess(turns_of(self.process()) - before, 20)

    def test_a_program_at_a_line_of_a_speed(self):
        it = self.switched_on("--speed 1200")
        it.puts(placed(ENDLESS))
        it.starts()
        it.hears("A")
        began = time.monotonic()
        it.hears("A" * 120)
        self.assertGreaterEqual(time.monotonic() - began, 0.95)

    def test_a_program_computes_as_long_at_each_speed(self):
        """96,000 instructions a second, as at 9600 baud a hundred in a character's time: so many before it prints are half a second."""
        for speed in (300, 1200):
            it = self.switched_on(f"--speed {speed}")
            it.puts(placed((0o012700, 23_999, 0o005300, 0o001376, *ENDLESS)))
            it.starts()
            began = time.monotonic()
            it.hears("A")
            took = time.monotonic() - began
            self.assertTrue(0.4 <= took < 4, took)
            self.switch_off()

    def test_a_machine_that_is_held_up(self):
        """It makes up for a twentieth of a second, and no more: a host that counts on a line's time is not hurried."""
        it = self.switched_on("--speed 1200")
        it.puts(placed(ENDLESS))
        it.starts()
        it.hears("A" * 10)
        os.kill(self.process(), signal.SIGSTOP)
        while not it.hears_nothing():
            os.read(it.end, 64)
        time.sleep(1)
        began = time.monotonic()
        os.kill(self.process(), signal.SIGCONT)
        it.hears("A" * 120)
        self.assertGreaterEqual(time.monotonic() - began, 0.9)

    def test_a_fast_load_is_faster(self):
        """At a line of a speed, as at a machine; a load that takes no time of a line is slower so."""
        self.put("a.lda", bytes_of_tape(0o1000, bytes(it * 7 % 256 for it in range(1200))))
        took = {}
        for option in ("--fast", ""):
            self.switched_on("--speed 38400")
            began = time.monotonic()
            given = self.ldaodt(f"load a.lda {self.path('lsi11')} --no-start --quiet {max(300, self.quiet)} {option}")
            took[option] = time.monotonic() - began
            self.is_so((given.status, given.out.split(" ", 4)[4]), (0, "verified 600 of 600\nend Loaded\n"))
            self.switch_off()
        # So many characters are typed and answered at least where each word is deposited.
        self.assertGreaterEqual(took[""], 600 * 62 * 10 / 38400)
        self.assertLess(took["--fast"], took[""])

    def looks(self, it, address):
        """What a word of the machine reads, or that it is none."""
        it.types(f"{address:06o}/")
        shown = it.hears(" ") if it.hears(f"{address:06o}/") and (first := it.read(1)) != b"?" else "?"
        if shown == "?":
            it.hears("@")
            return None
        it.types("\r")
        it.hears("@")
        return int(first.decode() + shown[:-1], 8)

    def holds(self, it, address, word):
        """What a word of the machine reads once a number was deposited there."""
        it.types(f"{address:06o}/")
        it.hears(" ")
        it.types(f"{word:06o}\r")
        it.hears("@")
        return self.looks(it, address)

    def test_bits_that_are_stuck(self):
        """Of a word, and of each word of a range, whatever is deposited; the other bits and words are good. Of two that are asked for the last
        one counts."""
        it = self.switched_on("--stuck 1000:0:1 --stuck 001000:15:0 --stuck 20000-20006:2:0 --stuck 20004:2:1 --stuck 20010:5:1 --stuck 20010:5:0")
        for word in (0, 0o177777, 0o125252):
            stuck = {0o776: word, 0o1000: word & 0o077777 | 1, 0o1002: word, 0o17776: word,
                     0o20000: word & ~4, 0o20002: word & ~4, 0o20004: word | 4, 0o20006: word & ~4, 0o20010: word & ~0o40, 0o20012: word}
            self.is_so({address: self.holds(it, address, word) for address in stuck}, stuck)

    def test_each_bit_that_is_stuck(self):
        it = self.switched_on(" ".join(f"--stuck {2 * (16 * value + bit):o}:{bit}:{value}" for value in (0, 1) for bit in range(16)))
        for value, other in ((0, 0o177777), (1, 0)):
            for bit in range(16):
                self.is_so(self.holds(it, 2 * (16 * value + bit), other), other ^ 1 << bit)

    def test_banks_that_do_not_answer(self):
        it = self.switched_on("--no-bank 2 --no-bank 6 --words 28671")
        there = {0o37776: True, 0o40000: False, 0o57776: False, 0o60000: True, 0o137776: True, 0o140000: False, 0o157774: False, 0o157776: False}
        self.is_so({address: self.looks(it, address) is not None for address in there}, there)

    def test_addresses_that_are_one_word(self):
        it = self.switched_on("--alias 11 --alias 1 --alias 11")
        for word, address in enumerate((0, 0o4000, 2, 0o4002), 1):
            self.is_so(self.holds(it, address, word), word)
            self.is_so([self.looks(it, other) for other in (0, 2, 0o4000, 0o4002, 0o1000, 0o10000)], [word] * 4 + [0, 0])
        self.switch_off()
        # What is bad of one is bad of the other, by whichever address it was asked for.
        it = self.switched_on("--alias 15 --stuck 102000:3:1 --stuck 2000:5:1 --stuck 102000:0:0")
        for word, stuck in ((0, 0o50), (0o177777, 0o177776)):
            self.is_so([self.holds(it, address, word) for address in (0o2000, 0o102000, 0o2002)], [stuck, stuck, word])

    def test_a_program_in_bad_memory(self):
        """It meets what ODT does: a bit that is stuck, two addresses that are one, and no answer, which is a trap."""
        it = self.switched_on("--stuck 2000:3:1 --alias 15 --no-bank 1")
        program = (
            0o012706, 0o000776,             # MOV #776,SP
            0o005037, 0o002000,             # CLR @#2000
            0o013737, 0o102000, 0o002002,   # MOV @#102000,@#2002
            0o005037, 0o020000,             # CLR @#20000
            0,                              # HALT
        )
        it.puts({4: 0o1100, 6: 0o340, **placed(program), 0o1100: 0})
        it.starts()
        # Behind the HALT at the end of the trap's way.
        self.is_so(it.hears("@"), "\r\n001102\r\n@")
        self.is_so(self.looks(it, 0o2002), 0o10)

    def test_bad_memory_that_is_none(self):
        """Nothing is made then, and it is said why."""
        stuck = "argument --stuck: "
        form = " is none: an octal address, or two with a '-' between them, a bit, and 0 or 1, as 020000:2:0"
        range_of = ": an address is even and below 160000, and the second not below the first"
        rows = {
            **{f"--stuck {it}": f"{stuck}{it!r}{form}" for it in ("x", "1000", "1000:2", "1000:2:2", "1008:2:0", "0001000:2:0", "1000:2:0:1")},
            **{f"--stuck {it}": f"{stuck}{it!r}{range_of}" for it in ("1001:2:0", "160000:2:0", "1000-776:2:0", "1000-1001:2:0", "0-160000:2:0")},
            "--stuck 1000:16:0": f"{stuck}'1000:16:0': a bit is 0 to 15",
            **{f"--no-bank {it}": f"argument --no-bank: '{it}' is none: 0 to 6" for it in ("7", "x", "010")},
            **{f"--alias {it}": f"argument --alias: '{it}' is none: 1 to 15" for it in ("0", "16", "x")},
            "--words 4096 --stuck 17776-20000:2:0": f"{stuck}020000 is not in a memory of 4096 words",
            "--words 4096 --no-bank 0 --no-bank 1": "argument --no-bank: a memory of 4096 words has no bank 1",
            "--words 4096 --alias 12 --alias 13": "argument --alias: no address in a memory of 4096 words has the bit 13",
        }
        for options, said in rows.items():
            with self.subTest(options):
                told = subprocess.run([f"{TOP}/tools/machine", *options.split(), self.path("lsi11")], capture_output=True, text=True, check=False)
                self.is_so((told.returncode, told.stdout, told.stderr.split("\n")[-2]), (2, "", f"machine: error: {said}"))
                self.is_so(os.path.lexists(self.path("lsi11")), False)

    def test_a_cable_that_is_pulled(self):
        """Behind ten keys and characters, while the program prints; at a machine that takes its time, too."""
        for options in ("--break-after 1020", "--break-after 1020 --speed 9600"):
            with self.subTest(options):
                it = self.switched_on(options)
                it.puts(placed(ENDLESS))
                passed = sum(len(f"{address:06o}/000000 {word:06o}\r\n@") + 14 for address, word in placed(ENDLESS).items())
                it.types("001000G")
                count = 1020 - passed - 7
                self.is_so(it.hears("A" * (count - 7)), "001000G" + "A" * (count - 7))
                self.assertTrue(self.waits(lambda: not os.path.lexists(self.path("lsi11"))))
                with contextlib.suppress(OSError):
                    self.is_so(os.read(it.end, 64), b"")

    def test_what_was_answered_before_a_cable_is_pulled(self):
        """It can still be read a while later."""
        it = self.switched_on("--break-after 17")
        it.types("1000/")
        time.sleep(0.15)
        self.is_so(it.hears(" "), "1000/000000 ")

    def test_a_name_that_is_a_file_s(self):
        self.put("lsi11", b"mine")
        told = subprocess.run([f"{TOP}/tools/machine", self.path("lsi11")], capture_output=True, text=True, timeout=60)
        self.is_so((told.returncode, told.stdout, told.stderr), (1, "", f"machine: {self.path('lsi11')} is there already, and is no link\n"))
        self.is_so(bytes_of(self.path("lsi11")), b"mine")

    def test_a_name_that_cannot_be_made(self):
        path = self.path("nowhere/lsi11")
        told = subprocess.run([f"{TOP}/tools/machine", path], capture_output=True, text=True, timeout=60)
        self.is_so((told.returncode, told.stdout, told.stderr), (1, "", f"machine: cannot make {path}: No such file or directory\n"))

    def test_a_cartridge_that_is_not_there(self):
        told = subprocess.run([f"{TOP}/tools/machine", "--tu58", "nowhere", self.path("lsi11")], capture_output=True, text=True, timeout=60)
        self.is_so((told.returncode, told.stderr.split("\n")[-2]), (2, "machine: error: argument --tu58: nowhere: No such file or directory"))
        self.is_so(os.path.lexists(self.path("lsi11")), False)

    def test_numbers_past_their_limits(self):
        for words in ("--words -1", "--words 28673", "--loss 101", "--change -1", "--speed 0"):
            told = subprocess.run([f"{TOP}/tools/machine", *words.split(), self.path("lsi11")], capture_output=True, text=True, timeout=60)
            name, number = words.split()
            self.is_so((told.returncode, told.stdout), (2, ""))
            self.assertIn(f"argument {name}: {number} is not from ", told.stderr)
            self.is_so(os.path.lexists(self.path("lsi11")), False)

    def test_a_link_that_leads_nowhere(self):
        """As a machine leaves it that was killed."""
        os.symlink("/dev/pts/nothing", self.path("lsi11"))
        it = self.switched_on()
        it.types("Z")
        self.is_so(it.hears("@"), "?\r\n@")

    def test_a_name_of_this_folder(self):
        """It is told as it was given."""
        self.addCleanup(self.switch_off)
        told = subprocess.run([f"{TOP}/tools/machine", "lsi11"], cwd=self.room, capture_output=True, text=True, timeout=60, check=True)
        self.is_so(told.stdout, "lsi11 is the console of a simulated LSI-11, until it is removed: rm lsi11\n")

    def test_a_name_with_a_space(self):
        """What is to be written can be written."""
        self.addCleanup(subprocess.run, ["rm", "-f", self.path("an lsi11")], check=True)
        told = subprocess.run([f"{TOP}/tools/machine", "an lsi11"], cwd=self.room, capture_output=True, text=True, timeout=60, check=True)
        self.is_so(told.stdout, "an lsi11 is the console of a simulated LSI-11, until it is removed: rm 'an lsi11'\n")

    def test_a_name_that_is_another_machine_s(self):
        """That one is switched off by it, and the later one stays on."""
        self.switched_on()
        earlier = self.process()
        it = self.switched_on("--style 2")
        self.assertTrue(self.waits(lambda: not os.path.exists(f"/proc/{earlier}")))
        time.sleep(1)
        it.types("Z")
        self.is_so(it.hears("@"), "?\r\r\n@")

    def quick_clock(self, times, options=""):
        """Switches on a machine whose clock goes so many times as fast; returns when."""
        faster = f"import runpy, sys, time; clock = time.monotonic; time.monotonic = lambda: {times} * clock()"
        run = f"{faster}; sys.path[0] = '{TOP}/tools'; runpy.run_path('{TOP}/tools/machine', run_name='__main__')"
        began = time.monotonic()
        subprocess.run([sys.executable, "-c", run, *options.split(), self.path("lsi11")], stdout=subprocess.DEVNULL, timeout=60, check=True)
        self.addCleanup(self.switch_off)
        return began

    def goes_off(self, behind, early, hour):
        """Asserts that it is still on for so many seconds behind a time, and goes off an hour behind that."""
        time.sleep(max(0, behind + early - time.monotonic()))
        is_on = os.path.islink(self.path("lsi11"))
        self.assertTrue(is_on or time.monotonic() > behind + hour)
        self.assertTrue(self.waits(lambda: not os.path.islink(self.path("lsi11"))))
        self.assertGreaterEqual(time.monotonic(), behind + hour)

    def test_an_hour_without_a_key(self):
        """Then it switches itself off, and not after ten minutes: by a clock that goes 400 times as fast."""
        self.goes_off(self.quick_clock(400), 1200 / 400, 3600 / 400)

    def test_an_hour_behind_the_last_key(self):
        """However long it was on before, also at a line of a speed."""
        for options in ("", "--speed 9600"):
            began = self.quick_clock(600, options)
            time.sleep(max(0, began + 1800 / 600 - time.monotonic()))
            end = os.open(self.path("lsi11"), os.O_RDWR | os.O_NOCTTY)
            typed = time.monotonic()
            os.write(end, b"Z")
            self.goes_off(typed, 2400 / 600, 3600 / 600)
            os.close(end)


class Commands(Case):
    """`tools/odt_peer.py` as a command: each of its options, and what it tells."""

    def begun(self, *options):
        """It with these options; what it tells first is where it is."""
        process = subprocess.Popen([sys.executable, "-B", f"{TOP}/tools/odt_peer.py", *options], stdin=subprocess.DEVNULL, stdout=subprocess.PIPE, text=True)
        self.addCleanup(process.stdout.close)
        self.addCleanup(process.wait)
        self.addCleanup(process.kill)
        return process, process.stdout.readline().strip()

    def at_a_port(self, *options):
        """It, and a person at its port."""
        process, name = self.begun(*options)
        host, port = name.split(":")
        self.is_so((host, process.stdout.closed), ("127.0.0.1", False))
        end = socket.create_connection((host, int(port)), SECONDS)
        self.addCleanup(end.close)
        self.is_so(process.stdout.readline(), "connected\n")
        return process, Terminal((end, end.recv), end.sendall)

    def test_a_port_that_is_asked_for(self):
        """There it is until it is interrupted, which ends it without a word."""
        with socket.create_server(("127.0.0.1", 0)) as free:
            port = free.getsockname()[1]
        heed = lambda: signal.signal(signal.SIGINT, signal.default_int_handler)
        process = subprocess.Popen([sys.executable, "-B", f"{TOP}/tools/odt_peer.py", "--port", str(port)], stdin=subprocess.DEVNULL, stdout=subprocess.PIPE,
                                   stderr=subprocess.PIPE, text=True, preexec_fn=heed)
        self.addCleanup(process.kill)
        self.is_so(process.stdout.readline(), f"127.0.0.1:{port}\n")
        process.send_signal(signal.SIGINT)
        self.is_so((process.communicate(timeout=SECONDS), process.returncode), (("", ""), 0))

    def test_what_it_tells(self):
        """Each start and each end of a connection; what the program prints, which is started."""
        process, it = self.at_a_port("--says", "HI\\r\\n", "--style", "2", "--words", "256", "--console", "wide")
        it.types("776/\r1000/")
        self.is_so(it.hears("?\r\r\n@"), "776/00000000 \r\r\n@1000/?\r\r\n@")
        # At an odd address nothing starts.
        it.types("000101G")
        self.is_so(it.hears("@"), "000101G?\r\r\n@")
        it.types("000100G")
        self.is_so(it.hears("\n"), "000100GHI\r\n")
        self.is_so(process.stdout.readline(), "started at 000100\n")
        it.end.close()
        self.is_so(process.stdout.readline(), f"gone: 24 keys, {4 + 10 + 3 + 5 + 5 + 12 + 7 + 4} characters answered, 0 lost\n")

    def test_losses_and_changes(self):
        """Of a hundred characters so many, each way, by a chance that can be had again."""
        shown = []
        for seed in ("1", "1", "2"):
            process, it = self.at_a_port("--loss", "50", "--seed", seed)
            it.types("Z" * 200)
            while not it.hears_nothing(3 * self.quiet / 1000):
                it.heard += it.read(64).decode()
            self.assertTrue(140 < len(it.heard) < 260, len(it.heard))
            it.end.close()
            self.assertRegex(process.stdout.readline(), rf"^gone: 200 keys, {len(it.heard)} characters answered, \d+ lost\n$")
            shown.append(it.heard)
        self.is_so((shown[0] == shown[1], shown[0] == shown[2]), (True, False))
        process, it = self.at_a_port("--change", "100")
        it.types("Z")
        self.is_so([(ord(it.read(1)) ^ ord(wanted)).bit_count() for wanted in "?\r\n@"], [1] * 4)
        it.end.close()
        self.is_so(process.stdout.readline(), "gone: 1 keys, 4 characters answered, 0 lost, 5 changed\n")
        process, it = self.at_a_port("--change", "25")
        it.types("Z" * 100)
        changed = sum(it.read(1) != wanted.encode() for wanted in "?\r\n@" * 100)
        self.assertTrue(60 < changed < 140, changed)

    def test_a_line_that_breaks(self):
        """Behind five keys and twelve characters it is over."""
        _, it = self.at_a_port("--break-after", "17")
        it.types("1000/")
        self.is_so(it.hears(" "), "1000/000000 ")
        self.is_so(it.read(1), b"")

    def test_a_line_of_a_speed(self):
        """Five keys and twelve characters of a thirtieth of a second."""
        _, it = self.at_a_port("--baud", "300")
        began = time.monotonic()
        it.types("1000/")
        it.hears(" ")
        self.assertGreaterEqual(time.monotonic() - began, 17 / 30)

    def test_a_device(self):
        """Set as it is asked for; else as a load wants it."""
        for options, speed in (((), termios.B38400), (("--stty", "raw -echo 300"), termios.B300)):
            _, name = self.begun("--device", *options)
            end = os.open(name, os.O_RDWR | os.O_NOCTTY)
            self.addCleanup(os.close, end)
            _, _, _, local, *speeds = termios.tcgetattr(end)[:6]
            self.is_so((local & (termios.ECHO | termios.ICANON), speeds), (0, [speed] * 2))
            it = Terminal((end, lambda size, end=end: os.read(end, size)), lambda keys, end=end: os.write(end, keys))
            it.types("1000/")
            self.is_so(it.hears(" "), "1000/000000 ")


class Busy:
    """A machine whose program computes on and on."""

    is_busy = True

    def go_on(self):
        return ""

    def take(self, _key):
        return ""


class Rests(unittest.TestCase):
    """How long a machine rests, so that a program which computes on and on leaves this computer to others."""

    def setUp(self):
        loader = importlib.machinery.SourceFileLoader("machine", f"{TOP}/tools/machine")
        self.machine = importlib.util.module_from_spec(importlib.util.spec_from_loader("machine", loader))
        loader.exec_module(self.machine)
        keys, self.keyboard = os.pipe()
        for end in (keys, self.keyboard):
            self.addCleanup(os.close, end)
        self.console = self.machine.Console(Busy(), keys, 0, 0, 0, None)

    def rests(self, turns):
        """How long it rests behind each of so many turns."""
        with unittest.mock.patch.object(self.machine.time, "sleep") as sleep:
            for _ in range(turns):
                self.console.turn()
        return [call.args[0] for call in sleep.call_args_list]

    def test_a_program_without_an_end(self):
        """Behind 10,000 characters' times without a key a millisecond behind each; a key is heard at once, and it is awake again."""
        self.assertEqual(sum(self.rests(10_000)), 0)
        self.assertEqual(self.rests(100), [0.001] * 100)
        os.write(self.keyboard, b"A")
        self.assertEqual(sum(self.rests(10_001)), 0)
        self.assertEqual(self.rests(1), [0.001])


def bytes_of_tape(address, data):
    """A tape of these bytes, which starts nothing."""
    blocks = (b"\1\0" + (6 + len(it)).to_bytes(2, "little") + at.to_bytes(2, "little") + it for at, it in ((address, data), (1, b"")))
    return b"".join(it + bytes([-sum(it) % 256]) for it in blocks)


def bytes_of_process(path):
    try:
        return bytes_of(path)
    except OSError:
        return b""


def turns_of(process):
    """How often a process has come to its turn on a processor because it had waited for something."""
    return int(bytes_of(f"/proc/{process}/status").split(b"voluntary_ctxt_switches:")[1].split()[0])


def processor_time(process):
    """The seconds of a processor that a process has taken."""
    fields = bytes_of(f"/proc/{process}/stat").rsplit(b")", 1)[1].split()
    return (int(fields[11]) + int(fields[12])) / os.sysconf("SC_CLK_TCK")


class Lines(Case):
    """The machines of the tests, at a port and at a device."""

    def at(self, line):
        """A person at such a line, connected anew."""
        if hasattr(line, "port"):
            end = socket.create_connection(("127.0.0.1", line.port), SECONDS)
            self.addCleanup(end.close)
            return Terminal((end, end.recv), end.sendall)
        end = os.open(line.name, os.O_RDWR | os.O_NOCTTY)
        self.addCleanup(os.close, end)
        return Terminal((end, lambda size: os.read(end, size)), lambda keys: os.write(end, keys))

    def with_stub(self, machine):
        """The same machine with the stub at 004000, which fills 001000 to 001037."""
        for address, word in placed(stub_words(0o4000, [(0o1000, 0o1040)]), 0o4000).items():
            machine.words[address // 2] = word
        return machine

    def test_a_stub_over_each_line(self):
        data = bytes(range(0o100, 0o140))
        for line in self.lines(lambda: self.with_stub(RunningConsole())):
            it = self.at(line)
            it.starts(0o4000)
            it.types(typed(data[:PART]))
            self.is_so(it.hears(answered(data[:PART])), answered(data[:PART]))
            it.types(typed(data[PART:]))
            self.is_so(it.hears("@"), answered(data[PART:]) + f"\r\n{0o4000 + HALTED:06o}\r\n@")
            self.is_so(line.machine.words[0o400:0o420], [0o040500 + 0o001002 * number for number in range(16)])
            self.is_so(line.machine.answered, 7 + 2 * len(data) + 11)

    def test_a_host_that_comes_back(self):
        """A nibble that came before the connection ended is the high one of the next host's; its Z then halts the stub."""
        peer = self.console_at(self.with_stub(RunningConsole()))
        it = self.at(peer)
        it.starts(0o4000)
        it.types(typed(bytes(PART))[:-1])
        it.hears(answered(bytes(PART - 1)))
        it.end.close()
        peer.settle()
        it = self.at(peer)
        it.types("aZ")
        self.is_so(it.hears("@"), answered(b"\x01") + f"\r\n{0o4000 + HALTED:06o}\r\n@")

    def test_lost_characters(self):
        """Behind a nibble that is lost the stub takes each for the one before; of an answer that is lost it knows nothing."""
        data = bytes(range(PART))
        peer = self.console_at(self.with_stub(LossyRunningConsole(lost_key=10)))
        it = self.at(peer)
        it.starts(0o4000)
        it.types(typed(data))
        # Of 00 01 02 .. without the fourth nibble: 00 00 20 30 ..
        wanted = answered(bytes([0, 0, *range(0x20, 0x100, 0x10)])[:PART - 1])
        self.is_so(it.hears(wanted), wanted)
        self.assertTrue(it.hears_nothing())
        it.types("Z")
        self.is_so(it.hears("@"), f"\r\n{0o4000 + HALTED:06o}\r\n@")
        peer = self.console_at(self.with_stub(LossyRunningConsole(lost_answer=7 + 3)))
        it = self.at(peer)
        it.starts(0o4000)
        it.types(typed(data))
        wanted = answered(data)[:3] + answered(data)[4:]
        self.is_so(it.hears(wanted), wanted)

    def test_a_line_that_breaks_while_a_program_prints(self):
        """Behind the last of these keys, and before the last answer."""
        peer = self.console_at(self.with_stub(RunningConsole()), close_after=14 + 4 * PART - 1)
        it = self.at(peer)
        it.starts(0o4000)
        it.types(typed(bytes(PART)))
        self.is_so(it.hears("o" * (2 * PART - 1)), "o" * (2 * PART - 1))
        self.is_so(it.end.recv(64), b"")


if __name__ == "__main__":
    unittest.main()
