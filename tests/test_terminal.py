"""Standard error on a terminal: one line says how far a load is, and nothing of it is left. Standard input at one: it is
said what is read."""
import errno
import gzip
import os
import pty
import re
import shutil
import signal
import subprocess
import time
import unittest
from concurrent.futures import ThreadPoolExecutor

from cases import Case, Console, DeafConsole, Losing, LossyConsole, RunningConsole
from cases import SlowConsole as Hundredths
from chip_cases import ChipConsole, Chips, Test
from commands import AT_A_MACHINE, COUNTING, RUNS
from odt_peer import EndlessMachine
from outside import FIRST, NO_OUTPUT, PROGRAM, bytes_of, fault, line_failed, tape_of

# Each line that is shown: the terminal is asked to cut what it has no column for, and behind the text to take away what
# is left of the line before it and to wrap again.
SHOWN = "\r\x1b[?7l{}\x1b[K\x1b[?7h"
LISTENING = SHOWN.format("0 of 1 words, 0%, listening")
NO_WORD = SHOWN.format("0 of 1 words, 0%")
CLEARED = "\r\x1b[K"
GOING_ON = "going on behind 1 of 2 words, listening; power lost? use --recheck"
SAVING_ON = "going on behind 256 of 512 words, listening; power lost? remove the .part file"
SAVING = "\rafter Ctrl-C the same line goes on\x1b[K\r\n"
PROBING = "probing: mostly {}; {} where nothing answers\r\n"
STARTED = "sent 30 spent 0 verified 1 of 1\nend Started\n"

# The words of two-words.lda.
BOTH_WORDS = {0o1000: 0o031421, 0o1002: 0o104}

# What a person is told behind the report.
ASK_PROBE = "'ldaodt probe LINE' says what is wrong\r\n"


def shown_as(text):
    """A text as a terminal is given it."""
    return text.replace("\n", "\r\n")


FAILED = shown_as(line_failed("closed"))
GOES_ON = "the same line goes on where it was; power lost? add --recheck\r\n"


class ChangingConsole(Console):
    """It does otherwise behind so many keys."""

    def __init__(self, keys, **named):
        super().__init__(**named)
        self.keys = keys


class SlowConsole(ChangingConsole):
    """It takes its time for each key then: a line is shown a tenth of a second after the one before it, or later."""

    def take(self, key):
        answer = super().take(key)
        if len(self.typed) > self.keys:
            time.sleep(0.15)
        return answer


class SilentConsole(ChangingConsole):
    """It answers no key then."""

    def take(self, key):
        answer = super().take(key)
        return answer if len(self.typed) <= self.keys else ""


class HeldStub(RunningConsole):
    """Of what the program that was started prints the 128th character comes late, and none behind it."""

    printed_count = 0

    def printed(self):
        text = super().printed()
        if text and self.computer.is_running:
            if self.printed_count < 128 <= self.printed_count + len(text):
                time.sleep(0.15)
            self.printed_count += len(text)
            return text if self.printed_count <= 128 else ""
        return text


class Screen:
    """A terminal of so many columns, as far as it is used here: which line the cursor is in, and what that shows."""

    def __init__(self, columns):
        self.columns, self.row, self.column, self.wraps = columns, 0, 0, True
        self.line = ""

    def show(self, text):
        """Shows a text, of which each escape is one that is known here."""
        for piece in re.findall(r"\x1b\[\??\d*[A-Za-z]|.", text, re.DOTALL):
            if piece in ("\x1b[?7l", "\x1b[?7h"):
                self.wraps = piece.endswith("h")
            elif piece == "\x1b[K":
                self.line = self.line[:self.column]
            elif piece == "\r":
                self.column = 0
            elif piece == "\n":
                self.row, self.line = self.row + 1, ""
            elif piece >= " ":
                self.print(piece)
            else:
                raise ValueError(repr(piece))

    def print(self, character):
        """Prints a character: behind the last column in the next line, or without that in the last column again."""
        if self.column == self.columns and self.wraps:
            self.row, self.column, self.line = self.row + 1, 0, ""
        place = min(self.column, self.columns - 1)
        self.line = self.line[:place] + character + self.line[place + 1:]
        self.column = place + 1


class ForgetfulHundredths(Hundredths):
    """It takes a hundredth of a second for each key, and answers one of the first not at all."""
    begun = float("inf")

    def take(self, key):
        answer = super().take(key)
        if len(self.typed) == 12:
            self.begun = time.monotonic()
            return ""
        return answer

    def typed_behind(self, seconds):
        """How many keys came so many seconds behind the first one, or later."""
        return sum(it > self.times[0] + seconds for it in self.times[:])


class SteadyConsole(Console):
    """It answers so many keys a second from its first on, and makes good what was late."""
    begun = float("inf")

    def __init__(self, pace=25):
        super().__init__()
        self.pace = pace

    def take(self, key):
        answer = super().take(key)
        self.begun = min(self.begun, time.monotonic())
        time.sleep(max(0, self.begun + len(self.typed) / self.pace - time.monotonic()))
        return answer


class BurstingConsole(SteadyConsole):
    """Before it answers its first key, and again twelve seconds later, it says far more than any console."""

    def take(self, key):
        answer = super().take(key)
        return "x" * 100 + answer if len(self.typed) in (1, 300) else answer


class BabblingConsole(Console):
    """Before it answers its first key it says far more than any console."""

    def take(self, key):
        answer = super().take(key)
        return answer if len(self.typed) > 1 else "x" * 400 + answer


class StuckConsole(Console):
    """Of each word bit 2 reads 0, and bit 15 reads 1."""

    def word(self, address):
        return super().word(address) & ~4 | 0o100000


class ZeroConsole(Console):
    """Each word reads 0."""

    def word(self, address):
        return 0


class Terminal(Case):
    """A load whose standard error is a terminal."""

    def load_at_a_terminal(self, machine=None, words="first.lda", quiet=None, close_after=None, baud=None, **more):
        self.put_tapes("first.lda", "two-words.lda")
        peer = self.console_at(machine or Console(), close_after=close_after, baud=baud)
        return self.at_a_terminal(lambda terminal: self.load(peer, words, quiet, stderr=terminal, **more))

    def test_a_load_is_shown(self):
        given, shown = self.load_at_a_terminal()
        self.is_so((given.status, given.out), (0, STARTED))
        self.assertTrue(shown.startswith(LISTENING), repr(shown))
        self.assertTrue(shown.endswith("\x1b[?7h" + CLEARED), repr(shown))
        self.assertNotIn("\n", shown)

    def test_a_narrow_terminal(self):
        """Whatever is shown stays in one line, nothing is left of it, and what is printed then wraps as before."""
        self.put("a.record", b"LDAODT 2\n001000 031421")
        machine = SlowConsole(9 + 6, memory=BOTH_WORDS)
        given, shown = self.load_at_a_terminal(machine, "two-words.lda --record a.record", quiet=1000)
        self.is_so(given.status, 0)
        for columns, seen in ((20, "going on behind 1 of"), (40, "going on behind 1 of 2 words, listening"), (80, GOING_ON)):
            screen, lines = Screen(columns), []
            progress, told = shown.split(CLEARED)
            for one in (progress + CLEARED).split("\r")[1:]:
                screen.show(f"\r{one}")
                lines.append(screen.line)
            with self.subTest(columns):
                self.is_so(told, "1 of 2 by the record\r\n")
                self.assertEqual((screen.row, screen.line, screen.wraps), (0, "", True))
                self.assertEqual(lines[0][:len(seen) - 1], seen[:-1])
                self.assertLessEqual(max(map(len, lines)), columns)

    def interrupted(self, words, machine, is_due, quiet=None):
        """Does what the words ask for at a machine, and interrupts it as soon as that is due; returns how it ended, and what was shown."""
        self.put_tapes("first.lda", "two-words.lda")
        peer = self.console_at(machine)
        words = self.words_at(peer, words, quiet)

        def done(terminal):
            process = subprocess.Popen([PROGRAM, *words], cwd=self.room, stderr=terminal, stdout=subprocess.PIPE,
                                       preexec_fn=lambda: signal.signal(signal.SIGINT, signal.SIG_DFL))
            self.addCleanup(self.let_go, process)
            self.until(lambda: is_due(peer.machine) or process.poll() is not None)
            process.send_signal(signal.SIGINT)
            out, _ = process.communicate(timeout=60)
            return process.returncode, out

        return self.at_a_terminal(done)

    def test_what_an_interrupt_leaves(self):
        """One line, behind which a shell's prompt stands, and a terminal that wraps. It comes once the first key was typed: what is
        done is said before that, also where words of a record are looked at, or a stub is typed."""
        self.put("many.lda", tape_of([(0o1000, bytes(800))], 0o1000))
        self.put("a.record", b"LDAODT 2\n001000 031421")
        # The first of two blocks, and the room of the rest.
        self.put("b.lda.part", tape_of([(0o1000, bytes(512))])[:-7] + bytes(526))
        listens = SHOWN.format("0 of 400 words, 0%, listening")
        # At the second console the highest word is looked at with nine keys, and the first of the stub is not answered.
        for words, begins, console, keys in (*((it.line(), LISTENING, DeafConsole, 1) for it in COUNTING),
                                             ("load two-words.lda LINE --record a.record", SHOWN.format(GOING_ON), DeafConsole, 1),
                                             ("load many.lda LINE --fast", listens, DeafConsole, 1),
                                             ("load many.lda LINE --fast", listens + SHOWN.format("0 of 400 words, 0%, stub"), lambda: SilentConsole(9), 10),
                                             ("save b.lda LINE 1000 2776", SHOWN.format(SAVING_ON), DeafConsole, 1)):
            with self.subTest((words, keys)):
                ended, shown = self.interrupted(words, console(), lambda machine, keys=keys: len(machine.typed) >= keys)
                self.is_so(ended, (-signal.SIGINT, b""))
                self.assertTrue(shown.startswith(begins), repr(shown))
                screen = Screen(80)
                screen.show(shown)
                self.is_so((screen.row, screen.wraps), (0, True))

    def test_a_chunk_counts_once_it_was_answered(self):
        """The first 32 of 400 words, which a stub takes and then no more: they are shown before another character is sent."""
        self.put("many.lda", tape_of([(0o1000, bytes(800))], 0o1000))
        ended, shown = self.interrupted("load many.lda LINE --fast", HeldStub(), lambda machine: machine.printed_count > 2 * 64 + 8)
        self.is_so(ended, (-signal.SIGINT, b""))
        self.assertRegex(shown.split("\r")[-1], r"^\x1b\[\?7l32 of 400 words, 8%(, [\d:]+ left)?\x1b")

    def test_how_long_it_takes(self):
        """It is said once, behind the tenth second, on a line of its own; and where what was done need not be done again, that, too, of a save
        before all else.
        Of 4,000 words each takes 22 keys, 8 where it is only looked at, or 16 where twice, and each key a hundredth of a second or more. A mishap of the
        first second, which takes as long as a hundred words, does not count for more than it is."""
        self.put("many.lda", tape_of([(0o1000, bytes(8000))], 0o1000))
        self.put("a.record", b"LDAODT 2\n" + b"".join(b"%06o 000000\n" % (0o1000 + 2 * number) for number in range(20)))
        for words, keys, goes_on in (("load many.lda LINE", 22, False), ("load many.lda LINE --record a.record", 8, True),
                                     ("verify many.lda LINE", 8, False), ("save a.lda LINE 0 17776", 16, True)):
            with self.subTest(words):
                machine = ForgetfulHundredths()
                # By then words were done, and so shown, behind the twelfth second, however busy this computer is.
                ended, shown = self.interrupted(words, machine, lambda machine, keys=keys: machine.typed_behind(12) > 3 * keys)
                self.is_so(ended[0], -signal.SIGINT)
                told = re.findall(r"\rsome (\d+) minutes at this pace(; after Ctrl-C the same line goes on)?\x1b\[K\r\n", shown)
                is_save = words.startswith("save")
                self.is_so([behind for _, behind in told], ["; after Ctrl-C the same line goes on" if goes_on and not is_save else ""])
                self.is_so((shown.startswith(SAVING), shown.count("Ctrl-C")), (is_save, int(goes_on)))
                # A key takes a hundredth of a second or more: as long as one took on the average where ten seconds were over. A fifth of them
                # may be lost with the mishap.
                pace = (len(machine.times) - machine.typed_behind(10)) / 10
                self.assertLessEqual(int(told[0][0]), 4000 * keys / pace / 60 * 1.6)

    def test_a_save_says_at_once_that_it_goes_on(self):
        """Before its first key, where it is of more words than a block has."""
        for last, said in ((0o1776, ""), (0o2000, SAVING), (0o17776, SAVING)):
            ended, shown = self.interrupted(f"save {last}.lda LINE 1000 {last:o}", DeafConsole(), lambda machine: machine.typed)
            self.is_so((last, ended), (last, (-signal.SIGINT, b"")))
            begins = SHOWN.format(f"0 of {(last - 0o776) // 2} words, 0%, listening")
            self.assertTrue(shown.startswith(said + begins) and shown.count("Ctrl-C") == bool(said), repr(shown))

    def test_it_is_not_said_before_a_pace_tells(self):
        """Not in the first ten seconds, nor where fewer than eight words were done by then, each of which has eight keys."""
        self.put("many.lda", tape_of([(0o1000, bytes(8000))], 0o1000))
        for pace, seconds in ((25, 8), (5, 12)):
            _, shown = self.interrupted("verify many.lda LINE", SteadyConsole(pace), lambda machine, seconds=seconds: time.monotonic() > machine.begun + seconds)
            self.is_so((pace, "minutes" in shown), (pace, False))

    def test_what_is_short_is_not_said(self):
        """From two minutes on it is: 500 words of eight keys take 160 seconds, of which the first ten tell the pace; 280 words take 90."""
        for count, lines in ((500, 1), (280, 0)):
            self.put("some.lda", tape_of([(0o1000, bytes(2 * count))], 0o1000))
            _, shown = self.interrupted("verify some.lda LINE", SteadyConsole(), lambda machine: time.monotonic() > machine.begun + 13)
            self.is_so((count, len(re.findall(r"\rsome [2-9] minutes at this pace\x1b\[K\r\n", shown))), (count, lines))

    def test_a_fault_stands_on_a_cleared_line(self):
        """The machine hangs up after `Z` and two characters of its answer."""
        given, shown = self.load_at_a_terminal(close_after=3)
        self.is_so((given.status, given.out), (4, "sent 1 spent 0 verified 0 of 1\nend LineFailed\n"))
        self.assertTrue(shown.startswith(LISTENING), repr(shown))
        self.assertTrue(shown.endswith(CLEARED + FAILED), repr(shown))

    def test_a_record_that_can_not_be_begun(self):
        """It is told on a cleared line, too."""
        given, shown = self.load_at_a_terminal(words="first.lda --record a.record", file_size=0)
        self.is_so((given.status, given.out), (4, ""))
        self.is_so(shown, LISTENING + CLEARED + shown_as(fault("cannot write a.record", errno.EFBIG)))

    def test_mishaps_are_counted(self):
        """Each key waits for the quiet time, so that a line is shown with each: at the beginning, with the first key,
        and with each one more, which follows a mishap."""
        given, shown = self.load_at_a_terminal(DeafConsole(), "first.lda --patience 3")
        self.is_so((given.status, given.out), (5, "sent 4 spent 3 verified 0 of 1\nend GaveUp\n"))
        mishaps = "".join(SHOWN.format(f"0 of 1 words, 0%, {text}") for text in ("1 mishap", "2 mishaps", "3 mishaps"))
        self.is_so(shown, LISTENING + NO_WORD + mishaps + CLEARED + ASK_PROBE)

    def test_a_line_that_talks_is_listened_to(self):
        """Until its first key, and again for the four tenths of a second that the babble takes behind that: its first
        character is no answer to `Z`, and so a mishap."""
        given, shown = self.load_at_a_terminal(BabblingConsole(), quiet=1000, baud=9600)
        self.is_so((given.status, given.out.split("\n")[1]), (0, "end Started"))
        babble = SHOWN.format("0 of 1 words, 0%, listening, 1 mishap")
        self.assertTrue(shown.startswith(LISTENING + NO_WORD + babble), repr(shown))

    def test_a_line_that_talks_now_and_then_is_not_told_as_endless(self):
        """Between the two it was silent, and answered."""
        self.put("many.lda", tape_of([(0o1000, bytes(8000))], 0o1000))
        _, shown = self.interrupted("verify many.lda LINE", BurstingConsole(), lambda machine: time.monotonic() > machine.begun + 14)
        self.assertRegex(shown, r"\d\d of 4000 words, 0%, 2 mishaps")
        self.assertNotIn("never silent", shown)

    def test_a_line_that_is_never_silent_is_told(self):
        """A device that sends back what it hears, and a program that prints: once ten seconds are over, not before, and once only. Nothing but
        the `Z` is typed."""
        self.put_tapes("first.lda")
        line = self.device_at(Console(), settings="raw echo")

        def load(terminal, line, seconds):
            process = subprocess.Popen([PROGRAM, *self.load_words(line, "first.lda")], cwd=self.room, stderr=terminal, stdout=subprocess.DEVNULL)
            self.addCleanup(self.let_go, process)
            time.sleep(seconds)
            self.assertIsNone(process.poll())
            process.kill()
            process.wait()

        _, shown = self.at_a_terminal(lambda it: load(it, self.console_at(EndlessMachine()), 8))
        self.assertNotIn("never silent", shown)
        for line, says in ((line, "?..@"), (self.console_at(EndlessMachine()), "MEMORY TEST PASS..")):
            with self.subTest(says):
                # On a computer that is busy it takes longer, and a test that was held up is run again with a longer quiet time.
                _, shown = self.at_a_terminal(lambda it, line=line: load(it, line, 12 + self.quiet / 200))
                told = re.findall(r"\rthe line is never silent, and says: (.*)\r\n(.*)\x1b\[K\r\n", shown)
                self.is_so([rest for _, rest in told], ["a program that runs does so, and a system that echoes (stty -echo); 'ldaodt probe LINE' says more"])
                # The last that was heard, in its order.
                self.is_so((len(told[0][0]), told[0][0] in says * 10, line.machine.starts), (24, True, []))

    def test_words_of_the_record_count(self):
        """The first word is looked at with nine keys. Of the second word's eight keys and the start's seven the last ten are slow."""
        self.put("a.record", b"LDAODT 2\n001000 031421")
        machine = SlowConsole(9 + 6, memory=BOTH_WORDS)
        given, shown = self.load_at_a_terminal(machine, "two-words.lda --record a.record", quiet=1000)
        self.is_so((given.status, given.out), (0, "sent 25 spent 0 verified 2 of 2\nend Started\n"))
        self.assertTrue(shown.startswith(SHOWN.format(GOING_ON)), repr(shown))
        self.is_so(shown.count(GOING_ON), 1)
        self.assertTrue(shown.endswith(SHOWN.format("2 of 2 words, 100%, 0:00 left") + CLEARED + "1 of 2 by the record\r\n"), repr(shown))

    def test_what_is_told_behind_the_report(self):
        """How many words the record alone has verified, and what helps where a load is broken off; nothing where the start may
        have gone out, or nobody will go on, and of a record that memory does not hold no more than its fault. The line breaks behind
        so many keys and answers."""
        one, both = "LDAODT 2\n001000 031421", "LDAODT 2\n001000 031421\nH 001002 000377 000104\n"
        for record, close_after, more, end, told in (
            (None, None, "", "Started", ""),
            (one, None, "--recheck", "Started", ""),
            (both, None, "", "Started", "2 of 2 by the record\r\n"),
            (f"{both}G\n", None, "", "MaybeStarted",
             "2 of 2 by the record\r\nlook at the machine first: the program may run; to load it again remove the record\r\n"),
            (both, None, "--no-start", "Loaded", "2 of 2 by the record\r\n"),
            (one, 4, "", "LineFailed", f"1 of 2 by the record\r\n{GOES_ON}{FAILED}"),
            ("", 4, "", "LineFailed", f"{GOES_ON}{FAILED}"),
            (None, 4, "", "LineFailed", FAILED),
            (both, 5 + 2 * 25 + 4 + 2 * 6 + 1, "", "LineFailed",
             f"2 of 2 by the record\r\n{FAILED}ldaodt: the start may have gone out: look at the machine first\r\n"),
        ):
            with self.subTest(record=record, close_after=close_after, more=more):
                if record is not None:
                    self.put("a.record", record.encode())
                words = f"two-words.lda {more} {'' if record is None else '--record a.record'}"
                given, shown = self.load_at_a_terminal(Console(memory=BOTH_WORDS), words, close_after=close_after)
                self.is_so(given.out.split("\n")[1], f"end {end}")
                self.is_so(shown.split(CLEARED)[-1], told)
        self.put("a.record", both.encode())
        given, shown = self.load_at_a_terminal(Console(), "two-words.lda --record a.record")
        self.is_so((given.out.split("\n")[1], shown.split(CLEARED)[-1]), ("end Stale 001000", "ldaodt: memory does not hold what the record says: load with --recheck\r\n"))

    def test_a_report_that_can_not_be_written(self):
        """Where the start may have gone out, the terminal is told so: nothing else says it, and who loads again would start a second time."""
        self.put("going.record", b"LDAODT 2\n001000 011064\nG\n")
        may_run = "the start may have gone out: look at the machine first\r\n"
        for words, told in (("first.lda", may_run), ("first.lda --no-start", ""), ("first.lda --record going.record", may_run)):
            with self.subTest(words):
                given, shown = self.load_at_a_terminal(words=words, before="> /dev/full")
                self.is_so((given.status, shown.split(CLEARED)[-1]), (4, told + shown_as(NO_OUTPUT)))

    def test_what_is_told_where_a_machine_falls_silent(self):
        """Behind the first of its two words, which takes nine keys; or at once."""
        for record, keys, told in (("", 9, GOES_ON), (None, 9, ""), ("", 0, ASK_PROBE), ("LDAODT 2\n001000 031421", 9, f"1 of 2 by the record\r\n{GOES_ON}")):
            with self.subTest(record=record, keys=keys):
                if record is not None:
                    self.put("a.record", record.encode())
                words = f"two-words.lda --patience 2 {'' if record is None else '--record a.record'}"
                given, shown = self.load_at_a_terminal(SilentConsole(keys, memory=BOTH_WORDS), words)
                self.is_so((given.status, given.out.split("\n")[1]), (5, "end GaveUp"))
                self.is_so(shown.split(CLEARED)[-1], told)

    def test_which_bits_do_not_hold(self):
        """They are told from the highest on, also where a word is deposited twice; and what is told to be typed then shows them. A
        careful load has ruled out that the line changed a character."""
        for option, doubt in (("", "or the line changed a character: the same line with --careful decides\r\n"), ("--careful", "")):
            with self.subTest(option):
                given, shown = self.load_at_a_terminal(StuckConsole(), f"first.lda {option}")
                self.is_so((given.status, given.out.split("\n")[1]), (5, "end WontHold 001000"))
                told = shown.split(CLEARED)[-1]
                self.is_so(told, "001000 was given 011064 and reads 111060: bit 15 2; 'ldaodt memory LINE 001000 001000' shows more\r\n" + doubt)
                words = re.search(r"'ldaodt (memory .*)'", told)[1]
                test = self.ldaodt(self.words_at(self.console_at(StuckConsole()), words))
                self.is_so((test.status, test.out.split("\n")[1].split()[:17]), (1, ["000000-017776", "1", *"............", "0", ".", "."]))

    def test_each_bit_that_does_not_hold(self):
        """The highest and the lowest, and all between."""
        self.put("ones.lda", tape_of([(0o1000, b"\xff\xff")], 1))
        given, shown = self.load_at_a_terminal(ZeroConsole(), "ones.lda --careful")
        self.is_so((given.status, given.out.split("\n")[1]), (5, "end WontHold 001000"))
        bits = " ".join(str(it) for it in reversed(range(16)))
        self.is_so(shown.split(CLEARED)[-1], f"001000 was given 177777 and reads 000000: bit {bits}; 'ldaodt memory LINE 001000 001000' shows more\r\n")

    def test_a_line_that_can_not_be_reached(self):
        """Of each command, at a device and at a port: the fault alone is shown, behind how long a probe may take, and nothing of how far it is,
        which it never was."""
        self.put_tapes("first.lda")
        for command in AT_A_MACHINE:
            for line, why in (("./nothing", errno.ENOENT), (self.taken_port(), errno.ECONNREFUSED)):
                with self.subTest(command.name, line=line):
                    given, shown = self.at_a_terminal(lambda terminal: self.ldaodt(command.words(line=line), stderr=terminal))
                    before = PROBING.format("8 seconds", 20) if command.name == "probe" else ""
                    self.is_so((given.status, given.out, shown), (4, "", before + shown_as(fault(f"cannot connect to {line}", why))))
        self.holds({})

    def test_a_probe_says_that_it_works(self):
        """Before its first key, on a line of its own; and for how long, by the quiet time: four of them, and where nothing answers one for each
        mishap and two."""
        given, shown = self.at_a_terminal(lambda terminal: self.ldaodt(["probe", self.console_at(Console()).address, "--quiet", "1000"], stderr=terminal))
        self.is_so((given.status, given.out.split("\n")[-2], shown), (0, "end Probed", PROBING.format("4 seconds", 10)))
        for quiet, patience, mostly, at_worst in ((200, 8, "1 second", 2), (260, 8, "2 seconds", 3), (250, 0, "1 second", 1), (500, 1000, "2 seconds", 501)):
            ended = self.interrupted(f"probe LINE --patience {patience}", DeafConsole(), lambda machine: machine.typed, quiet)
            self.is_so((quiet, *ended), (quiet, (-signal.SIGINT, b""), PROBING.format(mostly, at_worst)))

    def test_a_verified_word_is_shown_also_where_it_can_not_be_kept(self):
        """The report counts it, too. The record has room for its header alone, and the keys that look at the word again
        are slow."""
        given, shown = self.load_at_a_terminal(SlowConsole(19), "first.lda --record a.record", quiet=1000, file_size=9)
        self.is_so((given.status, given.out), (4, "sent 23 spent 0 verified 1 of 1\nend KeepFailed\n"))
        self.assertTrue(shown.endswith(CLEARED + shown_as(fault("cannot write a.record", errno.EFBIG))), repr(shown))
        verified = SHOWN.format("1 of 1 words, 100%, 0:00 left")
        self.is_so(set(shown[:shown.index(CLEARED)].split("\r")), {"", LISTENING[1:], NO_WORD[1:], verified[1:]})


class Looks(Case):
    """A look whose standard error is a terminal."""

    def look_at_a_terminal(self, machine, words, quiet=None, close_after=None):
        self.put_tapes("first.lda", "two-words.lda")
        words = self.words_at(self.console_at(machine, close_after=close_after), words, quiet)
        return self.at_a_terminal(lambda terminal: self.ldaodt(words, stderr=terminal))

    def test_each_word_that_was_read_counts(self):
        """Each key is slow, so that a line is shown with each word; how long the rest takes is the computer's. A `save` of the
        two words types what a `verify` of them does."""
        for words, report in (("verify two-words.lda LINE", "sent 17 spent 0 looked 2 of 2 differ 0\nend Same\n"),
                              ("save a.lda LINE 1000 1002", "sent 33 spent 0 read 2 of 2\nend Saved\n")):
            with self.subTest(words):
                given, shown = self.look_at_a_terminal(SlowConsole(0, memory={0o1000: 0o031421, 0o1002: 0o104}), words, quiet=1000)
                self.is_so((given.status, given.out), (0, report))
                texts = re.findall(re.escape(SHOWN).replace(r"\{\}", "(.*?)"), shown)
                self.is_so([re.sub(r", 0:\d\d left$", "", it) for it in texts],
                           ["0 of 2 words, 0%, listening", "0 of 2 words, 0%", "1 of 2 words, 50%", "2 of 2 words, 100%"])
                self.assertTrue(shown.endswith(CLEARED), repr(shown))

    def test_differences_stand_on_lines_of_their_own(self):
        """Where the terminal that shows how far a verify is has its output, too. Each key is slow, so that something is shown with each."""
        self.put_tapes("two-words.lda")
        words = self.words_at(self.console_at(SlowConsole(0)), "verify two-words.lda LINE", 1000)
        _, shown = self.at_a_terminal(lambda it: subprocess.run([PROGRAM, *words], cwd=self.room, stdout=it, stderr=it, check=False))
        lines = []
        for line in shown.split("\r\n"):
            screen = Screen(80)
            screen.show(line)
            lines.append(screen.line)
        self.is_so(lines, ["001000 177777 031421 differs 000000", "001002 000377 000104 differs 000000",
                           "sent 33 spent 0 looked 2 of 2 differ 2", "end Differs", ""])
        self.assertIn("1 of 2 words, 50%", shown)

    def goes_on_with(self, machine):
        """A save that goes on behind a block of zeroes."""
        self.put("b.lda.part", tape_of([(0o1000, bytes(512))])[:-7] + bytes(526))
        return self.look_at_a_terminal(machine, "save b.lda LINE 1000 2776")

    def test_a_save_that_its_looks_hold_up(self):
        """What was shown is gone before the fault is told."""
        given, shown = self.goes_on_with(Console(memory={0o1000: 1}))
        self.is_so((given.status, given.out.split("\n")[1]), (5, "end Stale 001000"))
        stale = "ldaodt: memory does not hold what b.lda.part says: remove b.lda.part to begin again\r\n"
        self.is_so(shown.split(CLEARED), [SHOWN.format(SAVING_ON), stale])

    def test_mishaps_of_the_looks_of_a_save_count(self):
        """A key of the looks is lost, and none behind them."""
        given, shown = self.goes_on_with(LossyConsole(lost_key=30))
        self.is_so((given.status, given.out.split()[2:4]), (0, ["spent", "1"]))
        self.assertRegex(shown, r"256 of 512 words, 50%, 1 mishap")
        self.assertNotRegex(shown, r"\d%\x1b|\d%, \d+:")

    def test_what_is_told_of_a_save_that_ends_early(self):
        """That the same line goes on, where a block was read; nothing where none was, or all that can be had."""
        goes_on = "the same line goes on where it was; power lost? remove the .part file\r\n"
        for keys, told in ((16 * 300, goes_on), (1 + 16 * 256, goes_on), (1 + 16 * 255, ""), (16 * 200, "")):
            given, shown = self.look_at_a_terminal(SilentConsole(keys), "save a.lda LINE 1000 2776 --patience 2")
            self.is_so((given.status, given.out.split("\n")[1], shown.split(CLEARED)[-1]), (5, "end GaveUp", told))
            self.let_go_of("a.lda.part")
        given, shown = self.look_at_a_terminal(Console(words=600), "save a.lda LINE 1000 2776")
        self.is_so((given.status, given.out.split("\n")[1], shown.split(CLEARED)[-1]), (5, "end NoWord 002260", ""))
        self.let_go_of("a.lda")
        # Each of the two looks at a word has 25 keys and answers. The line breaks behind 300 words, and behind one.
        for words, told in ((300, goes_on), (1, "")):
            given, shown = self.look_at_a_terminal(Console(), "save a.lda LINE 1000 2776", close_after=5 + words * 50)
            self.is_so((given.status, given.out.split("\n")[1], shown.split(CLEARED)[-1]), (4, "end LineFailed", told + FAILED))
            self.let_go_of("a.lda.part")

    def let_go_of(self, name):
        """Removes a file, where it is there."""
        try:
            os.remove(self.path(name))
        except FileNotFoundError:
            pass

    def test_mishaps_are_counted(self):
        """As those of a load."""
        given, shown = self.look_at_a_terminal(DeafConsole(), "verify first.lda LINE --patience 2")
        self.is_so((given.status, given.out), (5, "sent 3 spent 2 looked 0 of 1 differ 0\nend GaveUp\n"))
        mishaps = "".join(SHOWN.format(f"0 of 1 words, 0%, {text}") for text in ("1 mishap", "2 mishaps"))
        self.is_so(shown, LISTENING + NO_WORD + mishaps + CLEARED + ASK_PROBE)


class Together(Case):
    """Standard output and standard error at one terminal: what was shown is cleared once, whatever ends it, before anything is printed."""

    def shown_at(self, machine, words, quiet=None, **named):
        """Runs a command at a machine; returns its status, what the terminal showed until it was cleared, and what stands there behind
        each time that it was."""
        peer = self.console_at(machine, **named)
        given, shown = self.at_a_terminal(lambda it: self.ldaodt(self.words_at(peer, words, quiet), stdout=it, stderr=it))
        progress, *told = shown.split(CLEARED)
        self.assertTrue(progress and "\n" not in progress, repr(shown))
        return given.status, progress, told

    def ends_once(self, machine, words, report, err="", **named):
        """Asserts that behind the line that was cleared the report stands, and last a fault; returns what was shown before."""
        status, progress, told = self.shown_at(machine, words, **named)
        self.is_so(len(told), 1)
        self.assertTrue(told[0].startswith(shown_as(report)) and told[0].endswith(shown_as(err)), repr(told))
        return status, progress

    def test_each_end(self):
        """Also where the line fails, memory ends, or a machine starts and falls silent."""
        self.put_tapes("first.lda")
        for number, run in enumerate(it for it in RUNS if not it.listed):
            with self.subTest(run.words, end=run.end):
                words = run.words.replace("new.lda", f"{number}.lda")
                status, progress = self.ends_once(run.console(0), words, run.answer().out, run.err, close_after=run.breaks, takes_last=True)
                self.is_so(status, run.status)
                self.assertTrue(progress.startswith(LISTENING), repr(progress))

    def test_looks_that_hold_it_up(self):
        """Words that were done before, of a load and of a save, and that memory does not hold, or no longer has; and a line that breaks in
        the looks."""
        self.put_tapes("first.lda")
        self.put("a.record", b"LDAODT 2\n001000 011064\n")
        self.put("a.lda.part", tape_of([(0o1000, bytes(512))])[:-7] + bytes(7 + 2 * 44 + 7))
        for words in ("load first.lda LINE --record a.record", "save a.lda LINE 1000 2126"):
            for end, status, machine, breaks in (("Stale 001000", 5, {"memory": {0o1000: 1}}, None), ("NoWord 001000", 5, {"words": 256}, None),
                                                 ("LineFailed", 4, {}, 6)):
                with self.subTest(words, end=end):
                    given, progress, told = self.shown_at(Console(**machine), words, close_after=breaks)
                    self.is_so((given, len(told)), (status, 1))
                    self.assertTrue("going on behind" in progress and told[0].startswith("sent "), repr((progress, told)))
                    self.assertIn(f"\r\nend {end}\r\n", told[0])

    def test_memory(self):
        """Of a test that comes to its end, where there is no memory, or a line that breaks."""
        for count, end, status, breaks in ((1024, "Tested", 0, None), (256, "NoWord 001000", 5, None), (1024, "LineFailed", 4, 150)):
            with self.subTest(end):
                words = Test(0o1000, 0o1006, 1, count=count).words()
                given, progress, told = self.shown_at(ChipConsole(Chips(count=count)), words, close_after=breaks)
                self.is_so((given, len(told)), (status, 1))
                self.assertTrue(progress.startswith(SHOWN.format("0 of 4 words, 0%, listening")), repr(progress))
                self.assertIn(f"\r\nend {end}\r\n", told[0])


class SlowChips(Losing, ChipConsole):
    """It takes its time for each CR: a line is shown with each word that was tested."""

    def take(self, key):
        if key == "\r":
            time.sleep(0.15)
        return super().take(key)


class SilentChips(ChipConsole):
    """It answers no key behind so many."""

    def __init__(self, keys):
        super().__init__(Chips(count=1024))
        self.keys = keys

    def take(self, key):
        answer = super().take(key)
        return answer if len(self.typed) <= self.keys else ""


class Tests(Case):
    """A test of memory whose standard error is a terminal."""

    # The keys of the trial of a console.
    TRIAL = 31

    def shown_of(self, test, lost_key=None):
        """The texts that are shown while a memory is tested, without the time that is left, and what each word held."""
        machine = SlowChips(chips=Chips(missing=test.missing), lost_key=lost_key)
        held = ["%06o" % machine.words.reading(it // 2) for it in test.tested()]
        peer = self.console_at(machine)
        given, shown = self.at_a_terminal(lambda it: self.ldaodt(self.words_at(peer, test.words(), 1000), stderr=it))
        self.is_so((given.status, given.out.split("\n")[-2]), (0, "end Tested"))
        texts = re.findall(re.escape(SHOWN).replace(r"\{\}", "(.*?)"), shown)
        return list(dict.fromkeys(re.sub(r", [\d:]+ left$", "", it) for it in texts)), held

    def test_each_word_counts(self):
        """Also those of an earlier bank, behind one that is not there. Behind them all the bus is tested at the first."""
        texts, held = self.shown_of(Test(0o17776, 0o40000, 1, missing=(1,)))
        self.is_so(texts, ["0 of 4098 words, 0%, listening", "0 of 4098 words, 0%", f"testing 017776, it held {held[0]}: 0 of 4098 words, 0%",
                           "1 of 4098 words, 0%", f"testing 040000, it held {held[1]}: 1 of 4098 words, 0%", "2 of 4098 words, 0%",
                           f"testing 017776, it held {held[0]}: 2 of 4098 words, 0%"])

    def test_every_so_manieth_word_counts(self):
        """Of five words each second one is tested, which are three."""
        texts, held = self.shown_of(Test(0o1000, 0o1010, 2))
        self.is_so(texts[-2:], [f"testing 001010, it held {held[2]}: 2 of 3 words, 66%", "3 of 3 words, 100%"])

    def test_mishaps_are_counted(self):
        """The second key of the first word's address is lost."""
        texts, held = self.shown_of(Test(0o1000, 0o1000, 1), lost_key=self.TRIAL + 2)
        self.is_so(texts, ["0 of 1 words, 0%, listening", "0 of 1 words, 0%", "0 of 1 words, 0%, 1 mishap",
                           f"testing 001000, it held {held[0]}: 0 of 1 words, 0%, 1 mishap", "1 of 1 words, 100%, 1 mishap",
                           f"testing 001000, it held {held[0]}: 1 of 1 words, 100%, 1 mishap"])


    def test_what_helps(self):
        """Only where no word was tested for want of answers: at a machine that never answers, and not where it falls silent later."""
        for silent_behind, told in ((0, ASK_PROBE), (self.TRIAL + 50, "")):
            with self.subTest(silent_behind):
                peer = self.console_at(SilentChips(silent_behind))
                given, shown = self.at_a_terminal(lambda it: self.ldaodt(self.words_at(peer, "memory LINE 1000 1002 --patience 1"), stderr=it))
                self.is_so((given.status, given.out.split("\n")[-2], shown.split(CLEARED)[1:]), (5, "end GaveUp", [told]))


class Plain(Case):
    """Command lines as short as they are typed, each about one word: without an option, so that the quiet time is the plain one."""

    def each(self, rows, machine):
        """Runs commands beside one another, each at a console of its own, and asserts how they end; returns what each has shown, by
        its words."""
        self.put_tapes("first.lda")
        peers = [self.console_at(machine(memory={0o1000: 0o011064})) for _ in rows]

        def given(row, peer):
            words = row[0].replace("LINE", peer.address)
            return self.at_a_terminal(lambda terminal: self.ldaodt(words, stderr=terminal))

        with ThreadPoolExecutor(len(rows)) as pool:
            answers = dict(zip(rows, pool.map(given, rows, peers)))
        self.is_so([(answer.status, answer.out.split("\n")[-2]) for answer, _ in answers.values()], [(0, f"end {end}") for _, end in rows])
        return {words: shown for (words, _), (_, shown) in answers.items()}

    def test_the_word_counts(self):
        """Each key is slow, so that a line is shown with each."""
        rows = [(it.line(), it.end) for it in COUNTING]
        for words, shown in self.each(rows, lambda memory: SlowConsole(0, memory=memory)).items():
            with self.subTest(words):
                texts = re.findall(re.escape(SHOWN).replace(r"\{\}", "(.*?)"), shown)
                self.is_so(list(dict.fromkeys(re.sub(r", 0:\d\d left$", "", it) for it in texts)),
                           ["0 of 1 words, 0%, listening", "0 of 1 words, 0%", "1 of 1 words, 100%"])
                self.assertTrue(shown.endswith(CLEARED), repr(shown))

    def test_a_probe_says_that_it_works(self):
        self.is_so(self.each((("probe LINE", "Probed"),), Console), {"probe LINE": PROBING.format("8 seconds", 20)})


class Output(Case):
    """A terminal that has standard output, too."""

    def test_the_line_in_which_a_machine_falls_silent_is_ended(self):
        """So that a shell's prompt stands in one of its own: `@` is the last that ODT prints. A file has what was said, and no more."""
        self.put_tapes("first.lda")
        for said, ended in (("\r\n001002\r\n@", True), ("DONE\r\n", False)):
            with self.subTest(said):
                lines = [self.console_at(Console(says=[(0, said)])) for _ in range(2)]
                words = [self.load_words(line, "first.lda --listen 1") for line in lines]
                _, shown = self.at_a_terminal(lambda it, words=words: subprocess.run([PROGRAM, *words[0]], cwd=self.room, stdout=it, stderr=it, check=True))
                self.is_so(shown.split(CLEARED)[1], shown_as(STARTED + said + "\n" * ended))
                given, shown = self.at_a_terminal(lambda it, words=words: self.ldaodt(words[1], stderr=it))
                self.is_so((given.out, shown.split(CLEARED)[-1]), (STARTED + said, ""))


class Input(Case):
    """A tape on standard input, where that is a terminal."""

    def type_at(self, words, keys):
        """Runs a command and types at its standard input."""
        ours, theirs = pty.openpty()
        try:
            os.write(ours, keys)
            return subprocess.run([PROGRAM, *words], cwd=self.room, stdin=theirs, capture_output=True, text=True, timeout=20, check=False)
        finally:
            os.close(ours)
            os.close(theirs)

    def test_the_name_alone_says_what_it_reads(self):
        """Ctrl-D is the end of the input."""
        given = self.type_at([], b"\x04")
        said = "ldaodt: reading a tape from standard input ('ldaodt --help' says more)\n"
        self.is_so((given.returncode, given.stdout, given.stderr), (3, "", f"{said}ldaodt: tape refused at 0: NoTransfer\n"))

    def test_what_a_refused_tape_is_instead(self):
        """By its first bytes, and only at a terminal."""
        last = b"\1\0\7\0\0\2\0" + bytes([-10 & 255])
        # Behind as much as is read of a file at once.
        far = bytes(8192) + b"text"
        behind = last + b"x"
        label = "it is no tape, or a label stands before it"
        places = {last: len(last), far: 8192, behind: len(last)}
        for data, told in ((b"", "the file is empty"), (b"\xff\xff" + last, "its leader is rubouts"), (far, label), (behind, ""),
                           (b":1000", "this is Intel HEX"), (b"S1130", "these are S-records"), (b"S4130", "this is text"), (b"\x1f\x8b\b\0", "this is compressed"),
                           (b"1000 1\n", "this is text"), (b"\x1f\x8c\b\0", label), (b"text\xff", "this is text"), (b"tex\xff", label), (last, "it lacks a block with a start")):
            with self.subTest(data):
                self.put("a.lda", data)
                given, shown = self.at_a_terminal(lambda it: self.ldaodt("check a.lda", stderr=it))
                why = "NoTransfer" if data in (last, b"") else "Stray"
                self.is_so((given.status, given.out), (3, ""))
                refused, *advice = shown.split("\r\n")
                self.is_so(refused, f"ldaodt: tape refused at {places.get(data, 0)}: {why}")
                self.is_so((advice[0].startswith(told), len(advice) > 1), (True, bool(told)))
                self.ends(self.ldaodt("check a.lda"), 3, "", f"{refused}\n")

    def is_advised(self, data, advice, more="", **words):
        """Asserts that of a file with this data a terminal is told that, and does what is told, with words in the place of those in
        capitals, and more behind them; returns what is then said of the tape."""
        self.put("a", data)
        given, shown = self.at_a_terminal(lambda it: self.ldaodt("check a", stderr=it))
        found = re.search(advice, shown.replace("\r\n", "\n"))
        self.is_so((given.status, bool(found)), (3, True))
        command = re.sub(r"\b(TAPE|FILE|N)\b", lambda it: words[it[0]], found[1]) + more
        path = f"{os.path.dirname(PROGRAM)}:{os.environ['PATH']}"
        subprocess.run(["bash", "-c", command], cwd=self.room, check=True, capture_output=True, env={**os.environ, "PATH": path})
        return self.ldaodt(["check", words["TAPE"]])

    def test_what_is_told_makes_a_tape(self):
        tape = bytes_of(FIRST)
        is_whole = lambda given, start: self.ends(given, 0, f"blocks 1 data 2 read 16\n{start}\ncanonical yes\nwords 1\n001000 177777 011064\n")
        is_whole(self.is_advised(tape[:-7], "\n(printf .*)\n", TAPE="a"), "no start 000001")
        is_whole(self.is_advised(gzip.compress(tape), ": (gunzip .*)\n", FILE="a", TAPE="b"), "start 001000")
        is_whole(self.is_advised(b"hello\n" + tape, "'(tail .*)'", FILE="a", TAPE="c", N="7"), "start 001000")
        is_whole(self.is_advised(b"001000 11064\n", "'(ldaodt make)'", " d a", TAPE="d"), "no start 000001")

    def test_what_is_told_of_hex_makes_a_tape(self):
        """Octal 011064 is hexadecimal 1234."""
        if not shutil.which("srec_cat"):
            self.skipTest("srec_cat is not installed")
        for data in (b":020200003412B6\n:00000001FF\n", b"S10502003412B2\nS9030000FC\n"):
            given = self.is_advised(data, "\n(srec_cat .*)\n", FILE="a", TAPE="b", N="1")
            self.is_so((given.status, given.out.splitlines()[1:]), (0, ["no start 000001", "canonical no", "words 1", "001000 177777 011064"]))

    def test_nothing_is_said_where_the_input_was_asked_for(self):
        given = self.type_at(["check", "-"], b"\x04")
        self.is_so((given.returncode, given.stdout, given.stderr), (3, "", "ldaodt: tape refused at 0: NoTransfer\n"))


if __name__ == "__main__":
    unittest.main()
