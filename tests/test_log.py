"""`--log`: a run at a machine says one line more, behind all else on standard error, and nothing else of it changes."""
import calendar
import errno
import os
import re
import socket
import subprocess
import time
import unittest

from cases import Case, Console
from chip_cases import ChipConsole, Chips, Test, word
from commands import AT_A_MACHINE, COMMANDS, RUNS
from outside import NO_OUTPUT, NO_PORT, PROGRAM, Answer, bytes_of, fault, text_of

# What a load of the first tape reports, and what a log has of that.
REPORT = "sent 30 spent 0 verified 1 of 1\nend Started\n"
STARTED = "end Started sent 30 spent 0 verified 1 of 1"

# Probes: how their machine is made, which has no word at 001000 where 256 words of memory end, and what the log has behind the words.
PROBES = (({}, "status 0 end Probed"), ({"words": 256}, "status 5 end NoWord 001000"))


def without_a_console():
    """Runs that come to no console: their words, status and fault."""
    for command in AT_A_MACHINE:
        yield command.line(line="x:y"), 4, fault("cannot connect to x:y", NO_PORT)
        yield command.line(line="./first.lda"), 2, f"ldaodt: ./first.lda is no serial device: {command.name} {command.order}\n"
        if command.takes("TAPE"):
            yield command.line("no-such.lda", line="x:1"), 4, fault("cannot read no-such.lda", errno.ENOENT)
            yield command.line("bad-sum.lda", line="x:1"), 3, "ldaodt: tape refused at 9: BadSum\n"
        if command.takes("[MORE].."):
            yield command.line("first.lda", "no-such.lda", line="x:1"), 4, fault("cannot read no-such.lda", errno.ENOENT)
            yield command.line("first.lda", "bad-sum.lda", line="x:1"), 3, "ldaodt: tape 2 refused at 9: BadSum\n"
        if command.takes("FILE"):
            yield command.line(file="first.lda", line="x:y"), 4, "ldaodt: first.lda is there already\n"


def asked(words):
    """What the log has of words: the line stands behind the files, and no address and no option is told."""
    name, *given = words.split(" --")[0].split()
    places = next(it.order for it in COMMANDS if it.name == name).replace(" [MORE]..", "").split()
    told = dict(zip(places, given))
    files = [told[it] for it in ("FILE", "TAPE") if it in told]
    return " ".join([name, *files, *given[len(places):], told["LINE"]])


class Logs(Case):
    def setUp(self):
        super().setUp()
        self.put_tapes("first.lda", "two-words.lda", "bad-sum.lda")

    def split(self, given):
        """An answer without its last line on standard error, and what that says behind its time, which is that of the run's end."""
        *before, last = given.err.splitlines(True)
        found = re.fullmatch(r"(\d{4}-\d\d-\d\dT\d\d:\d\d:\d\dZ) (.*)\n", last)
        self.assertTrue(found, repr(given.err))
        self.moment = calendar.timegm(time.strptime(found[1], "%Y-%m-%dT%H:%M:%SZ"))
        self.assertTrue(int(self.begun) <= self.moment <= time.time(), (self.begun, found[1], time.time()))
        return given._replace(err="".join(before)), found[2]

    def logged(self, words):
        """Does a run that is logged: what it answers but for that, and the log."""
        self.begun = time.time()
        return self.split(self.ldaodt([*(words.split() if isinstance(words, str) else words), "--log"]))

    def at(self, words, machine, more=None, **named):
        """Does a run at a machine of its own; in what it answers the line's address is LINE."""
        peer = self.console_at(machine, **named)
        self.begun = time.time()
        given = self.ldaodt(self.words_at(peer, words), **(more or {}))
        peer.settle()
        return given._replace(err=given.err.replace(peer.address, "LINE"))

    def logged_at(self, words, machine, more=None, **named):
        return self.split(self.at(f"{words} --log", machine, more, **named))

    def without_pace(self, answer):
        """A probe's pace varies."""
        return answer._replace(out=re.sub(r"^(key|a load of) .*\n", "", answer.out, flags=re.MULTILINE))


class AtAConsole(Logs):
    def test_each_end(self):
        """Where the line fails, the log comes behind what is said of that, too."""
        for run in RUNS:
            with self.subTest(run.words, end=run.end):
                given, log = self.logged_at(run.words, run.console(0), close_after=run.breaks, takes_last=True)
                self.is_so(given, run.answer())
                self.is_so(log, f"{asked(run.words)} status {run.status} end {run.end} sent {run.sent} spent 0 {run.counts}")
                other = self.at(run.words.replace("new.lda", "other.lda"), run.console(0), close_after=run.breaks, takes_last=True)
                self.is_so((other, bytes_of(self.path("other.lda"))), (given, bytes_of(self.path("new.lda"))))
                self.remove("new.lda", "other.lda")

    def remove(self, *names):
        """Takes files away that are there."""
        for name in names:
            if os.path.exists(self.path(name)):
                os.remove(self.path(name))

    def test_probes(self):
        for machine, told in PROBES:
            with self.subTest(told):
                given, log = self.logged_at("probe LINE", Console(**machine))
                self.is_so(log, f"{asked('probe LINE')} {told}")
                self.is_so(self.without_pace(given), self.without_pace(self.at("probe LINE", Console(**machine))))

    def test_tests_of_memory(self):
        """What they count is the line before the end."""
        tests = {
            Test(0o1000, 0o1006, 1, count=1024): "status 0 end Tested tested 4 words, 0 do not hold",
            Test(0o1000, 0o1006, 1, (word(0o1002, 3, "0"), word(0o1006, 0, "1")), count=1024): "status 1 end Tested tested 4 words, 2 do not hold",
            Test(0o1000, 0o1006, 1, count=256): "status 5 end NoWord 001000 tested 0 words, 0 do not hold",
        }
        for test, told in tests.items():
            with self.subTest(told):
                given, log = self.logged_at(test.words(), ChipConsole(Chips(test.faults, count=test.count)))
                self.is_so(log, f"{asked(test.words())} {told}")
                self.is_so(given, self.at(test.words(), ChipConsole(Chips(test.faults, count=test.count))))

    def test_several_tapes(self):
        given, log = self.logged_at("load two-words.lda LINE first.lda first.lda", Console())
        self.is_so((given.status, given.err), (0, ""))
        counts, end, _ = given.out.split("\n")
        self.is_so(log, f"load two-words.lda first.lda first.lda LINE status 0 {end} {counts}")

    def test_what_the_machine_says_is_no_report(self):
        """It stands behind the report, in whichever pieces it comes."""
        says = "\r\nend Stale 001000\r\nsent 9 spent 9\r\nend Uncertain\nsent 1\n"
        for pieces in ([says], list(says)):
            given, log = self.logged_at("load first.lda LINE --listen 1", Console(says=[(0, it) for it in pieces]))
            self.is_so((given.status, given.out[:len(REPORT)], given.err), (0, REPORT, ""))
            self.assertIn("end Stale 001000\r\nsent 9 spent 9\r\n", given.out)
            self.is_so(log, f"load first.lda LINE status 0 {STARTED}")

    def test_the_time_is_that_of_its_end(self):
        """And not when it began, or when it was connected: it is listened to for some seconds."""
        given, _ = self.logged_at("load first.lda LINE --listen 3", Console())
        self.is_so(given.status, 0)
        self.assertGreaterEqual(self.moment - int(self.begun), 3)

    def test_a_terminal(self):
        """The line comes behind all that is shown there."""
        peer = self.console_at(Console())
        self.begun = time.time()
        words = f"load first.lda {peer.address} --quiet {self.quiet} --log".split()
        given, shown = self.at_a_terminal(lambda terminal: self.ldaodt(words, stderr=terminal))
        self.is_so((given.status, given.out), (0, REPORT))
        last = shown.replace("\r\n", "\n").split("\r")[-1].removeprefix("\x1b[K")
        self.is_so(self.split(Answer(0, "", last))[1], f"load first.lda {peer.address} status 0 {STARTED}")


class WithoutAConsole(Logs):
    def test_faults(self):
        for words, status, err in without_a_console():
            with self.subTest(words):
                given, log = self.logged(words)
                self.ends(given, status, "", err)
                self.is_so(log, f"{asked(words)} status {status}")
                self.ends(self.ldaodt(words), status, "", err)

    def test_names(self):
        """They are shown as in a fault."""
        for tape, shown in (("", "''"), ("a\tb\x1b", "a\\tb\\u{1b}"), ("a b", "a b"), ("\xe9", "\xe9")):
            given, log = self.logged(["load", "first.lda", "x:1", tape])
            self.is_so((given.status, given.out, given.err.split("\n")[0]), (4, "", f"ldaodt: cannot read {shown}"))
            self.is_so(log, f"load first.lda {shown} x:1 status 4")

    def test_a_record_that_ends_it(self):
        self.put("a.record", b"LDAODT 2\n001000 011064\nG\n")
        given, log = self.logged("load first.lda x:1 --record a.record")
        self.ends(given, 6, "sent 0 spent 0 verified 1 of 1\nend MaybeStarted\n")
        self.is_so(log, "load first.lda x:1 status 6 end MaybeStarted sent 0 spent 0 verified 1 of 1")

    def test_words_that_are_refused(self):
        """They ask for nothing."""
        for words in ("load first.lda --log", "verify first.lda first.lda --log", "probe x:1 --log --log", "check first.lda --log"):
            given = self.ldaodt(words)
            self.is_so((given.status, given.out, given.err), (2, "", self.ldaodt(words).err))
            self.assertTrue(given.err.startswith("error: ") and given.err.endswith("'--help'.\n"), given.err)


class Outputs(Logs):
    def test_standard_error_that_can_not_be_written(self):
        for before in ("2> /dev/full", "2>&-"):
            given = self.at("load first.lda LINE --log", Console(), {"before": before})
            self.ends(given, 0, REPORT)
            self.ends(self.ldaodt("load no-such.lda x:1 --log", before=before), 4)

    def test_standard_output_that_can_not_be_written(self):
        """Without a report nothing is told of one."""
        for before in ("> /dev/full", ">&-"):
            given, log = self.logged_at("load first.lda LINE", Console(), {"before": before})
            self.ends(given, 4, "", NO_OUTPUT)
            self.is_so(log, "load first.lda LINE status 4")

    def test_a_report_that_is_cut(self):
        """Standard output is a file that takes so many bytes. A report has its end once the last byte of that is there."""
        counts = REPORT.index("\n") + 1
        for length in (0, counts - 1, counts, len(REPORT) - 1, len(REPORT)):
            with self.subTest(length=length), open(self.path("out"), "w+b") as out:
                given, log = self.logged_at("load first.lda LINE", Console(), {"stdout": out, "file_size": length})
                out.seek(0)
                self.is_so(out.read(), REPORT[:length].encode())
                whole = length == len(REPORT)
                self.ends(given, 0 if whole else 4, "", "" if whole else NO_OUTPUT)
                self.is_so(log, f"load first.lda LINE status 0 {STARTED}" if whole else "load first.lda LINE status 4")

    def test_it_is_one_write(self):
        """Over such a socket each write is a message. That of a tape with a long name, too, and of several."""
        long = "./" * 300 + "first.lda"
        for tape, *more in (["first.lda"], [long], [long, *["first.lda"] * 20]):
            peer = self.console_at(Console())
            self.begun = time.time()
            ours, theirs = socket.socketpair(socket.AF_UNIX, socket.SOCK_SEQPACKET)
            with ours:
                with theirs:
                    words = ["load", tape, peer.address, *more, "--quiet", str(self.quiet), "--log"]
                    ran = subprocess.Popen([PROGRAM, *words], cwd=self.room, stdin=subprocess.DEVNULL, stdout=subprocess.DEVNULL, stderr=theirs)
                    self.addCleanup(self.let_go, ran)
                messages = [text_of(it) for it in iter(lambda: ours.recv(1 << 20), b"")]
            self.is_so((ran.wait(60), len(messages)), (0, 1))
            self.is_so(self.split(Answer(0, "", messages[0]))[1], f"load {' '.join([tape, *more])} {peer.address} status 0 {STARTED}")


if __name__ == "__main__":
    unittest.main()
