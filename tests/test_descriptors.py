"""More files than the system lets the program have open: what it says of them is what it says where there are enough.

The files that the words name are opened in the order of the words, before any is read. Where no descriptor is left,
those that are open are read and closed, and the next is opened then. Nobody sees that: neither in which file a fault
names, nor in which fault comes first, nor in how much is taken of a pipe.
"""
import errno
import os
import resource
import threading
import unittest

from cases import Case, Console
from commands import OF_TAPES
from outside import Answer, fault, tape_of

TAPES = 40

# How many files a process may have open, its three streams among them: as the task of such a load may have it, and the
# fewest with which a program of the C library begins at all.
LIMITS = (20, 4)
AMPLE = 256

BAD = b"\1\0\x08\0\0\2\x34\x12\0"
BAD_SUM = "refused at 0: BadSum"


def limited(files, memory=None):
    """The setup of a process that may have so many files open, and so much memory."""
    def setup():
        resource.setrlimit(resource.RLIMIT_NOFILE, (files, files))
        if memory is not None:
            resource.setrlimit(resource.RLIMIT_AS, (memory, memory))
    return setup


def address(number):
    return 0o1000 + 2 * number


def value(number):
    return 0o12345 + number


class Many(Case):
    """Forty tapes of one word each, which differ in it."""

    def setUp(self):
        super().setUp()
        self.names = [f"t{number}.lda" for number in range(TAPES)]
        for number, name in enumerate(self.names):
            self.put(name, tape_of([(address(number), value(number).to_bytes(2, "little"))], 0o1000))

    def with_names(self, names):
        """The tapes' names, with others in the place of some."""
        return [names.get(number, name) for number, name in enumerate(self.names)]

    def answers(self, words, limits=LIMITS, **more):
        """Runs the program with each limit; asserts that it answers as with an ample one, and returns that."""
        ample = self.ldaodt(words, setup=limited(AMPLE), **more)
        for limit in limits:
            self.is_so((limit, self.ldaodt(words, setup=limited(limit), **more)), (limit, ample))
        return ample

    def told(self, words, status, text):
        """Asserts that a fault is told, whatever the limit."""
        why = None if "refused" in text else errno.EISDIR if text.endswith("folder") else errno.ENOENT
        self.is_so((words, self.answers(words)), (words, Answer(status, "", fault(text, why))))

    def tell(self, names, status, text):
        """Asserts that each command tells a fault of tapes of these names. A console that is named is not looked for."""
        for command in OF_TAPES:
            words = command.words(*names, line="127.0.0.1:1", script="/dev/null")
            self.told([*words, "--record", "a.record"] if command.name == "load" else words, status, text)
        self.assertFalse(os.path.exists(self.path("a.record")))


class Files(Many):
    """Files of a folder."""

    def test_all_are_good(self):
        lines = "blocks 1 data 2 read 16\nstart 001000\ncanonical yes\n" * TAPES + f"words {TAPES}\n"
        lines += "".join(f"{address(number):06o} 177777 {value(number):06o}\n" for number in range(TAPES))
        self.is_so(self.answers(["check", *self.names]), Answer(0, lines, ""))
        shown = self.answers(["dialogue", *self.names])
        self.is_so((shown.status, shown.err), (0, ""))

    def test_one_that_is_missing_is_named_before_any_is_judged(self):
        for place in (3, 4, 16, 17, 18, 30, TAPES - 1):
            self.tell(self.with_names({place: "none.lda"}), 4, "cannot read none.lda")
        self.put("bad.lda", BAD)
        self.tell(self.with_names({2: "bad.lda", 30: "none.lda"}), 4, "cannot read none.lda")

    def test_the_first_of_two_that_are_missing(self):
        self.tell(self.with_names({25: "first.lda", 35: "last.lda"}), 4, "cannot read first.lda")
        self.tell(self.with_names({16: "first.lda", 17: "last.lda"}), 4, "cannot read first.lda")

    def test_one_that_is_bad_is_told_by_its_number(self):
        self.put("bad.lda", BAD)
        for place in (0, 4, 17, 30, TAPES - 1):
            self.tell(self.with_names({place: "bad.lda"}), 3, f"tape {place + 1} {BAD_SUM}")
        self.tell(self.with_names({5: "bad.lda", 30: "bad.lda"}), 3, f"tape 6 {BAD_SUM}")

    def test_one_that_can_not_be_read_is_told_in_its_turn(self):
        os.mkdir(self.path("folder"))
        self.put("bad.lda", BAD)
        self.tell(self.with_names({4: "folder"}), 4, "cannot read folder")
        self.tell(self.with_names({4: "folder", 30: "none.lda"}), 4, "cannot read none.lda")
        self.tell(self.with_names({4: "folder", 30: "bad.lda"}), 4, "cannot read folder")
        self.tell(self.with_names({4: "folder", 5: "/proc/self/mem"}), 4, "cannot read folder")
        self.tell(self.with_names({4: "bad.lda", 5: "folder"}), 3, f"tape 5 {BAD_SUM}")

    def test_what_it_is_instead_is_not_guessed(self):
        """Where others were read since, a person at a terminal is told nothing by the bytes with which those begin; else what its own say."""
        rubouts = "its leader is rubouts: LC_ALL=C sed '1s/^\\o377*//' FILE > TAPE\r\n"
        self.put("stray.lda", b"\xff" * 4)
        self.put("text.lda", b"text")
        names = self.with_names({4: "stray.lda", **dict.fromkeys(range(5, TAPES), "text.lda")})
        for limit in (AMPLE, *LIMITS):
            given, shown = self.at_a_terminal(lambda it: self.ldaodt(["check", *names], stderr=it, setup=limited(limit)))
            told = "ldaodt: tape 5 refused at 0: Stray\r\n" + (rubouts if limit == AMPLE else "")
            self.is_so((limit, given.status, shown), (limit, 3, told))

    def test_what_it_lacks_is_not_guessed(self):
        """Where others were read since, a person is not told a checksum by the bytes with which the last of those ends."""
        whole = tape_of([(0o1000, b"\1\2")], 0o1000)
        self.put("cut.lda", whole[:-8])
        self.put("lacking.lda", whole[:-1])
        names = self.with_names({4: "cut.lda", TAPES - 1: "lacking.lda"})
        for limit in (AMPLE, *LIMITS):
            given, shown = self.at_a_terminal(lambda it: self.ldaodt(["check", *names], stderr=it, setup=limited(limit)))
            self.is_so((limit, given.status, shown), (limit, 3, "ldaodt: tape 5 refused at 0: Cut\r\n"))
        # Read by itself the last is told.
        given, shown = self.at_a_terminal(lambda it: self.ldaodt(["check", "lacking.lda"], stderr=it))
        self.assertIn("printf", shown)

    def test_a_lack_that_is_over_is_no_reason(self):
        """A record that is a pipe is refused for what it is. That the tapes before it had no descriptor once is not told with it."""
        os.mkfifo(self.path("pipe"))
        words = ["load", self.names[0], "127.0.0.1:1", *self.names[1:], "--record", "pipe"]
        self.is_so(self.answers(words), Answer(4, "", fault("cannot read pipe")))

    def test_one_without_end_fills_no_memory(self):
        """As much is taken of it as a tape may have, and of what follows a tape nothing."""
        words = ["check", *self.with_names({4: "/dev/zero"})]
        given = self.ldaodt(words, setup=limited(20, memory=64 << 20))
        self.ends(given, 3, "", "ldaodt: tape 5 refused at 1048576: TooLong\n")


class Pipes(Many):
    """Pipes, of which what was taken is gone."""

    def setUp(self):
        super().setUp()
        os.mkfifo(self.path("pipe"))
        with open(self.path(self.names[4]), "rb") as file:
            self.tape = file.read()

    def writing(self, data, until=None):
        """Somebody writes into the pipe, once, and keeps it open until then."""
        def write():
            with open(self.path("pipe"), "wb") as pipe:
                pipe.write(data)
                pipe.flush()
                if until is not None:
                    until.wait(60)
        writer = threading.Thread(target=write, daemon=True)
        writer.start()
        return writer

    def test_a_pipe_among_tapes(self):
        """It is opened once: who opened it anew would wait for another writer. And of one that stays open no more is
        awaited than the tape: the program ends before its writer does. Of a rehearsal's further tapes, too."""
        self.put("clean.script", b"clean\n")
        for command in (["check"], ["rehearse", self.names[0], "clean.script"]):
            behind = len(command) > 1
            wanted = self.answers([*command, *self.names[behind:]])
            for limit in (AMPLE, *LIMITS):
                for stays in (False, True):
                    is_over = threading.Event()
                    writer = self.writing(self.tape, is_over if stays else None)
                    given = self.ldaodt([*command, *self.with_names({4: "pipe"})[behind:]], setup=limited(limit))
                    is_awaited = stays and not writer.is_alive()
                    is_over.set()
                    writer.join()
                    self.is_so((command, limit, stays, given, is_awaited), (command, limit, stays, wanted, False))

    def test_a_pipe_with_a_tape_that_is_refused(self):
        """No more of it is awaited than up to there."""
        for limit in (AMPLE, *LIMITS):
            is_over = threading.Event()
            writer = self.writing(BAD, is_over)
            given = self.ldaodt(["check", *self.with_names({4: "pipe"})], setup=limited(limit))
            is_awaited = not writer.is_alive()
            is_over.set()
            writer.join()
            self.is_so((limit, given, is_awaited), (limit, Answer(3, "", f"ldaodt: tape 5 {BAD_SUM}\n"), False))

    def test_an_open_pipe_by_its_number(self):
        """As a shell hands over `<(..)`; both names of one pipe are read in their order."""
        for text, status, fault in ((self.tape, 0, ""), (b"", 3, "ldaodt: tape 5 refused at 0: NoTransfer\n")):
            for limit in (AMPLE, 20):
                ours, theirs = os.pipe()
                os.write(theirs, text)
                os.close(theirs)
                given = self.ldaodt(["check", *self.with_names({4: f"/dev/fd/{ours}"})], setup=limited(limit), pass_fds=(ours,))
                os.close(ours)
                self.is_so((limit, given.status, given.err), (limit, status, fault))


class Scripts(Many):
    """Rehearsals: the script is opened behind the first tape, and read behind the last."""

    def setUp(self):
        super().setUp()
        self.put("good.script", b"# the first digit is lost\nto 4\ndown 0\nquiet\n" + b"# nothing\n" * 1000 + b"\nclean\n")
        self.put("bad.script", b"what is this\n")
        self.put("bad.lda", BAD)
        os.mkdir(self.path("folder"))

    def words(self, script, names):
        return ["rehearse", names[0], script, *names[1:]]

    def test_all_are_good(self):
        """A script of several lines, and of more than a buffer. A lost digit costs four keys more."""
        given = self.answers(self.words("good.script", self.names))
        stand = "".join(f"{address(number):06o} {value(number):06o} stands\n" for number in range(TAPES))
        report = f"sent {1 + 22 * TAPES + 7 + 4} lost 1 spent 1 verified {TAPES} of {TAPES}\nend Started\nodt Running 001000\n"
        self.is_so(given, Answer(0, report + stand, ""))

    def test_faults_in_their_order(self):
        for script, names, status, text in (
            ("none.script", {}, 4, "cannot read none.script"),
            ("none.script", {30: "none.lda"}, 4, "cannot read none.script"),
            ("none.script", {0: "none.lda"}, 4, "cannot read none.lda"),
            ("bad.script", {30: "none.lda"}, 4, "cannot read none.lda"),
            ("folder", {30: "none.lda"}, 4, "cannot read none.lda"),
            ("bad.script", {30: "bad.lda"}, 3, f"tape 31 {BAD_SUM}"),
            ("folder", {2: "bad.lda"}, 3, f"tape 3 {BAD_SUM}"),
            ("folder", {}, 4, "cannot read folder"),
            ("bad.script", {}, 3, "script refused at line 1"),
            ("/dev/zero", {}, 3, "script refused at line 0"),
        ):
            self.told(self.words(script, self.with_names(names)), status, text)


class Machines(Many):
    """Loads and looks: record and console are opened behind the tapes, which are closed by then."""

    def at_a_machine(self, words, limit):
        """Runs a command at a machine of its own, with LINE behind its first word; returns what came, and the machine."""
        peer = self.console_at(Console())
        command, first, *more = words
        given = self.ldaodt([command, first, peer.address, *more, "--quiet", str(self.quiet)], setup=limited(limit))
        peer.settle()
        return given, peer.machine

    def test_a_load_and_a_look(self):
        wanted, _ = self.at_a_machine(["load", *self.names], AMPLE)
        self.is_so((wanted.status, wanted.err), (0, ""))
        self.assertIn(f"verified {TAPES} of {TAPES}\nend Started\n", wanted.out)
        given, machine = self.at_a_machine(["load", *self.names, "--record", "a.record"], 20)
        self.is_so(given, wanted)
        self.is_so([machine.word(address(number)) for number in range(TAPES)], [value(number) for number in range(TAPES)])
        given, _ = self.at_a_machine(["verify", *self.names], 20)
        self.is_so((given.status, given.err), (1, ""))
        self.assertIn(f"looked {TAPES} of {TAPES} differ {TAPES}\nend Differs\n", given.out)


if __name__ == "__main__":
    unittest.main()
