"""Outputs that are full, closed, or read by nobody; answers that have to be one write; when keys are answered; and
input that can't be read."""
import errno
import os
import select
import socket
import subprocess
import unittest

import commands
from cases import Case, Console, DeafConsole
from outside import LOST_DIGIT, NO_OUTPUT, NO_PORT, PROGRAM, Answer, fault, tape_of, text_of

NO_INPUT = fault("cannot read standard input", errno.EBADF)

# Command lines that have something printed, and what stands on standard input. A load stands for itself below.
PRINTING = {
    **{it.line(script=LOST_DIGIT): it.keys for it in commands.PRINTING},
    "check --blocks first.lda": b"",
    "--help": b"",
    "help load": b"",
    "--version": b"",
}

# Command lines that have something told on standard error alone: the status and the text.
TOLD = {
    **{it.line("bad-sum.lda", script=LOST_DIGIT): (3, "ldaodt: tape refused at 9: BadSum\n") for it in commands.READING},
    **{it.line("no-such.lda", script=LOST_DIGIT): (4, fault("cannot read no-such.lda", errno.ENOENT)) for it in commands.READING},
    **{it.line(line="x:y"): (4, fault("cannot connect to x:y", NO_PORT)) for it in commands.AT_A_MACHINE},
    "check first.lda first.lda long": (3, "ldaodt: tape 3 refused at 1048576: TooLong\n"),
    "make new.lda long": (3, "ldaodt: words refused at line 1: BadNumber\n"),
    "rehearse first.lda long": (3, "ldaodt: script refused at line 0\n"),
    "load first.lda x:y --record long": (3, "ldaodt: record refused: NotARecord\n"),
    "--dry-run": (2, "error: unexpected argument '--dry-run' found\n\nUsage: ldaodt [COMMAND]\n\nFor more information, try '--help'.\n"),
}


# Which descriptors a program is started without.
CLOSED = ("<&-", ">&-", "2>&-", "<&- >&-", "<&- 2>&-", ">&- 2>&-", "<&- >&- 2>&-")


# The files that these words name: two tapes, and what is longer than a tape, a script or a record may be.
def put_files(case):
    case.put_tapes("first.lda", "bad-sum.lda")
    case.put("long", bytes((1 << 20) + 1))


class Outputs(Case):
    """The files that the words name are there."""

    def setUp(self):
        super().setUp()
        put_files(self)

    def test_standard_output_that_can_not_be_written(self):
        """Full, or closed; whether or not that can be told."""
        for words, keys in PRINTING.items():
            with self.subTest(words):
                for before in ("> /dev/full", ">&-"):
                    self.ends(self.ldaodt(words, keys, before=before), 4, "", NO_OUTPUT)
                    for more in ("2> /dev/full", "2>&-"):
                        self.ends(self.ldaodt(words, keys, before=f"{before} {more}"), 4)

    def test_a_load_without_standard_output(self):
        """The machine is loaded and started, whatever becomes of the report."""
        for before in ("> /dev/full", ">&-"):
            peer = self.console_at(Console())
            self.ends(self.ldaodt(f"load first.lda {peer.address} --quiet {self.quiet}", before=before), 4, "", NO_OUTPUT)
            peer.settle()
            self.is_so(peer.machine.starts, [0o1000])

    def test_standard_error_that_can_not_be_written(self):
        """The status stays, and what is printed."""
        for before in ("2> /dev/full", "2>&-"):
            for words, (status, _) in TOLD.items():
                with self.subTest(words):
                    self.ends(self.ldaodt(words, before=before), status)
            for words, keys in PRINTING.items():
                with self.subTest(words):
                    self.is_so(self.ldaodt(words, keys, before=before), self.ldaodt(words, keys))

    def test_what_is_told_is_told_alone(self):
        for words, (status, text) in TOLD.items():
            with self.subTest(words):
                self.ends(self.ldaodt(words), status, "", text)


class Readers(Case):
    """Whoever read the output has gone. Of what only prints nothing is said: nobody waits for the rest."""

    def unread(self, words, keys=b""):
        """Runs the program with an output whose reader has gone before it begins."""
        ours, theirs = os.pipe()
        os.close(ours)
        given = self.ldaodt(words, keys, stdout=theirs)
        os.close(theirs)
        return given

    def left(self, words, text, keys=b"", more=b""):
        """Runs the program with an output whose reader goes once it has as much as this text; then more keys come.
        Asserts that the text was read, and that nothing is said of the rest."""
        process = subprocess.Popen([PROGRAM, *words.split()], cwd=self.room, stdin=subprocess.PIPE, stdout=subprocess.PIPE, stderr=subprocess.PIPE)
        with process:
            process.stdin.write(keys)
            process.stdin.flush()
            read = process.stdout.read(len(text))
            process.stdout.close()
            process.stdin.write(more)
            process.stdin.close()
            told = process.stderr.read()
        self.ends(Answer(process.returncode, text_of(read), text_of(told)), 4, text)

    def test_nobody_has_read_anything(self):
        put_files(self)
        for words, keys in PRINTING.items():
            with self.subTest(words):
                self.ends(self.unread(words, keys), 4)

    def test_somebody_has_read_the_beginning(self):
        """A dialogue of more than a pipe takes, and keys that come behind the reader's leaving."""
        self.put("long.lda", tape_of([(0o1000, b"\x01" * 20000)]))
        self.left("dialogue long.lda", "Z -> ?<CR><LF>@\n")
        self.left("type", "001000/000000 ", b"001000/", b"011064\n")

    def test_a_fault_is_told_all_the_same(self):
        put_files(self)
        for words, (status, text) in TOLD.items():
            with self.subTest(words):
                self.ends(self.unread(words), status, "", text)

    def test_what_was_done_at_a_machine(self):
        """The report of a load, a look or a probe is missed by whoever sits there: that it is lost is told."""
        self.put_tapes("first.lda")
        for command in commands.AT_A_MACHINE:
            with self.subTest(command.name):
                peer = self.console_at(Console())
                given = self.unread(f"{command.line(line=peer.address)} --quiet {self.quiet}")
                peer.settle()
                self.ends(given, 4, "", NO_OUTPUT)


class Descriptors(Case):
    """The program is started without some of the descriptors 0 to 2: no file that it opens takes their place."""

    def load_without(self, closed, close_after):
        self.put_tapes("first.lda")
        peer = self.console_at(Console(), close_after=close_after)
        given = self.ldaodt(f"load first.lda {peer.address} --quiet {self.quiet} --record a.record", before=closed)
        peer.settle()
        return given, peer

    def test_a_load_keeps_its_record(self):
        """Whether the line holds, or breaks after 40 characters, in the first word's deposit."""
        for closed in CLOSED:
            for close_after, status, record in ((None, 0, "LDAODT 2\n001000 011064\nG\n"), (40, 4, "LDAODT 2\n")):
                with self.subTest(closed, close_after=close_after):
                    given, peer = self.load_without(closed, close_after)
                    self.is_so(given.status, 4 if " >&-" in f" {closed}" else status)
                    self.holds({"a.record": record})
                    self.is_so(peer.machine.starts, [] if close_after else [0o1000])
                    os.remove(self.path("a.record"))

    def test_each_is_the_null_device_meanwhile(self):
        """While a load that has its record waits for a console that says nothing."""
        self.put_tapes("first.lda")
        null = subprocess.DEVNULL
        for closed in ((0,), (1,), (2,), (0, 1), (0, 2), (1, 2), (0, 1, 2)):
            with self.subTest(closed):
                peer = self.console_at(DeafConsole())
                load = subprocess.Popen([PROGRAM, "load", "first.lda", peer.address, "--quiet", "60000", "--record", "a.record"], cwd=self.room,
                                        stdin=null, stdout=null, stderr=null, preexec_fn=lambda closed=closed: [os.close(it) for it in closed])
                self.addCleanup(self.let_go, load)
                self.until(lambda: os.path.exists(self.path("a.record")))
                self.is_so([os.readlink(f"/proc/{load.pid}/fd/{it}") for it in closed], ["/dev/null"] * len(closed))
                self.let_go(load)
                os.remove(self.path("a.record"))


class Writes(Case):
    """Each answer is one write, so that lines of several programs on one terminal don't mix."""

    def written(self, words, descriptor, keys=b"", other=subprocess.DEVNULL):
        """Runs the program, and returns each write to a descriptor: over such a socket each is a message. What is
        written to the other one goes nowhere, or to this file."""
        ours, theirs = socket.socketpair(socket.AF_UNIX, socket.SOCK_SEQPACKET)
        with ours:
            with theirs:
                streams = {"stdout": other, "stderr": other, descriptor: theirs.fileno()}
                ran = subprocess.Popen([PROGRAM, *words], cwd=self.room, stdin=subprocess.PIPE, **streams)
                ran.stdin.write(keys)
                ran.stdin.close()
            ours.settimeout(60)
            messages = list(iter(lambda: ours.recv(1 << 20), b""))
            ran.wait(60)
        return messages

    def test_what_is_printed(self):
        self.put_tapes("first.lda")
        for words in ("--help", "help load", "--version", "check first.lda"):
            with self.subTest(words):
                self.is_so(self.written(words.split(), "stdout"), [self.ldaodt(words).out.encode()])
                self.is_so(self.written(words.split(), "stderr"), [])

    def test_what_can_not_be_printed(self):
        self.put_tapes("first.lda")
        with open("/dev/full", "wb") as full:
            for words, keys in PRINTING.items():
                with self.subTest(words):
                    self.is_so(self.written(words.split(), "stderr", keys, other=full), [NO_OUTPUT.encode()])

    def test_what_is_told(self):
        put_files(self)
        for words, (_, text) in TOLD.items():
            with self.subTest(words):
                self.is_so(self.written(words.split(), "stderr"), [line.encode() for line in (text.splitlines(True) if text.startswith("ldaodt: ") else [text])])
                self.is_so(self.written(words.split(), "stdout"), [])

    def test_a_long_name(self):
        """Each pair of an escape character and a letter of two bytes is shown in eight bytes."""
        told = self.written(["check", "\x1b\xe9" * 20000], "stderr")
        self.is_so(told, [b"ldaodt: cannot read " + b"\\u{1b}\xc3\xa9" * 20000 + b"\n", f"ldaodt: {os.strerror(errno.ENAMETOOLONG)}\n".encode()])


class Keys(Case):
    """All keys of a read are answered before more is read."""

    def answer(self, typing, length):
        """So many characters of the answers, once they are there; fewer where none come for a minute."""
        answer = b""
        while len(answer) < length and select.select([typing.stdout], [], [], 60)[0]:
            piece = os.read(typing.stdout.fileno(), length - len(answer))
            if not piece:
                break
            answer += piece
        return answer

    def are_answered(self, pieces):
        """Types pieces of keys, each once the one before it is answered."""
        typing = subprocess.Popen([PROGRAM, "type"], stdin=subprocess.PIPE, stdout=subprocess.PIPE)
        with typing:
            for keys, answer in pieces:
                typing.stdin.write(keys)
                typing.stdin.flush()
                self.is_so((keys, self.answer(typing, len(answer))), (keys, answer))
            typing.stdin.close()
            self.is_so(typing.stdout.read(), b"")
        self.is_so(typing.returncode, 0)

    def test_keys_that_come_in_pieces(self):
        """A line feed is typed as a return."""
        self.are_answered((
            (b"001000/", b"001000/000000 "),
            (b"011064\n", b"011064\r\n@"),
            (b"Z", b"?\r\n@"),
            (b"001000/\n", b"001000/011064 \r\n@"),
        ))

    def test_keys_that_come_one_by_one(self):
        opened = [(b"0", b"0"), (b"0", b"0"), (b"1", b"1"), (b"0", b"0"), (b"0", b"0"), (b"0", b"0")]
        value = [(b"0", b"0"), (b"1", b"1"), (b"1", b"1"), (b"0", b"0"), (b"6", b"6"), (b"4", b"4")]
        deposit = [*opened, (b"/", b"/000000 "), *value, (b"\r", b"\r\n@")]
        self.are_answered([*deposit, *opened, (b"/", b"/011064 "), (b"9", b"?\r\n@"), *opened, (b"G", b"G")])


class Input(Case):
    """Standard input that can't be read."""

    def test_a_folder_as_standard_input(self):
        folder = os.open(self.room, os.O_RDONLY)
        self.addCleanup(os.close, folder)
        for words in ("", "type"):
            self.ends(self.ldaodt(words, stdin=folder), 4, "", fault("cannot read standard input", errno.EISDIR))

    def test_no_standard_input(self):
        for words in ("", "type"):
            self.ends(self.ldaodt(words, before="<&-"), 4, "", NO_INPUT)

    def test_who_does_not_read_standard_input_does_without(self):
        self.put_tapes("first.lda")
        self.is_so(self.ldaodt("check first.lda", before="<&-"), self.ldaodt("check first.lda"))


if __name__ == "__main__":
    unittest.main()
