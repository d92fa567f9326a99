"""What a person at a terminal is told to do, done: each command is taken out of what was told and run, and what it makes is what was
wanted. And what follows a tape in its file."""
import os
import re
import shutil
import subprocess
import unittest

from cases import Case, Console
from outside import FIRST, PROGRAM, block, bytes_of, tape_of

# A tape, and its bytes without the block that ends it.
TAPE = tape_of([(0o1000, b"\x34\x12\xad\xde")], 0o1000)
FRONT = TAPE[:-7]

# Which byte of a file its tape begins with, as `tail` counts them.
WHICH_BYTE = "its first 001 is byte N, from 1\n"


class Told(Case):
    """What a terminal is told of a command, and what comes of that."""

    def shown(self, words, status=3):
        """What a terminal is shown of a command."""
        given, shown = self.at_a_terminal(lambda it: self.ldaodt(words, stderr=it))
        self.is_so(given.status, status)
        return shown.replace("\r\n", "\n")

    def does(self, shown, command, **names):
        """Runs the command that this pattern finds in what was shown, with these names in place of its own."""
        found = re.search(command, shown)
        self.assertIsNotNone(found, shown)
        line = found[0]
        for name, value in names.items():
            self.assertIn(name, line)
            line = line.replace(name, value)
        path = f"{os.path.dirname(PROGRAM)}:{os.environ['PATH']}"
        subprocess.run(["sh", "-c", line], cwd=self.room, env={**os.environ, "PATH": path}, check=True, capture_output=True)

    def makes(self, tape, name="b.lda"):
        self.is_so(bytes_of(self.path(name)), tape)


class Advice(Told):
    """Files that are refused, and what makes tapes and words of them."""

    def refuses(self, text):
        self.put("a.lda", text)
        return self.shown("check a.lda")

    def test_a_tape_without_its_last_block(self):
        self.does(self.refuses(FRONT), r"printf .*TAPE", TAPE="a.lda")
        self.makes(FRONT + block(1, b""), "a.lda")
        self.is_so(self.ldaodt("check a.lda").status, 0)

    def test_a_tape_without_its_last_byte(self):
        """Of a start that needs one, two and three digits for it."""
        for start in (0o1000, 0o7, 0o377, 0o157776):
            tape = tape_of([(0o1000, b"\x34\x12")], start)
            self.does(self.refuses(tape[:-1]), r"printf .*TAPE", TAPE="a.lda")
            self.makes(tape, "a.lda")

    def test_a_long_tape_without_its_last_byte(self):
        """However much of its last block stands in the first 8192 bytes of the file, or twice that, as it is read."""
        for length in (8192, 16384):
            for behind in range(8):
                tape = bytes(length + behind - len(TAPE) + 1) + TAPE
                self.is_so(len(tape), length + behind + 1)
                self.does(self.refuses(tape[:-1]), r"printf .*TAPE", TAPE="a.lda")
                self.makes(tape, "a.lda")

    def test_one_of_several_without_its_last_byte(self):
        """As of the only one; whether it is the last or not."""
        self.put("good.lda", TAPE)
        for words in ("check good.lda a.lda", "check a.lda good.lda", "check good.lda good.lda a.lda good.lda"):
            self.put("a.lda", TAPE[:-1])
            self.does(self.shown(words), r"printf .*TAPE", TAPE="a.lda")
            self.makes(TAPE, "a.lda")

    def test_a_tape_that_is_cut_elsewhere_is_given_no_byte(self):
        for cut in (TAPE[:5], TAPE[:len(FRONT) - 1], TAPE[:-2], TAPE[:-3]):
            self.assertNotIn("printf", self.refuses(cut))

    def test_a_leader_of_rubouts(self):
        for count in (1, 2, 100):
            self.does(self.refuses(b"\xff" * count + TAPE), r"LC_ALL.*TAPE", FILE="a.lda", TAPE="b.lda")
            self.makes(TAPE)

    def test_a_label_before_the_first_block(self):
        for label in (b"\x7e\x11\x7e", bytes(40) + b"\x7f\x49\x41" + bytes(3)):
            text = label + TAPE
            shown = self.refuses(text)
            self.assertIn(WHICH_BYTE, shown)
            self.does(shown, r"tail[^']*TAPE", N=str(text.index(b"\1\0") + 1), FILE="a.lda", TAPE="b.lda")
            self.makes(TAPE)

    def test_a_tape_behind_a_text(self):
        text = b"To: whom it may concern\n\n" + TAPE
        shown = self.refuses(text)
        self.assertIn(WHICH_BYTE, shown)
        self.does(shown, r"tail[^']*TAPE", N=str(text.index(b"\1\0") + 1), FILE="a.lda", TAPE="b.lda")
        self.makes(TAPE)

    def test_what_gzip_has_compressed(self):
        self.put("plain.lda", TAPE)
        subprocess.run("gzip -c plain.lda > a.lda", shell=True, cwd=self.room, check=True)
        self.does(self.shown("check a.lda"), r"gunzip.*TAPE", FILE="a.lda", TAPE="b.lda")
        self.makes(TAPE)

    def test_what_srec_cat_makes_a_tape_of(self):
        if not shutil.which("srec_cat"):
            self.skipTest("srec_cat is not installed")
        self.put("words.bin", b"\x34\x12\xad\xde")
        for kind in ("-intel", "-motorola"):
            subprocess.run(f"srec_cat words.bin -binary -offset 512 -o a.lda {kind} -disable=header".split(), cwd=self.room, check=True)
            self.does(self.shown("check a.lda"), r"srec_cat FILE.* N", FILE="a.lda", TAPE="b.lda", N="512")
            given = self.ldaodt("check b.lda")
            self.is_so((given.status, "001000 177777 011064\n001002 177777 157255\n" in given.out), (0, True))

    def test_an_empty_file(self):
        """Nothing is told that would make it a tape that loads."""
        self.is_so(self.refuses(b""), "ldaodt: tape refused at 0: NoTransfer\nthe file is empty\n")

    def test_a_file_that_is_shorter_than_what_is_looked_at(self):
        """What is told of it is told of its own bytes, and not of those of a tape that was read before it: of the front of this one the third and
        fourth would make a text of it, and of its end the last ones a block without a checksum."""
        self.put("long.lda", tape_of([(0o1000, b"\r" * (0x920 - 6))], 1) + b"\1\0\6\0")
        self.is_so(bytes_of(self.path("long.lda"))[:4], b"\1\0\x20\x09")
        for text, told in ((b"ab", "ldaodt: tape 2 refused at 0: Stray\nit is no tape, or a label stands before it: "), (b"\1\0", "ldaodt: tape 2 refused at 0: Cut\n")):
            self.put("short.lda", text)
            shown = self.shown("check long.lda short.lda").replace("long.lda: 4 bytes follow the tape: another tape, which 'tail -c 4 FILE > TAPE' makes\n", "")
            self.is_so(shown[:len(told)], told)
            self.assertNotIn("printf", shown)
            self.assertNotIn("this is text", shown)

    def test_octal_words(self):
        shown = self.refuses(b"1000 011064 157255\n")
        self.assertIn("of octal words 'ldaodt make' makes a tape", shown)
        self.ends(self.ldaodt("make b.lda a.lda --start 1000"), 0, "")
        self.makes(TAPE)

    def test_what_a_console_printed(self):
        """Pasted into a file, and taken for words; from a prompt on, or from the end of the line before."""
        for front in (b"", b"\r\n"):
            self.put("pasted", front + b"@001000/ 011064 \r\n@001002/ 157255 \r\n@\r\n")
            shown = self.shown("make b.lda pasted --start 1000")
            self.does(shown, r"tr .*WORDS", FILE="pasted", WORDS="words")
            self.ends(self.ldaodt("make b.lda words --start 1000"), 0, "")
            self.makes(TAPE)
            os.remove(self.path("b.lda"))
        self.put("wrong", b"1000 8\n")
        self.assertNotIn("tr ", self.shown("make c.lda wrong"))

    def test_a_record_of_another_tape(self):
        """Another record begins anew. Of what is no record at all that is not told."""
        self.put("first.lda", bytes_of(FIRST))
        peer = self.console_at(Console())
        self.put("a.record", b"my notes\n")
        self.is_so(self.shown(f"load first.lda {peer.address} --record a.record"), "ldaodt: record refused: NotARecord\n")
        self.put("a.record", b"LDAODT 2\n001002 000000\n")
        shown = self.shown(f"load first.lda {peer.address} --record a.record")
        self.assertIn("with another --record FILE the load begins anew\n", shown)
        self.is_so(self.load(peer, "first.lda --record b.record").status, 0)

    def test_a_record_of_a_program_that_may_be_running(self):
        """It does not suit where no start is wanted: nobody is told to load once more."""
        self.put("first.lda", bytes_of(FIRST))
        peer = self.console_at(Console())
        self.is_so(self.load(peer, "first.lda --record a.record").status, 0)
        shown = self.shown(f"load first.lda {peer.address} --record a.record --no-start")
        self.is_so(shown.splitlines()[1:], ["it says that a program was about to be started: look at the machine first, it may run"])


class Following(Told):
    """What stands behind a tape in its file: a terminal is told, and nobody else."""

    def follows(self, text, words="check a.lda"):
        """What is told of that; all that is printed is what is printed of the tape alone."""
        self.put("b.lda", TAPE)
        self.put("a.lda", TAPE + text)
        given, shown = self.at_a_terminal(lambda it: self.ldaodt(words, stderr=it))
        alone = self.ldaodt(words.replace("a.lda", "b.lda"))
        self.is_so((given.status, given.out), (alone.status, alone.out))
        self.ends(self.ldaodt(words), alone.status, alone.out)
        return shown.replace("\r\n", "\n")

    def test_another_tape(self):
        """With a leader or without. What is said makes a file of it."""
        second = tape_of([(0o2000, b"\1\2")], 0o2000)
        for leader in (b"", bytes(512), b"\xff" * 7):
            shown = self.follows(leader + second)
            self.is_so(shown, f"a.lda: {len(leader + second)} bytes follow the tape: another tape, which 'tail -c {len(leader + second)} FILE > TAPE' makes\n")
            self.does(shown, r"tail[^']*TAPE", FILE="a.lda", TAPE="c.lda")
            self.makes(leader + second, "c.lda")

    def test_a_leader_is_no_news(self):
        for text in (b"", bytes(1), bytes(2000), b"\xff" * 30, bytes(9) + b"\xff"):
            self.is_so(self.follows(text), "")

    def test_anything_else(self):
        self.is_so(self.follows(b"\0\0junk"), "a.lda: 6 bytes follow the tape: they belong to no tape\n")
        self.is_so(self.follows(b"\x1a"), "a.lda: 1 bytes follow the tape: they belong to no tape\n")
        # What begins a block is 001 and 000.
        self.is_so(self.follows(b"\1\2"), "a.lda: 2 bytes follow the tape: they belong to no tape\n")
        self.is_so(self.follows(b"\1"), "a.lda: 1 bytes follow the tape: they belong to no tape\n")

    def test_a_long_file(self):
        """All of it counts, also what is longer than any tape."""
        shown = self.follows(b"x" + bytes(1_100_000))
        self.is_so(shown, "a.lda: 1100001 bytes follow the tape: they belong to no tape\n")
        # Of a tape that has a long leader, too.
        self.put("c.lda", bytes(200_000) + TAPE + b"x")
        self.is_so(self.shown("check c.lda", status=0), "c.lda: 1 bytes follow the tape: they belong to no tape\n")

    def test_what_is_no_plain_file_is_left_alone(self):
        """What was taken of a pipe would be gone: the tape that comes there is read once, and all that is behind it is nobody's."""
        os.mkfifo(self.path("pipe"))
        self.put("b.lda", TAPE)
        self.put("c.lda", TAPE + b"junk")
        writer = subprocess.Popen(["sh", "-c", "cat c.lda > pipe"], cwd=self.room)
        self.addCleanup(writer.wait)
        self.addCleanup(writer.kill)
        given, shown = self.at_a_terminal(lambda it: self.ldaodt("check pipe", stderr=it))
        self.is_so((given, shown), (self.ldaodt("check b.lda"), ""))

    def test_an_object_module(self):
        """Its first blocks are of the kinds 1 and 2, and no more than those look like a tape; what follows are a text and the end."""
        module = block(1, bytes(8)) + block(2, b"")
        rest = block(3, b"\0\0\x34\x12") + block(6, b"")
        self.put("a.obj", module + rest)
        shown = self.shown("check a.obj", status=0)
        self.is_so(shown, f"a.obj: {len(rest)} bytes follow the tape: this is an object module, and no tape: link it\n")

    def test_of_a_load_and_a_verify(self):
        """Before a key is typed, and of each tape; nothing of what is loaded changes."""
        self.put("a.lda", TAPE + b"x")
        self.put("b.lda", tape_of([(0o2000, b"\1\2")], 1) + bytes(3))
        self.put("c.lda", tape_of([(0o3000, b"\1\2")], 1) + TAPE)
        told = "a.lda: 1 bytes follow the tape: they belong to no tape\n" \
            f"c.lda: {len(TAPE)} bytes follow the tape: another tape, which 'tail -c {len(TAPE)} FILE > TAPE' makes\n"
        for words in ("load a.lda LINE b.lda c.lda --no-start", "verify a.lda LINE b.lda c.lda"):
            peer = self.console_at(Console())
            given, shown = self.at_a_terminal(lambda it, words=words, peer=peer: self.ldaodt(self.words_at(peer, words), stderr=it))
            self.is_so(shown.replace("\r\n", "\n")[:len(told)], told)
            self.assertIn(" of 4", given.out)

    def test_standard_input_is_left_alone(self):
        given, shown = self.at_a_terminal(lambda it: self.ldaodt("check -", TAPE + b"junk", stderr=it))
        self.is_so((given.status, shown), (0, ""))

    def test_a_name_of_any_kind(self):
        """A control character of a name is no order to the terminal."""
        self.put("a\x1b[2J.lda", TAPE + b"x")
        given, shown = self.at_a_terminal(lambda it: self.ldaodt(["check", "a\x1b[2J.lda"], stderr=it))
        self.is_so((given.status, shown), (0, "a\\u{1b}[2J.lda: 1 bytes follow the tape: they belong to no tape\r\n"))


if __name__ == "__main__":
    unittest.main()
