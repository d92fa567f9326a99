"""Words of the command line that are no text, empty or odd; and those of each command, where one is missing or too many."""
import errno
import os
import re
import unittest

from cases import Case, Console
from commands import AT_A_MACHINE, COMMANDS, OF_TAPES
from outside import FIRST, LOST_DIGIT, NO_PORT, TOP, bytes_of, fault

NO_TEXT = "ldaodt: a word of the command line is not UTF-8\n"
NO_LINE = "a line is HOST:PORT, or the path of a serial device, which has a '/'"
CHECKED = "blocks 1 data 2 read 16\nstart 001000\ncanonical yes\nwords 1\n001000 177777 011064\n"

# Names of files that are not there, and how a fault shows them.
SHOWN = (
    ("", "''"),
    ("a b.lda", "a b.lda"),
    ("it's \"a\\b\".lda", "it's \"a\\b\".lda"),
    ("two\nlines", "two\\nlines"),
    ("over\rwritten", "over\\rwritten"),
    ("\t", "\\t"),
    ("\x1b[2Jcleared", "\\u{1b}[2Jcleared"),
    ("\x1f\x20", "\\u{1f} "),
    ("~\x7f", "~\\u{7f}"),
    ("\x80\x9b\x9f", "\\u{80}\\u{9b}\\u{9f}"),
    ("\xa0", "\xa0"),
    ("\xc4rger\u0301 \u2028\U0001f4fc\U0010ffff", "\xc4rger\u0301 \u2028\U0001f4fc\U0010ffff"),
    ("--help", "--help"),
    ("x" * 100000, "x" * 100000),
)


class Words(Case):
    """Each word is a text, and a name stands in a fault so that the fault stays one line."""

    def test_a_word_that_is_no_text(self):
        for words in ([b"check", b"\xff"], [b"\xff"], [b"check", b"k\xe4se.lda"], [b"check", b"first.lda", b"\xed\xa0\x80"]):
            self.ends(self.ldaodt(words), 2, "", NO_TEXT)

    def test_a_name_stands_in_its_fault_as_one_line(self):
        for name, shown in SHOWN:
            with self.subTest(shown):
                self.ends(self.ldaodt(["check", "--", name]), 4, "", fault(f"cannot read {shown}", errno.ENAMETOOLONG if len(name) > 255 else errno.ENOENT))

    def test_so_does_an_address(self):
        self.put_tapes("first.lda")
        for name, shown in (("", ""), *SHOWN[1:-1]):
            with self.subTest(shown):
                self.ends(self.ldaodt(["load", "first.lda", "--", f"{name}:"]), 4, "", fault(f"cannot connect to {shown}:", NO_PORT))

    def test_so_does_a_device(self):
        self.put_tapes("first.lda")
        for name, shown in SHOWN[1:-1]:
            with self.subTest(shown):
                self.ends(self.ldaodt(["load", "first.lda", f"./{name}"]), 4, "", fault(f"cannot connect to ./{shown}", errno.ENOENT))

    def test_a_word_that_is_refused_breaks_no_line(self):
        """Here the empty word is shown as it is, between quotes."""
        for name, shown in (("", ""), *SHOWN[1:-1]):
            with self.subTest(shown):
                given = self.ldaodt(["load", "first.lda", "--", name])
                self.is_so((given.status, given.out), (2, ""))
                self.is_so(given.err.split("\n")[0], f"error: invalid value '{shown}' for '<LINE>': {NO_LINE}")

    def test_so_does_a_record(self):
        """In a folder that is not there: it is seen before there is a connection."""
        self.put_tapes("first.lda")
        peer = self.console_at(Console())
        for name, shown in SHOWN[1:-1]:
            with self.subTest(shown):
                given = self.ldaodt(["load", "first.lda", peer.address, "--record", f"no-such/{name}"])
                self.ends(given, 4, "", fault(f"cannot write no-such/{shown}", errno.ENOENT))
        peer.settle()
        self.is_so((peer.connections, peer.machine.typed), (0, ""))

    def test_odd_names_of_files_that_are_there(self):
        for name in ("a b.lda", "two\nlines", "k\xe4se.lda", "--help", "./-", "'"):
            with self.subTest(name):
                self.put(name, bytes_of(FIRST))
                self.ends(self.ldaodt(["check", "--", name]), 0, CHECKED)

    def test_a_tape_that_is_standard_input(self):
        """Where it is the only one; among others it is a file of that name."""
        for words in (["check", "-"], ["check", "--", "-"]):
            self.ends(self.ldaodt(words, bytes_of(FIRST)), 0, CHECKED)
        self.ends(self.ldaodt(["check", "-"], b"A"), 3, "", "ldaodt: tape refused at 0: Stray\n")
        self.ends(self.ldaodt(["check", "-"], before="<&-"), 4, "", fault("cannot read standard input", errno.EBADF))
        given = self.ldaodt(["rehearse", "-", LOST_DIGIT], bytes_of(FIRST))
        self.ends(given, 0, "sent 34 lost 1 spent 1 verified 1 of 1\nend Started\nodt Running 001000\n001000 011064 stands\n")
        given = self.ldaodt(["dialogue", "-"], bytes_of(FIRST))
        self.is_so((given.status, given.err, given.out.split("\n")[-4]), (0, "", "end Started"))
        self.ends(self.ldaodt(["check", FIRST, "-"], bytes_of(FIRST)), 4, "", fault("cannot read -", errno.ENOENT))
        self.put("-", bytes_of(FIRST))
        given = self.ldaodt(["check", FIRST, "-"], b"A")
        self.ends(given, 0, "".join(CHECKED.splitlines(True)[:3]) * 2 + "words 1\n001000 177777 011064\n")

    def test_a_word_that_is_empty_is_a_word(self):
        self.ends(self.ldaodt(["check", ""]), 4, "", fault("cannot read ''", errno.ENOENT))
        given = self.ldaodt([""])
        self.is_so((given.status, given.out), (2, ""))
        self.assertTrue(given.err.startswith("error: "), given)

    def test_the_name_of_the_program_is_no_word(self):
        for name in ("", "check", "--help"):
            self.ends(self.ldaodt("", bytes_of(FIRST), name=name), 0, CHECKED)

    def test_three_thousand_words(self):
        """Of each command that takes further tapes. Those at a machine reach nobody behind them, and say so."""
        tapes = [FIRST] * 3000
        reports = {"check": "".join(CHECKED.splitlines(True)[:3]) * 3000 + "words 1\n001000 177777 011064\n",
                   "dialogue": self.ldaodt(["dialogue", FIRST]).out, "rehearse": self.ldaodt(["rehearse", FIRST, LOST_DIGIT]).out}
        for command in OF_TAPES:
            with self.subTest(command.name):
                given = self.ldaodt(command.words(*tapes, line="x:y", script=LOST_DIGIT))
                if command in AT_A_MACHINE:
                    self.ends(given, 4, "", fault("cannot connect to x:y", NO_PORT))
                else:
                    self.ends(given, 0, reports[command.name])


class Commands(Case):
    """Each command's words, as the page of help has them, which is compared with the program's to the last byte."""

    NAMED = [it for it in COMMANDS if it.name]
    USAGES = dict(re.findall(r"^Usage: ldaodt (\w+)(.*)$", bytes_of(f"{TOP}/tests/help.md").decode(), re.MULTILINE))

    def is_refused(self, words, why, usage):
        with self.subTest(words):
            self.ends(self.ldaodt(words), 2, "", f"error: {why}\n\nUsage: ldaodt {words[0]}{usage}\n\nFor more information, try '--help'.\n")

    def test_none_at_all(self):
        """`--` alone asks for nothing."""
        names = ", ".join([it.name for it in self.NAMED] + ["help"])
        self.ends(self.ldaodt("--"), 2, "", "error: 'ldaodt' requires a subcommand but one was not provided\n"
                  f"  [subcommands: {names}]\n\nUsage: ldaodt [COMMAND]\n\nFor more information, try '--help'.\n")

    def test_one_that_is_missing(self):
        """It is said which are, and only those."""
        for command in self.NAMED:
            wanted = [it for it in command.order.split() if it[0] != "["]
            for count in range(len(wanted)):
                why = "\n  ".join(["the following required arguments were not provided:", *(f"<{it}>" for it in wanted[count:])])
                words = command.words(line="b:1")[:1 + count]
                self.is_refused(words, why, self.USAGES[command.name].replace(" [OPTIONS]", ""))

    def test_an_option_that_wants_another_word(self):
        """It is said which, wherever the option stands; with that word it is taken: here up to a line that nobody has."""
        self.put_tapes("first.lda")
        for words, wanted, given in (
            ("load first.lda b:1 --recheck", "--record <FILE>", "--record a.record"),
            ("load --recheck first.lda b:1 --no-start", "--record <FILE>", "--record a.record"),
            ("memory b:1 1000", "<TO>", "1002"),
        ):
            with self.subTest(words):
                refused = self.ldaodt(words)
                self.is_so((refused.status, refused.out), (2, ""))
                self.assertTrue(refused.err.startswith(f"error: the following required arguments were not provided:\n  {wanted}\n"), refused.err)
                taken = self.ldaodt(f"{words} {given}".replace("b:1", self.taken_port()))
                self.is_so((taken.status, taken.err.startswith("ldaodt: cannot connect to ")), (4, True))

    def test_options_that_exclude_each_other(self):
        """Each of them alone is taken."""
        for command in ("load first.lda b:1", "dialogue first.lda"):
            for words in ("--no-start --start 1000", "--start 1000 --no-start"):
                with self.subTest(f"{command} {words}"):
                    refused = self.ldaodt(f"{command} {words}")
                    self.is_so((refused.status, refused.out), (2, ""))
                    self.assertRegex(refused.err, r"^error: the argument '--(no-start|start <AAAAAA>)' cannot be used with '--(no-start|start <AAAAAA>)'\n")

    def test_one_too_many(self):
        """But for commands that take further tapes."""
        for command in self.NAMED:
            if not command.takes("[MORE].."):
                self.is_refused([*command.words(line="b:1", words="words"), "b.lda"], "unexpected argument 'b.lda' found", self.USAGES[command.name])


# What an address has to be, and a start.
ADDRESS = "an address is octal, of one to six digits, even, and below 160000"
START = "a start is octal, of one to six digits"

# Words in which `{}` stands for one, what it is called there, what it has to be, and the last that there may be.
ADDRESSES = (
    ("load first.lda x:y --start {}", "--start <AAAAAA>", f"{START}, and even", 0o177776),
    ("dialogue first.lda --start {}", "--start <AAAAAA>", f"{START}, and even", 0o177776),
    ("save new.lda x:y 0 2 --start {}", "--start <AAAAAA>", START, 0o177777),
    ("make new.lda words --start {}", "--start <AAAAAA>", START, 0o177777),
    ("probe x:y --address {}", "--address <AAAAAA>", ADDRESS, 0o157776),
    ("save new.lda x:y {} 157776", "<FROM>", ADDRESS, 0o157776),
    ("save new.lda x:y 0 {}", "<TO>", ADDRESS, 0o157776),
    ("memory x:y {} 157776", "<FROM>", ADDRESS, 0o157776),
    ("memory x:y 0 {}", "<TO>", ADDRESS, 0o157776),
)


class Refusals(Case):
    """What is said of a word that is refused: which it is, what it should be, and what to type in its place."""

    def setUp(self):
        super().setUp()
        self.put_tapes("first.lda")
        self.put("words", b"1000/11064\n")

    def is_refused(self, words, why):
        with self.subTest(words):
            given = self.ldaodt(words)
            self.is_so((given.status, given.out, given.err.split("\n")[0]), (2, "", f"error: {why}"))

    def is_taken(self, words):
        """Behind its words a command reaches nobody, or ends well."""
        with self.subTest(words):
            self.assertIn(self.ldaodt(words).status, (0, 4))

    def test_addresses(self):
        """The first and the last are taken, in one digit as in six; and it is said what one should be that is none."""
        for words, name, rule, last in ADDRESSES:
            is_even = last % 2 == 0
            with_address = lambda text, words=words: [it.format(text) for it in words.split()]
            for text in ("0", "000002", f"{last:o}"):
                self.is_taken(with_address(text))
            for text in (f"{last + 1 + is_even:o}", "8", "", "0000002", "+0", "2x", *["1001"] * is_even):
                self.is_refused(with_address(text), f"invalid value '{text}' for '{name}': {rule}")

    def test_a_last_address_below_the_first(self):
        for command in ("save new.lda x:y", "memory x:y"):
            for first, last in (("1000", "776"), ("2", "0"), ("157776", "157774")):
                self.is_refused(f"{command} {first} {last}", f"invalid value '{last}' for '<TO>': the last address is below the first")
                self.is_taken(f"{command} {last} {last}")

    def test_a_tape_where_a_command_belongs(self):
        """What is told to be typed then checks it, and loads it. A name that may be a command's says nothing of a tape."""
        os.mkdir(self.path("tapes"))
        for name in ("program", "tapes/program"):
            self.put(name, bytes_of(FIRST))
        for name in ("first.lda", "./program", "tapes/program"):
            self.is_refused(name, f"unrecognized subcommand '{name}'")
            check, load = re.findall(r"^  tip: to \w+ a tape, use 'ldaodt (.*)'$", self.ldaodt(name).err, re.MULTILINE)
            self.ends(self.ldaodt(check), 0, CHECKED)
            given = self.ldaodt(self.words_at(self.console_at(Console()), load))
            self.is_so((given.status, given.out.split("\n")[1]), (0, "end Started"))
        for words in ("program", "help first.lda"):
            self.is_refused(words, f"unrecognized subcommand '{words.split()[-1]}'")
            self.assertNotIn("tip", self.ldaodt(words).err)

    def test_what_is_nearly_a_word_of_the_program(self):
        """It is said which that is; and nothing of `--`, behind which there are tapes alone."""
        for words, tips in (
            ("chek first.lda", ["a similar subcommand exists: 'check'"]),
            ("load first.lda x:y --recrod a.record", ["a similar argument exists: '--record'"]),
            ("check first.lda --words 1", []),
            ("verify first.lda x:y --record a.record", []),
            ("--dry-run", []),
        ):
            with self.subTest(words):
                given = self.ldaodt(words)
                self.is_so((given.status, re.findall(r"^ *tip: (.*)$", given.err, re.MULTILINE)), (2, tips))


def options_of(command):
    """The options of a command by the page of help: each its name, what stands for its value, if it has one, and what is said of it."""
    page = bytes_of(f"{TOP}/tests/help.md").decode()
    listed = re.search(rf"^Usage: ldaodt {command.name}\b.*?\nOptions:\n(.*?)\n\n", page, re.MULTILINE | re.DOTALL)[1]
    return re.findall(r"^ +(?:-\w, )?(--[a-z-]+)(?: <(\w+)>)? +(.*(?:\n {10,}.*)*)", listed, re.MULTILINE)


class Options(Case):
    """What the page of help says of options: how small and how large a number may be, and which have a value. A command at a machine whose
    words are taken reaches nobody."""

    # The options of each command.
    TEXTS = [(command, *found) for command in COMMANDS if command.name for found in options_of(command)]

    def setUp(self):
        super().setUp()
        self.put_tapes("first.lda")
        self.put("a.script", b"clean\n")

    def is_taken(self, is_taken, command, *more):
        """Asserts whether a command takes such words more."""
        with self.subTest(command.name, more=more):
            given = self.ldaodt([*command.words(line="x:y", file="first.lda"), *more])
            self.is_so((given.status == 2, given.err.startswith("error: ")), (not is_taken, not is_taken))

    def test_limits(self):
        """A number may be the least and the greatest that help names, and neither one less nor one more."""
        tried = set()
        for command, option, value, text in self.TEXTS:
            limits = re.search(r"(?<![\w:])(\d+) to (\d+)(?!\d)", " ".join(text.split()))
            if value in ("N", "MS", "SECONDS"):
                least, greatest = int(limits[1]), int(limits[2])
                tried.add(option)
                for number in (least, greatest):
                    self.is_taken(True, command, option, str(number))
                for number in (least - 1, greatest + 1):
                    self.is_taken(False, command, f"{option}={number}")
        self.is_so(tried, {"--words", "--style", "--every", "--listen", "--patience", "--quiet"})

    def test_values(self):
        """One that has a value wants it, one that has none takes none, and each stands there once."""
        for command, option, value, _ in self.TEXTS:
            if option in ("--help", "--version"):
                continue
            some = {"": [], "FILE": ["a.record"], "AAAAAA": ["1000"]}.get(value, ["7"])
            beside = ["--record", "a.record"] if option == "--recheck" else []
            self.is_taken(True, command, option, *some, *beside)
            self.is_taken(False, command, *beside, option, *some, option, *some)
            self.is_taken(False, command, *beside, *([option] if value else [f"{option}=1"]))

    def test_no_option_is_a_value(self):
        """Where a value is wanting it is said for which, whatever option stands there."""
        for command, option, value, _ in self.TEXTS:
            for other, *_ in options_of(command):
                if value and other != "--help":
                    with self.subTest(command.name, option=option, other=other):
                        given = self.ldaodt([*command.words(line="x:y"), option, other])
                        self.ends(given, 2, "", f"error: a value is required for '{option} <{value}>' but none was supplied\n\nFor more information, try '--help'.\n")


if __name__ == "__main__":
    unittest.main()
