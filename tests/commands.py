"""The commands, as the tests from outside have to know them: each that tests/help.md has, and a row for each end of a run at a console.

What is asked of each command, or of each of a kind, is asked in a loop over them. The help there is compared with the program's to the
last byte, and README with that (test_pages.py).
"""
import re
from typing import Callable, NamedTuple

from cases import Console
from chip_cases import Test
from outside import HELLO, TOP, Answer, bytes_of, line_failed

# What stands in the place of a word where a test names nothing else: the word at 001000, a console's line, and files of the test's.
USUAL = {"LINE": "LINE", "SCRIPT": "a.script", "FILE": "new.lda", "FROM": "1000", "TO": "1000"}


class Command(NamedTuple):
    """A command: its name, the words behind it, as README has them, and what stands on standard input where it reads that."""

    name: str
    order: str
    keys: bytes = b""

    # Of one at a machine: how a run ends at a console that has 011064 at 001000, as first.lda; and where its report counts keys and
    # words, how many keys it has typed then, and what it says of so many words, else its report of a console that answers nothing.
    end: str = ""
    sent: int = 0
    counts: str = ""
    unanswered: str = ""

    def words(self, *tapes, **named):
        """A command line about these tapes, or else first.lda, with the words that are named in small letters."""
        first, *more = tapes or ("first.lda",)
        given = {**USUAL, "TAPE": first, **{name.upper(): word for name, word in named.items()}}
        found = [self.name] if self.name else []
        for place in self.order.split():
            if place == "[MORE]..":
                found += more
            elif (word := given.get(place.strip("[]"))) is not None:
                found.append(word)
        return found

    def line(self, *tapes, **named):
        """The same in one text."""
        return " ".join(self.words(*tapes, **named))

    def takes(self, place):
        """Whether a word of it stands for that."""
        return place in self.order.split()


# What there is to say of some beside their words.
MORE = {
    "load": {"end": "Started", "sent": 16, "counts": "verified {} of 1"},
    "verify": {"end": "Same", "sent": 9, "counts": "looked {} of 1 differ 0"},
    "save": {"end": "Saved", "sent": 17, "counts": "read {} of 1"},
    "probe": {"end": "Probed", "unanswered": 'prompt no\nheard nothing\nhelp: docs/REAL-MACHINE.md, "Nothing answers"\nend NoPrompt\n'},
    "memory": {"end": "Tested", "unanswered": Test(0o1000, 0o1000, 1).report({}, "GaveUp", 0)},
    "make": {"keys": b"1000/11064\n"},
    "type": {"keys": b"001000/011064\n"},
}


def named_commands():
    """Each that has a name, in the order of the program's help, with the words that the help says."""
    for name, usage in re.findall(r"^Usage: ldaodt (\w+)(.*)$", bytes_of(f"{TOP}/tests/help.md").decode(), re.MULTILINE):
        order = re.sub(r"\[OPTIONS\]|[<>]", "", usage).replace("...", "..").strip()
        yield Command(name, order, **MORE.get(name, {}))


# Without a name the tape on standard input is checked.
COMMANDS = (*named_commands(), Command("", "", keys=bytes_of(HELLO)))

AT_A_MACHINE = tuple(it for it in COMMANDS if it.takes("LINE"))
COUNTING = tuple(it for it in AT_A_MACHINE if it.counts)
OF_TAPES = tuple(it for it in COMMANDS if it.takes("TAPE"))
# Those about no machine that only read tapes, and those that print what they have found.
READING = tuple(it for it in OF_TAPES if it not in AT_A_MACHINE)
PRINTING = tuple(it for it in COMMANDS if it not in AT_A_MACHINE and not it.takes("FILE"))


class Faltering:
    """A console that does not answer its first so many keys."""

    def __init__(self, mishaps, **named):
        super().__init__(**named)
        self.mishaps = mishaps

    def take(self, key):
        if self.mishaps:
            self.mishaps -= 1
            self.typed += key
            return ""
        return super().take(key)


class FalteringConsole(Faltering, Console):
    """ODT, once it answers."""


class StubbornConsole(FalteringConsole):
    """Its memory holds nothing but zero."""

    def word(self, address):
        return 0


class SilentStart(FalteringConsole):
    """The echo of `G` is lost."""

    def take(self, key):
        answer = super().take(key)
        return "" if key == "G" else answer


def small(mishaps):
    """256 words of memory end right below 001000."""
    return FalteringConsole(mishaps, words=256)


def holding(value):
    """A console with a value at 001000."""
    return lambda mishaps: FalteringConsole(mishaps, memory={0o1000: value})


# The fewest characters behind which a line breaks: `Z` and its answer; and all up to the echo of the last digit of the
# start, with the 22 keys of the word, which are answered by 40 characters.
TO_PROMPT = 1 + 4
TO_START = TO_PROMPT + 22 + 40 + 6 + 6

FAILED = line_failed("closed")
START_IN_DOUBT = f"{FAILED}ldaodt: the start may have gone out: look at the machine first\n"


class Run(NamedTuple):
    """A run at a console about the word at 001000: its words, the console for so many mishaps, and how it ends.

    The keys are those that docs/MAP.md counts ("The way of a byte") where no mishap is among them."""

    words: str
    console: Callable
    sent: int
    counts: str
    end: str
    status: int = 0
    err: str = ""
    # Behind how many characters the line breaks, if it does.
    breaks: int | None = None
    # What is listed before the counts.
    listed: str = ""

    def answer(self, mishaps=0):
        """What it answers behind so many mishaps, each of which is a `Z` more."""
        report = f"{self.listed}sent {self.sent + mishaps} spent {mishaps} {self.counts}\nend {self.end}\n"
        return Answer(self.status, report, self.err)


def ends_of(command):
    """The ends that each command has which counts words: all is as first.lda has it, there is no such memory, the line breaks."""
    none = command.counts.format(0)
    yield Run(command.line(), holding(0o011064), command.sent, command.counts.format(1), command.end)
    yield Run(command.line(), small, 8, none, "NoWord 001000", 5)
    yield Run(command.line(), FalteringConsole, 2, none, "LineFailed", 4, FAILED, TO_PROMPT)


# Those, and the ends that one command alone has.
RUNS = (
    *(run for command in COUNTING for run in ends_of(command)),
    Run("load first.lda LINE", FalteringConsole, 30, "verified 1 of 1", "Started"),
    Run("load first.lda LINE --no-start", FalteringConsole, 23, "verified 1 of 1", "Loaded"),
    Run("load first.lda LINE", SilentStart, 30, "verified 1 of 1", "Uncertain", 6),
    Run("load first.lda LINE --listen 1", SilentStart, 30, "verified 1 of 1", "Uncertain", 6),
    Run("load first.lda LINE", StubbornConsole, 22, "verified 0 of 1", "WontHold 001000", 5),
    Run("load first.lda LINE", FalteringConsole, 30, "verified 1 of 1", "LineFailed", 4, START_IN_DOUBT, TO_START),
    Run("verify first.lda LINE", holding(0o011065), 17, "looked 1 of 1 differ 1", "Differs", 1, listed="001000 177777 011064 differs 011065\n"),
)
