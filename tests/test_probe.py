"""Probes of a machine at a port and at a device: what is said of consoles that ldaodt knows and of others, what is typed, and
that memory is what it was.

On a line that loses nothing a probe types `Z001000/` and CR, which is 9 keys and 21 characters of answers at style 0; then
`Z001000/123Z`, 12 keys and 25 characters, and `a`, a key and 4; and the first again. So the first look is over behind 30
characters, the trial behind 72, the second look behind 102. Behind these the search begins, or the old number is put back.
"""
import errno
import functools
import random
import re
import signal
import socket
import subprocess
import threading
import time
import unittest
from concurrent.futures import ThreadPoolExecutor

from cases import BabblingPeer, Case, Console, DeafConsole, Keeping, Losing, LossyConsole, SlowConsole, StoringConsole, pace, timeless
from outside import NO_OUTPUT, NO_TERMINAL, PROGRAM, fault, line_failed
import odt_peer

FAILED = line_failed("closed")
WORD, HELD = 0o1000, 0o123456
LOOK_OVER, TRIAL_OVER, SECOND_OVER = 30, 72, 102

# The first prompt is whole behind five characters, and of the trial's answers all that tells the style behind 20 of it.
PROMPTED, STYLE_SEEN = 5, LOOK_OVER + 20

# What is lost of a look, a trial and a look: each key, and each third character of the answers.
LOSSES = [{"lost_key": it} for it in range(31)] + [{"lost_answer": it} for it in range(0, 71, 3)]

# What is said of small letters.
KEPT, NOT_KNOWN, FOLDED = (f"keeps small letters {it}" for it in ("yes", "not known", "no: do not load with --fast"))


class FoldingConsole(Losing, Keeping, odt_peer.FoldingMachine):
    """It makes capitals of small letters."""


class WideConsole(Keeping, odt_peer.WideMachine):
    """Eight digits behind a `/`."""


class EchoingConsole(Keeping, odt_peer.EchoingMachine):
    """What comes goes back."""


class BootingConsole(Keeping, odt_peer.BootingMachine):
    """Another program's prompt."""


class EndlessConsole(Keeping, odt_peer.EndlessMachine):
    """It prints for ever."""


class OddConsole(Console):
    """It answers each key by characters that no terminal shows."""

    def take(self, key):
        super().take(key)
        return "\x1b[2J\\\x7f~\t"


class StuckConsole(StoringConsole):
    """What an illegal key has stored at 001000 stays there."""

    def take(self, key):
        stays = self.word(WORD) if self.mode == "value" and key == "\r" else None
        answer = super().take(key)
        if stays is not None:
            self.words[WORD // 2] = stays
        return answer


class Flickering:
    """At one of the times that 001000 is opened, counted from 0, it reads as another number. A probe opens it for its first look, for its
    trial and for its second look."""

    def __init__(self, opening, reads, **named):
        super().__init__(**named)
        self.opening, self.reads, self.openings = opening, reads, 0

    def word(self, address):
        if address != WORD:
            return super().word(address)
        self.openings += 1
        return self.reads if self.openings == self.opening + 1 else super().word(address)


class FlickeringConsole(Flickering, Console):
    """ODT over memory that does so."""


class Babbling:
    """Behind the third digit of the trial it prints more than a run may hear."""

    def take(self, key):
        answer = super().take(key)
        return answer + "-" * 11_000 if len(self.typed) == len("Z001000/\rZ001000/123") else answer


class BabblingConsole(Babbling, Console):
    """ODT that does so."""


class BabblingStoringConsole(Babbling, StoringConsole):
    """One that stores."""


class WaveringConsole(LossyConsole):
    """Each `Z` changes its style, from 0 to 7 and back."""

    def take(self, key):
        if key == "Z":
            now = odt_peer.Machine(0, 0 if self.echoes_illegal else 7)
            self.blank, self.newline, self.echoes_illegal = now.blank, now.newline, now.echoes_illegal
        return super().take(key)


class HoledConsole(Console):
    """It has no memory at these addresses."""

    def __init__(self, hole, **named):
        super().__init__(**named)
        self.hole = hole

    def take(self, key):
        if self.mode == "number" and key == "/" and self.number in self.hole:
            self.typed += key
            return self.to_prompt("/?")
        return super().take(key)


@functools.lru_cache(None)
def numbers(words):
    """A memory of so many words, the same ones each time."""
    chance = random.Random(words)
    return {2 * it: chance.randrange(65536) for it in range(words)}


def tried(address=WORD, digits="123", letter="a"):
    """The keys of a look, a trial and a look."""
    return f"Z{address:06o}/\rZ{address:06o}/{digits}Z{letter}Z{address:06o}/\r"


def put_back(old, address=WORD):
    """The keys that put a number back: looked at, deposited, read again."""
    return f"Z{address:06o}/{old:06o}\r{address:06o}/\r"


def searched(words):
    """The keys that search for the end of so many words: the last word of each 4000, then of each 100, then each word, each
    time up to the first that is not there."""
    keys, found = "", 0
    for piece, pieces in ((0o4000, 28), (0o100, 32), (2, 32)):
        keys += "Z"
        for last in range(found + piece - 2, found + piece * pieces, piece):
            if last >= 2 * words:
                keys += f"{last:06o}/"
                break
            keys += f"{last:06o}/\r"
            found += piece
        else:
            return keys
    return keys


def said(*lines):
    return "".join(f"{it}\n" for it in lines)


def letters_of(style):
    """What is said of small letters at a console that keeps them: nothing comes back of an illegal key that is not echoed."""
    return KEPT if style & 4 else NOT_KNOWN


def found(style=0, words=28672, more=(), letters=None):
    """What is said of a console that may be trusted."""
    return said("prompt yes", f"style {style}", *more, letters or letters_of(style), "forgets digits yes",
                f"memory 000000 to {2 * words - 2:06o}", pace(words), "end Probed")


def refused(old, style=0, address=WORD):
    """What is said of a console that stores, once the word holds its number again."""
    return said("prompt yes", f"style {style}", letters_of(style), "forgets digits no: do not load this machine",
                f"the word at {address:06o} holds {old:06o} again", "end NotTrusted")


def held(old, address=WORD):
    return f"the word at {address:06o} held {old:06o}, now look at it"


def heard(characters):
    """The line of what was heard last."""
    return "heard " + characters[-40:].replace("\r", "\\r").replace("\n", "\\n")


def look_at(heading):
    return f'help: docs/REAL-MACHINE.md, "{heading}"'


OTHERS = look_at("The answers are others")


class Probes(Case):
    """A probe's machine is what it was, unless the test says otherwise."""

    def words_of(self, line, words=""):
        return ["probe", line.address, *words.split(), "--quiet", str(self.quiet)]

    def probe(self, line, words="", **more):
        """Probes; whatever came of it, nothing was started."""
        given = self.ldaodt(self.words_of(line, words), **more)
        line.settle()
        self.is_so(line.machine.starts, [])
        return given._replace(out=timeless(given.out))

    def probe_rightly(self, line, words="", **more):
        """Probes a console as ldaodt knows it: nothing that stores was typed, and memory is what it was."""
        before = list(line.machine.words)
        given = self.probe(line, words, **more)
        self.is_right(line, before, given.out)
        return given

    def is_right(self, line, before, out=""):
        self.assertIsNone(re.search(r"/[0-7]+\r|[^0-7/\rZa]", line.machine.typed), repr(line.machine.typed))
        self.assertNotIn("forgets digits no:", out)
        self.is_so((line.machine.words == before, line.machine.starts), (True, []))

    def at_once(self, trial, rows):
        """Tries all rows, some side by side, and yields each with what came of it."""
        rows = list(rows)
        with ThreadPoolExecutor(8) as pool:
            yield from zip(rows, pool.map(trial, rows))


class Known(Probes):
    """Consoles as ldaodt knows them."""

    def test_the_eight_styles(self):
        def trial(row):
            style, place = row
            line = getattr(self, place)(Console(memory=numbers(28672), style=style))
            return line, self.probe_rightly(line)

        for (style, place), (line, given) in self.at_once(trial, [(style, place) for style in range(8) for place in ("console_at", "device_at")]):
            with self.subTest(style, place=place):
                self.ends(given, 0, found(style))
                self.is_so(line.machine.typed, tried() + searched(28672))

    def test_the_end_of_memory(self):
        def trial(words):
            line = self.console_at(Console(words, numbers(words)))
            return line, self.probe_rightly(line, "--address 0")

        for words, (line, given) in self.at_once(trial, (28672, 28671, 28640, 20000, 4097, 4096, 4095, 1025, 1024, 1023, 65, 33, 32, 31, 2, 1)):
            with self.subTest(words):
                self.ends(given, 0, found(words=words))
                self.is_so(line.machine.typed, tried(0) + searched(words))

    def test_addresses(self):
        def trial(words):
            line = self.console_at(Console(memory={0: 1, WORD: 2, 0o2002: 3, 0o157776: 4}))
            return line, self.probe_rightly(line, words)

        rows = {"": WORD, "--address 0": 0, "--address 000000": 0, "--address 1000": WORD, "--address 2002": 0o2002,
                "--address 157776": 0o157776, "--address=01000": WORD}
        for words, (line, given) in self.at_once(trial, rows):
            with self.subTest(words):
                address = rows[words]
                self.ends(given, 0, found())
                self.is_so(line.machine.typed, tried(address, "321" if line.machine.word(address) == 1 else "123") + searched(28672))

    def test_what_the_word_holds(self):
        """Three digits that would make another number of it, all of them or the first ones."""
        def trial(old):
            line = self.console_at(Console(memory={WORD: old}))
            return line, self.probe_rightly(line)

        rows = {0: "123", 1: "321", 0o12: "321", 0o123: "321", 0o321: "123", 0o32: "123", 3: "123", 0o1234: "123", 0o177777: "123"}
        for old, (line, given) in self.at_once(trial, rows):
            with self.subTest(old):
                self.ends(given, 0, found())
                self.is_so(line.machine.typed, tried(digits=rows[old]) + searched(28672))

    def test_no_memory_at_the_word(self):
        """It is looked at, and that is all."""
        for line in self.lines(lambda: Console(words=256)):
            self.ends(self.probe_rightly(line), 5, said("prompt yes", "end NoWord 001000"))
            self.is_so(line.machine.typed, "Z001000/")
        line = self.console_at(Console(words=4096))
        self.ends(self.probe_rightly(line, "--address 20000"), 5, said("prompt yes", "end NoWord 020000"))

    def test_holes(self):
        """One that lies between two looks is not seen; one at a word that is looked at is taken for memory's end."""
        def trial(name):
            hole, _, words = rows[name]
            return self.probe_rightly(self.console_at(HoledConsole(hole)), words)

        none = found(words=1).replace("memory 000000 to 000000", "no memory at 000000").replace(pace(1), pace(0))
        rows = {
            "between two looks": (range(0o20000, 0o23776), found(), ""),
            "of the lowest words, of which none is looked at": (range(0o1000), found(), ""),
            "at the end of a piece": (range(0o20000, 0o24000), found(words=0o20000 // 2), ""),
            "all but the last word": (range(0o157776), none, "--address 157776"),
        }
        for name, given in self.at_once(trial, rows):
            with self.subTest(name):
                self.ends(given, 0, rows[name][1])

    def test_a_console_in_the_middle_of_something(self):
        """A number, an open word, a word with digits typed into it: `Z` makes each of them forgotten."""
        def trial(keys):
            machine = Console(memory={WORD: HELD})
            for key in keys:
                machine.take(key)
            machine.typed = ""
            line = self.device_at(machine)
            return line, self.probe_rightly(line)

        for keys, (line, given) in self.at_once(trial, ("0010", "001000/", "001000/77", "002000/123")):
            with self.subTest(keys):
                self.ends(given, 0, found())
                self.is_so(line.machine.typed, tried() + searched(28672))

    def test_the_simulated_console(self):
        """That of `type`, which `Z`, digits and `/` of a probe meet key by key."""
        def trial(style):
            return self.ldaodt(["probe", self.typing_at(f"--style={style}", "--words=4096"), "--quiet", str(self.quiet)])

        for style, given in self.at_once(trial, range(8)):
            with self.subTest(style):
                self.ends(given._replace(out=timeless(given.out)), 0, found(style, words=4096))

    def typing_at(self, *options):
        """Puts `ldaodt type` behind a port, for one connection; returns its address."""
        listener = socket.create_server(("127.0.0.1", 0))

        def serve():
            connection, _ = listener.accept()
            with connection:
                connection.setsockopt(socket.IPPROTO_TCP, socket.TCP_NODELAY, 1)
                subprocess.run([PROGRAM, "type", *options], stdin=connection, stdout=connection, check=False)

        server = threading.Thread(target=serve)
        server.start()
        self.addCleanup(listener.close)
        self.addCleanup(server.join)
        return "{}:{}".format(*listener.getsockname())

    def test_no_patience(self):
        for line in self.lines(Console):
            self.ends(self.probe_rightly(line, "--patience 0"), 0, found())

    def test_the_pace(self):
        """A console takes ten milliseconds for each of a look's eight keys, and a load types 62 characters for 25 of a look."""
        given = self.ldaodt(self.words_of(self.console_at(SlowConsole(words=1024))))
        key = re.search(r"^key (\d+\.\d) ms$", given.out, re.MULTILINE)
        count, unit = re.search(r"^a load of 1024 words takes (\d+) (seconds|minutes|hours) at this pace$", given.out, re.MULTILINE).groups()
        unit = {"seconds": 1, "minutes": 60, "hours": 3600}[unit]
        self.assertGreaterEqual(float(key[1]), 10)
        self.assertGreaterEqual((int(count) + 0.5) * unit, 1024 * 62 / 25 * 8 * 0.01)

    def test_no_files_are_made(self):
        self.probe_rightly(self.console_at(Console()))
        self.holds({})


class Letters(Probes):
    """A small letter, typed where the console waits for a command. That it is not kept is no hindrance, nor that it is not known."""

    def test_a_console_that_folds(self):
        """It shows so where it echoes an illegal key."""
        def trial(row):
            style, place = row
            line = getattr(self, place)(FoldingConsole(memory=numbers(28672), style=style))
            return line, self.probe_rightly(line)

        for (style, place), (line, given) in self.at_once(trial, [(style, place) for style in range(8) for place in ("console_at", "device_at")]):
            with self.subTest(style, place=place):
                self.ends(given, 0, found(style, letters=FOLDED if style & 4 else NOT_KNOWN))
                self.is_so(line.machine.typed, tried() + searched(28672))

    def test_each_lost_character_of_its_answer(self):
        """One CR of two may be lost; else a refusal that is not whole shows nothing, and costs no mishap. The letter is the 22nd key, its
        answer's first character the 50th at style 4, `Z?` and two CRs make the 54th of it at style 6."""
        def trial(row):
            console, style, loss = row
            return self.probe_rightly(self.console_at(console(memory={WORD: HELD}, style=style, **loss)), "--patience 0")

        rows = [(4, {"lost_key": 21}, ""), *((4, {"lost_answer": 49 + it}, "") for it in range(5)),
                *((6, {"lost_answer": 53 + it}, "CR" if it in (2, 3) else "") for it in range(6))]
        for console, shown in ((LossyConsole, KEPT), (FoldingConsole, FOLDED)):
            for (_, style, loss), given in self.at_once(trial, [(console, style, loss) for style, loss, _ in rows]):
                with self.subTest(console.__name__, style=style, **loss):
                    is_whole = (style, loss, "CR") in rows
                    self.ends(given, 0, found(style, letters=shown if is_whole else NOT_KNOWN))


class Wavering(Probes):
    """Consoles whose answers differ from time to time."""

    CR, SPACE, ECHO = (f"the {it} comes from time to time" for it in ("second CR", "space before a word", "echo of an illegal key"))
    MISHAP = ", which says nothing of the console after a mishap"

    def test_without_a_mishap(self):
        """The trial opens one word and types two `Z`."""
        line = self.console_at(WaveringConsole())
        self.ends(self.probe_rightly(line), 0, found(6, more=(self.CR, self.ECHO)))

    def test_after_a_mishap(self):
        """The second digit is lost, so that the word is opened twice."""
        line = self.console_at(WaveringConsole(lost_key=18))
        self.ends(self.probe_rightly(line), 0, found(7, more=(self.CR + self.MISHAP, self.SPACE + self.MISHAP, self.ECHO + self.MISHAP), letters=NOT_KNOWN))

    def test_a_lost_return(self):
        """One of two, at the trial's first prompt: no mishap, and no statement about the console either."""
        line = self.console_at(LossyConsole(style=2, lost_answer=25))
        self.ends(self.probe_rightly(line), 0, found(2, more=(self.CR,)))


class Bad(Probes):
    """ODT as ldaodt knows it, over a word that does not read as it did: it is not said to store digits, and nothing is written over the word."""

    FIRST, TRIAL, SECOND = range(3)

    def flickers(self, rows):
        """Probes a word that reads wrong once, for each row of what it holds, at which opening it does not read so, and what it reads then."""
        def trial(row):
            old, opening, reads, words = row
            line = self.console_at(FlickeringConsole(opening, reads, memory={WORD: old}))
            return line, self.probe_rightly(line, words)

        for row, (line, given) in self.at_once(trial, rows):
            with self.subTest("{0:06o} reads {2:06o} at {1} {3}".format(*row)):
                yield row, line, given

    def test_a_look_that_reads_wrong(self):
        """The first of them or the second: the number of the first is told, and nothing is typed behind the second, so that memory is what it
        was. A digit of the trial, or two of them, are no more than other numbers: it typed all three."""
        rows = [(old, opening, old ^ bit, "") for old in (HELD, 0, 1, 0o12, 3) for opening in (self.FIRST, self.SECOND) for bit in (0o20, 0o100000)]
        rows += [(0o12, self.FIRST, 0o32, ""), (1, self.FIRST, 3, ""), (3, self.SECOND, 1, ""), (0o23, self.FIRST, 0o21, ""),
                 (HELD, self.FIRST, HELD ^ 1, "--patience 0"), (HELD, self.SECOND, HELD ^ 1, "--patience 0")]
        for (old, opening, reads, _), line, given in self.flickers(rows):
            told = reads if opening == self.FIRST else old
            self.ends(given, 5, said("prompt yes", "style 0", NOT_KNOWN, "forgets digits not known", held(told), "end NotTrusted"))
            self.is_so(line.machine.typed, tried(digits="321" if told in (1, 0o12, 0o123) else "123"))

    def test_a_trial_that_reads_wrong(self):
        """What stands behind the `/` while digits are typed says nothing."""
        for _, line, given in self.flickers([(HELD, self.TRIAL, HELD ^ 0o20, ""), (HELD, self.TRIAL, 0o123, "")]):
            self.ends(given, 0, found())
            self.is_so(line.machine.typed, tried() + searched(28672))

    def test_a_trial_that_gave_up(self):
        """The echo of its second digit is lost, and then the second look reads wrong: what the first one or two digits make is taken for stored,
        all else is not. The word holds its number, so that nothing is deposited to put it back."""
        class Lossy(Flickering, LossyConsole):
            pass

        def trial(reads):
            line = self.console_at(Lossy(self.SECOND, reads, memory={WORD: HELD}, lost_answer=40))
            return line, self.probe(line, "--patience 0"), line.machine.word(WORD)

        for reads, (line, given, now) in self.at_once(trial, (1, 0o12, 2, 3, 0o13, 0o23, 0o124, HELD ^ 1)):
            with self.subTest(f"{reads:06o}"):
                stored = reads in (1, 0o12)
                self.is_so(given.out.split("\n")[-4:], [
                    "forgets digits no: do not load this machine" if stored else "forgets digits not known",
                    f"the word at 001000 holds {HELD:06o} again" if stored else held(HELD), "end NotTrusted", ""])
                self.is_so((given.status, now), (5, HELD))
                self.is_so(line.machine.typed, "Z001000/\rZ001000/12Z001000/\r" + ("Z001000/\r" if stored else ""))


class Storing(Probes):
    """Consoles that store what was typed before an illegal key."""

    def test_it_is_refused(self):
        """Whatever the word holds; the number is put back, and nothing else is looked at."""
        def trial(old):
            line = self.console_at(StoringConsole(memory={**numbers(28672), WORD: old}))
            before = list(line.machine.words)
            return line, self.probe(line), line.machine.words == before

        rows = {0: "123", 1: "321", 0o12: "321", 0o123: "321", 0o321: "123", 0o32: "123", 3: "123", HELD: "123", 0o177777: "123"}
        for old, (line, given, is_as_before) in self.at_once(trial, rows):
            with self.subTest(old):
                self.ends(given, 5, refused(old))
                self.is_so(line.machine.typed, tried(digits=rows[old]) + put_back(old))
                self.is_so(is_as_before, True)

    def test_the_eight_styles(self):
        def trial(style):
            line = self.device_at(StoringConsole(memory={0o2000: HELD}, style=style))
            before = list(line.machine.words)
            return line, self.probe(line, "--address 2000"), line.machine.words == before

        for style, (line, given, is_as_before) in self.at_once(trial, range(8)):
            with self.subTest(style):
                self.ends(given, 5, refused(HELD, style, 0o2000))
                self.is_so((line.machine.typed, is_as_before), (tried(0o2000) + put_back(HELD, 0o2000), True))

    def test_a_number_that_does_not_come_back(self):
        """It says what the word held, once: `NotTrusted` is not put up with either way."""
        line = self.console_at(StuckConsole(memory={WORD: HELD}))
        self.ends(self.probe(line), 5, said("prompt yes", "style 0", NOT_KNOWN, "forgets digits no: do not load this machine", held(HELD), "end NotTrusted"))
        self.is_so(line.machine.word(WORD), 0o123)

    def test_each_lost_character(self):
        """The number comes back all the same, however many digits were stored."""
        def trial(loss):
            line = self.console_at(StoringConsole(memory={WORD: HELD}, **loss))
            before = list(line.machine.words)
            return self.probe(line), line.machine.words == before

        for loss, (given, is_as_before) in self.at_once(trial, LOSSES):
            with self.subTest(loss):
                self.is_so((given.status, given.out.split("\n")[-4:], is_as_before), (5, refused(HELD).split("\n")[-4:], True))

    def test_each_lost_character_without_patience(self):
        """It is never called trusted, and what may have become of the word is said."""
        def trial(loss):
            line = self.console_at(StoringConsole(memory={WORD: HELD}, **loss))
            before = list(line.machine.words)
            given = self.probe(line, "--patience 0")
            line.machine.words[WORD // 2], now = HELD, line.machine.word(WORD)
            return given, now, line.machine.words == before

        for loss, (given, now, is_as_before_elsewhere) in self.at_once(trial, LOSSES):
            with self.subTest(loss):
                self.assertNotIn("forgets digits yes", given.out)
                self.is_so((given.status, is_as_before_elsewhere), (5, True))
                self.assertTrue(now == HELD or held(HELD) in given.out, f"{now:06o} {given}")

    def test_a_loss_while_it_is_put_back(self):
        """Without patience it stays at that: the `/`, a digit or the CR did not arrive."""
        def trial(lost_key):
            line = self.console_at(StoringConsole(memory={WORD: HELD}, lost_key=lost_key))
            return self.probe(line, "--patience 0"), line.machine.word(WORD)

        begins = len(tried())
        for lost_key, (given, now) in self.at_once(trial, (begins + 7, begins + 8, begins + 14)):
            with self.subTest(lost_key):
                self.ends(given, 5, said("prompt yes", "style 0", NOT_KNOWN, "forgets digits no: do not load this machine", held(HELD), "end NotTrusted"))
                self.is_so(now, 0o123)


class Strangers(Probes):
    """What is no ODT, or not as ldaodt knows it."""

    def stranger(self, machine, report, keys, words="--patience 2", err=""):
        for line in self.lines(machine):
            self.ends(self.probe_rightly(line, words), 5, report, err)
            self.is_so(line.machine.typed, keys)

    def test_eight_digits(self):
        """The last answer is heard as far as its seventh digit, which is none of a word of six."""
        characters = "?\r\n@001000/00123456 " * 2 + "?\r\n@001000/0012345"
        self.stranger(lambda: WideConsole(memory={WORD: HELD}), said("prompt yes", heard(characters), OTHERS, "end GaveUp"), "Z001000/" * 3)

    def test_an_echo(self):
        self.stranger(EchoingConsole, said("prompt no", "heard only what was typed: ZZZ", look_at("Only what was typed comes back"), "end NoPrompt"), "ZZZ")

    def test_another_prompt(self):
        """It is heard nine times, the last one up to its CR, where a `?` is due."""
        report = said("prompt no", heard("Z\r\n$ " * 8 + "Z\r"), look_at("Something else answers"), "end NoPrompt")
        self.stranger(BootingConsole, report, "Z" * 9, words="")

    def test_characters_that_no_terminal_shows(self):
        """The last answer is heard up to its first character, which is no answer to `Z`; so is that of each, and no loss explains it."""
        report = said("prompt no", "heard " + "\\033[2J\\\\\\177~\\011" * 2 + "\\033", look_at("Something else answers"), "changed characters 3",
                      "end NoPrompt")
        self.stranger(OddConsole, report, "ZZZ", err="ldaodt: 3 characters came changed, or not from ODT: docs/REAL-MACHINE.md, step 7\n")

    def test_nothing_answers(self):
        self.stranger(DeafConsole, said("prompt no", "heard nothing", look_at("Nothing answers"), "end NoPrompt"), "ZZZ")
        self.stranger(DeafConsole, said("prompt no", "heard nothing", look_at("Nothing answers"), "end NoPrompt"), "Z", words="--patience 0")

    def test_it_never_falls_silent(self):
        """10,000 characters are heard, and 100 for each mishap of the patience. Nothing is typed."""
        for line in self.lines(EndlessConsole):
            given = self.probe_rightly(line)
            begin, shown, end = re.fullmatch(r"(.*\n)heard (.*)\n(.*\n.*\n)", given.out).groups()
            self.is_so((given.status, begin, end), (5, said("prompt no"), said(look_at("It never falls silent"), "end TurnsOver")))
            self.assertIn(shown.replace("\\r", "\r").replace("\\n", "\n"), EndlessConsole.chatter * 4)
            self.assertEqual(len(shown) - shown.count("\\"), 40)
            self.is_so(line.machine.typed, "")
            self.assertGreaterEqual(line.answered, 10_800)

    def test_the_turns_of_a_run(self):
        """Behind characters that nobody asked for a look hears a silence, 4 characters to `Z` and 17 to the word."""
        def trial(row):
            patience, more = row
            line = BabblingPeer(Console(), 10_000 + 100 * patience - 22 + more)
            self.addCleanup(line.close)
            line.address = line.name
            return self.probe_rightly(line, f"--patience {patience}")

        for (patience, more), given in self.at_once(trial, [(patience, more) for patience in (0, 8) for more in (0, 1)]):
            with self.subTest(patience, more=more):
                characters = "@" * 40 + "?\r\n@001000/000000 \r\n"
                over = said("prompt yes", heard(characters), look_at("It never falls silent"), "end TurnsOver")
                self.ends(given, 5 if more else 0, over if more else found())

    def test_a_trial_whose_turns_are_over(self):
        """There is a second look behind it, and what that shows counts."""
        line = self.console_at(BabblingConsole(memory={WORD: HELD}))
        characters = "-" * 40 + "?\r\n@" + "?\r\n@001000/123456 \r\n@"
        self.ends(self.probe_rightly(line), 5, said("prompt yes", heard(characters), look_at("It never falls silent"), "style 0", NOT_KNOWN,
                                                    "forgets digits not known", held(HELD), "end TurnsOver"))
        self.is_so(line.machine.typed, tried(letter=""))
        line = self.console_at(BabblingStoringConsole(memory={WORD: HELD}))
        self.ends(self.probe(line), 5, refused(HELD))
        self.is_so((line.machine.typed, line.machine.word(WORD)), (tried(letter="") + put_back(HELD), HELD))

    def test_the_echo_left_on(self):
        """A device that sends back what it hears never falls silent."""
        line = self.device_at(Console(memory={WORD: HELD}), settings="raw echo")
        before = list(line.machine.words)
        given = self.ldaodt(self.words_of(line))
        line.hang_up()
        self.is_so((given.status, given.out.split("\n")[-2:]), (5, ["end TurnsOver", ""]))
        self.assertIn(look_at("It never falls silent"), given.out.split("\n"))
        self.is_so((line.machine.words == before, line.machine.starts), (True, []))


class Losses(Probes):
    """A line to a right console that loses a character: memory is what it was, and the console is not called one that stores."""

    def test_each_lost_character(self):
        """It costs a mishap, or a CR that need not come."""
        def trial(loss):
            return self.probe_rightly(self.console_at(LossyConsole(memory={WORD: HELD}, **loss)))

        for loss, given in self.at_once(trial, LOSSES):
            with self.subTest(loss):
                self.ends(given, 0, found())

    def test_each_lost_character_without_patience(self):
        """The first look ends a probe; behind a trial that gave up there is a second one, and all that is known is said. Nothing hangs on the
        letter."""
        def trial(loss):
            line = self.console_at(LossyConsole(memory={WORD: HELD}, **loss))
            return line, self.probe_rightly(line, "--patience 0")

        for loss, (line, given) in self.at_once(trial, LOSSES):
            with self.subTest(loss):
                is_key, place = "lost_key" in loss, next(iter(loss.values()))
                first_over, trial_over, letter_over = (9, 21, 22) if is_key else (21, 46, 50)
                lines = given.out.split("\n")
                if trial_over <= place < letter_over:
                    self.ends(given, 0, found())
                    continue
                self.is_so((given.status, given.err), (5, ""))
                if place < first_over:
                    self.assertRegex(given.out, r"\Aprompt (yes|no)\nheard .*\nhelp: .*\nend (NoPrompt|GaveUp)\n\Z")
                else:
                    self.is_so((lines[0], lines[2], lines[-4:]), ("prompt yes", OTHERS, ["forgets digits not known", held(HELD), "end GaveUp", ""]))
                if first_over <= place < trial_over:
                    self.is_so(line.machine.typed.count("Z001000/\r"), 2)

    def test_what_was_heard_before_it_gave_up(self):
        """The echo of the first digit is lost, which has been typed."""
        line = self.console_at(LossyConsole(memory={WORD: HELD}, lost_answer=39))
        given = self.probe_rightly(line, "--patience 0")
        characters = "\r\n@" + "?\r\n@001000/123456 " + "?\r\n@001000/123456 \r\n@"
        self.ends(given, 5, said("prompt yes", heard(characters), OTHERS, "style 0", NOT_KNOWN, "forgets digits not known", held(HELD), "end GaveUp"))
        self.is_so(line.machine.typed, "Z001000/\rZ001000/1Z001000/\r")


class Failures(Probes):
    """Lines that fail, and probes that are killed."""

    def test_a_hang_up_at_each_stage(self):
        """Digits may have been typed from when the trial begins until the second look is over."""
        def trial(characters):
            line = self.console_at(Console(memory={WORD: HELD}), close_after=characters)
            return self.probe_rightly(line)

        borders = (PROMPTED, LOOK_OVER, STYLE_SEEN, TRIAL_OVER, SECOND_OVER)
        for characters, given in self.at_once(trial, sorted({*range(1, 140, 7), *(at + more for at in borders for more in (-1, 0, 1))})):
            with self.subTest(characters):
                lines = ["prompt yes" if characters >= PROMPTED else "prompt no"]
                if characters >= STYLE_SEEN:
                    lines.append("style 0")
                if characters >= LOOK_OVER:
                    lines.append(NOT_KNOWN)
                if characters >= SECOND_OVER:
                    lines.append("forgets digits yes")
                elif characters >= LOOK_OVER:
                    lines.extend(("forgets digits not known", held(HELD)))
                self.ends(given, 4, said(*lines, "end LineFailed"), FAILED)

    def test_a_device_that_hangs_up(self):
        """What had come and was not looked for yet may be lost with it."""
        def trial(characters):
            return self.probe_rightly(self.device_at(Console(memory={WORD: HELD}), close_after=characters))

        for characters, given in self.at_once(trial, (1, 10, LOOK_OVER - 1, LOOK_OVER + 1, 60, 80, SECOND_OVER - 1, 200)):
            with self.subTest(characters):
                self.is_so((given.status, given.err, given.out.split("\n")[-2]), (4, FAILED, "end LineFailed"))
                self.assertEqual(held(HELD) in given.out, LOOK_OVER < characters < SECOND_OVER)

    def test_a_console_that_stores_and_hangs_up(self):
        """Before the second look it is not known; while the number is put back it is, and what the word held is said either way."""
        def trial(characters):
            line = self.console_at(StoringConsole(memory={WORD: HELD}), close_after=characters)
            return self.probe(line), line.machine.word(WORD)

        for characters, (given, now) in self.at_once(trial, (TRIAL_OVER, SECOND_OVER - 1, SECOND_OVER, SECOND_OVER + 20)):
            with self.subTest(characters):
                self.is_so((now, held(HELD) in given.out, "forgets digits yes" in given.out), (0o123, True, False))
                if characters < SECOND_OVER:
                    self.ends(given, 4, said("prompt yes", "style 0", NOT_KNOWN, "forgets digits not known", held(HELD), "end LineFailed"), FAILED)
                else:
                    self.is_so((given.status, given.out), (5, said(
                        "prompt yes", "style 0", NOT_KNOWN, "forgets digits no: do not load this machine", held(HELD), "end NotTrusted")))

    def test_a_probe_that_is_killed(self):
        """At any moment: memory is what it was, and the next probe finds the same as the first would have."""
        def trial(keys):
            machine = SlowConsole(1024, numbers(1024))
            line, before = self.device_at(machine), list(machine.words)
            process = subprocess.Popen([PROGRAM, *self.words_of(line)], stdin=subprocess.DEVNULL, stdout=subprocess.DEVNULL)
            while len(machine.typed) < keys and process.poll() is None:
                time.sleep(0.001)
            process.send_signal(signal.SIGKILL)
            process.wait()
            line.settle()
            self.is_right(line, before)
            return self.ldaodt(self.words_of(line, "--patience 0"))

        for keys, given in self.at_once(trial, (0, 5, 16, 17, 18, 19, 20, 21, 22, 25, 40)):
            with self.subTest(keys):
                self.ends(given._replace(out=timeless(given.out)), 0, found(words=1024))

    def test_a_console_that_is_not_there(self):
        for name, why in ((self.taken_port(), errno.ECONNREFUSED), ("./nothing", errno.ENOENT), ("/dev/null", NO_TERMINAL)):
            self.ends(self.ldaodt(["probe", name]), 4, "", fault(f"cannot connect to {name}", why))


class Words(Probes):
    """The words of a probe, and its output."""

    def test_words_that_are_refused(self):
        """Nobody is connected to."""
        line = self.console_at(Console())
        address = [f"--address={it}" for it in ("1001", "160000", "177776", "8", "", "-2", "+2", "0001000", "1000.", "x")]
        for words in (*address, "--address", "--patience=1001", "--patience=-1", "--quiet=0", "--quiet=60001", "--record=a", "--style=1", "1000"):
            with self.subTest(words):
                given = self.ldaodt(["probe", line.address, words])
                self.is_so((given.status, given.out, given.err.startswith("error: ")), (2, "", True))
        for name in ("", "localhost", "ttyUSB0"):
            with self.subTest(name):
                given = self.ldaodt(["probe", name])
                self.is_so((given.status, given.out, given.err.startswith("error: ")), (2, "", True))
        self.is_so((self.ldaodt(["probe"]).status, line.connections), (2, 0))
        self.holds({})

    def test_an_output_that_can_not_be_written(self):
        """The probe was made all the same, and the old number put back."""
        for before in ("> /dev/full", ">&-"):
            line = self.console_at(StoringConsole(memory={WORD: HELD}))
            self.ends(self.probe(line, before=before), 4, "", NO_OUTPUT)
            self.is_so((line.machine.word(WORD), line.machine.typed), (HELD, tried() + put_back(HELD)))


if __name__ == "__main__":
    unittest.main()
