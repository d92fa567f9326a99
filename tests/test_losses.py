"""Loads over a line that loses characters, and restarts of the host, beside a second model of console, host and line.

The model is written from docs/CONSOLE.md, docs/SCRIPTS.md and docs/MAP.md ("The way of a byte"), and has another
shape than the program, whose console has modes and whose host has phases: here the console is the text that stands on
its line, and the host does one thing after another, with the forms of what may answer each key. So what one of them
misreads the other would have to misread, too, in another way, to stay hidden.

A story is a load of two words over a line on which something happens. The model plays it and writes its events down as
a script for `ldaodt rehearse`, whose report must be what the model says. Before each third event the script has one
that can't be at that moment, of four kinds in turn, and behind the last event one of each kind: each must be told, and
change nothing; so it is seen, too, how many characters are under way.

A rehearsal costs two milliseconds, so not every story is played, but always the same ones, each once:

- In each of four loads and eight styles every single character is lost, of either way, by a host that survives eight
  mishaps; by one that survives none every second; by one that survives a single one every third.
- In each load and style the line loses all that is under way, after each fourth number of events.
- In each load and style the load without a loss stops after each number of events, so that each moment of it is
  compared; and of the loads with a loss each fourth, at different moments after the loss.
- In the third load the host is restarted after each number of events, and each second character is lost, before it or
  after it, in style 0: the even ones with the even numbers, the odd ones with the odd. In the other styles it is
  restarted after each seventh number, with each ninth character. In each load and style it is restarted after each
  fourth number of events where nothing is lost.
"""
import multiprocessing
import os
import re
import unittest
from collections import namedtuple
from concurrent.futures import ProcessPoolExecutor
from functools import lru_cache

from cases import TAPES, Case
from outside import TOP, Answer, block, run_often

# ---------------------------------------------------------------- the model


class Console:
    """The console: what memory holds, and the text on its line since the last prompt.

    An opened word leaves its address and a slash there, a started program its address and a `G`.
    """

    def __init__(self, words, memory, style):
        self.words, self.memory, self.line = words, memory, ""
        self.space = " " if style & 1 else ""
        self.prompt = ("\r\r" if style & 2 else "\r") + "\n@"
        self.echoes = bool(style & 4)

    def word(self, address):
        """The word at an address; none where there is no memory."""
        return self.memory.get(address, 0) if address % 2 == 0 and address < 2 * self.words else None

    def take(self, key):
        """What it prints for a key. Digits join the line, any other key ends it, and does what the line says."""
        if self.line.endswith("G"):
            return ""
        if key in "01234567":
            self.line += key
            return key
        line, self.line = self.line, ""
        address, opened, digits = line.partition("/")
        if key == "\r":
            if digits:
                self.memory[octal(address)] = octal(digits)
            return self.prompt
        if key == "/" and line and not opened:
            word = self.word(octal(line))
            if word is None:
                return "/?" + self.prompt
            self.line = line + "/"
            return f"/{self.space}{word:06o} "
        if key == "G" and line and not opened:
            if octal(line) % 2:
                return "G?" + self.prompt
            self.line = line + "G"
            return "G"
        return (key if self.echoes else "") + "?" + self.prompt

    def state(self):
        """What the text on the line amounts to."""
        address, opened, digits = self.line.rstrip("G").partition("/")
        if self.line.endswith("G"):
            return f"Running {octal(address):06o}"
        if digits:
            return f"Typing {octal(address):06o} {octal(digits):06o} {min(len(digits), 7)}"
        if opened:
            return f"Opened {octal(address):06o}"
        return f"Number {octal(address):06o} {min(len(address), 7)}" if address else "Prompt"


def octal(digits):
    return int(digits, 8) % 65536


# What answers a key, where it isn't its echo alone: the form, and a text of each length that it has.
FORMS = {
    "Z": (r"Z?\?\r\r?\n@", ("?\r\n@", "?\r\r\n@", "Z?\r\n@", "Z?\r\r\n@")),
    "/": (r"/ ?[01][0-7]{5} |/\?", ("/000000 ", "/ 000000 ", "/?")),
    "\r": (r"\r\r?\n@", ("\r\n@", "\r\r\n@")),
}


WHOLE, PART, OTHER = range(3)


@lru_cache(None)
def judged(key, text):
    """Whether a text is an answer to a key, or becomes one with the rest of another behind it, or neither."""
    form, answers = FORMS.get(key, (key, (key,)))
    if re.fullmatch(form, text):
        return WHOLE
    return PART if any(re.fullmatch(form, text + answer[len(text) :]) for answer in answers) else OTHER


class Mishap(Exception):
    """What came is no answer, nor the beginning of one: a character, or nothing."""

    def __init__(self, heard):
        super().__init__()
        self.heard = heard


class Host:
    """The host. Of each word of its tape it knows the address, which bits the tape gives, and these bits."""

    def __init__(self, words, start, patience):
        self.words, self.start, self.patience = words, start, patience
        self.verified, self.going = 0, False
        self.begin()

    def begin(self):
        """Begins a life."""
        self.sent, self.spent, self.end = 0, 0, None
        self.life = self.load()
        self.hear(None)

    def restart(self, kept):
        self.verified = min(self.verified, kept)
        self.begin()

    def hear(self, heard):
        """Hears a character, or "" where nothing came; returns the key that it sends then, or ""."""
        if self.end:
            return ""
        try:
            key = self.life.send(heard)
        except StopIteration as over:
            self.end, key = over.value, ""
        self.sent += len(key)
        return key

    def load(self):
        """A life: yields what it sends, is given what it hears then, and returns how it ends."""
        if self.going:
            return "MaybeStarted"
        if self.start is None and self.verified == len(self.words):
            return "Loaded"
        heard = None
        while True:
            while heard != "":
                heard = yield ""
            try:
                yield from self.type("Z")
                while self.verified < len(self.words):
                    end = yield from self.load_word(*self.words[self.verified])
                    if end:
                        return end
                if self.start is None:
                    return "Loaded"
                yield from self.type(f"{self.start:06o}")
                self.going = True
                return "Started" if (yield "G") == "G" else "Uncertain"
            except Mishap as mishap:
                if self.spent == self.patience:
                    return "GaveUp"
                self.spent += 1
                heard = mishap.heard

    def load_word(self, address, mask, value):
        for is_deposited in (False, True):
            shown = yield from self.type(f"{address:06o}/")
            if shown == "/?":
                return f"NoWord {address:06o}"
            found = octal(shown[1:])
            if found & mask == value:
                self.verified += 1
                yield from self.type("\r")
                return None
            if not is_deposited:
                yield from self.type(f"{found & ~mask | value:06o}\r")
        return f"WontHold {address:06o}"

    def type(self, text):
        """Types a text, each key when the one before it is answered; returns the last answer."""
        for key in text:
            answer = heard = yield key
            while heard and (verdict := judged(key, answer)) == PART:
                heard = yield ""
                answer += heard
            if not heard or verdict == OTHER:
                raise Mishap(heard)
        return answer


class Line:
    """Console and host at the ends of a line, and what is under way on it."""

    def __init__(self, console, host, waiting):
        self.console, self.host = console, host
        self.down, self.up = "", waiting
        self.taken = self.heard = self.lost = 0

    def next_event(self):
        """What delivers without loss."""
        return "take" if self.down else "hear" if self.up else "quiet"

    def impossible(self, kind):
        """An event that can't be now, of one of four kinds."""
        if kind < 2:
            return f"up {len(self.up)}" if kind else f"down {len(self.down)}"
        if kind == 2:
            return "quiet" if self.down else "take"
        return "quiet" if self.up else "hear"

    def apply(self, event):
        """Lets an event happen, which is possible."""
        if event == "take":
            self.up += self.console.take(self.down[0])
            self.down = self.down[1:]
            self.taken += 1
        elif event == "hear":
            heard, self.up = self.up[0], self.up[1:]
            self.down += self.host.hear(heard)
            self.heard += 1
        elif event == "quiet":
            self.down += self.host.hear("")
        else:
            kind, number = event.split()
            if kind == "restart":
                self.host.restart(int(number))
                self.lost = -1
            elif kind == "down":
                self.down = without(self.down, int(number))
            else:
                self.up = without(self.up, int(number))
            self.lost += 1

    def report(self):
        host = self.host
        yield f"sent {host.sent} lost {self.lost} spent {host.spent} verified {host.verified} of {len(host.words)}"
        yield f"end {host.end or 'none'}"
        yield f"odt {self.console.state()}"
        for address, mask, value in host.words:
            word = self.console.word(address)
            if word is None:
                yield f"{address:06o} ------ absent"
            else:
                yield f"{address:06o} {word:06o} {'stands' if word & mask == value else 'differs'}"


def without(text, place):
    return text[:place] + text[place + 1 :]


# ---------------------------------------------------------------- the loads

# The tape: its words, of the second the low byte alone, and its start (tests/commands.md shows its bytes).
TAPE = TAPES["two-words.lda"]
WORDS = ((0o001000, 0o177777, 0o031421), (0o001002, 0o000377, 0o000104))
START = 0o001000

STYLES = range(8)

# How many mishaps a host survives: more than one loss makes, none, and one.
PATIENCES = (8, 0, 1)

# A machine whose words hold the same, and what a load of the tape into it is on a line that loses nothing, counted by
# hand: the size of memory (258 words end right behind the tape's second word), what each word holds, the keys, the
# characters that a console of style 0 answers, how many words it shows, each behind a space in some styles, how many
# prompts it prints, each behind a second return in some styles, and the report.
Load = namedtuple("Load", "reason words filler keys answers shown prompts report")
LOADS = (
    Load(
        "each word is read, deposited and read back",
        *(258, 0, 52, 91, 4, 5),
        "sent 52 lost 0 spent 0 verified 2 of 2\nend Started\nodt Running 001000\n"
        "001000 031421 stands\n001002 000104 stands\n",
    ),
    Load(
        "the byte that the tape leaves alone is not zero",
        *(258, 0o125252, 52, 91, 4, 5),
        "sent 52 lost 0 spent 0 verified 2 of 2\nend Started\nodt Running 001000\n"
        "001000 031421 stands\n001002 125104 stands\n",
    ),
    Load(
        "the first word stands before it is loaded",
        *(258, 0o031421, 38, 68, 3, 4),
        "sent 38 lost 0 spent 0 verified 2 of 2\nend Started\nodt Running 001000\n"
        "001000 031421 stands\n001002 031504 stands\n",
    ),
    Load(
        "memory ends before the second word",
        *(257, 0, 30, 55, 2, 4),
        "sent 30 lost 0 spent 0 verified 1 of 2\nend NoWord 001002\nodt Prompt\n"
        "001000 031421 stands\n001002 ------ absent\n",
    ),
)


class Setting(namedtuple("Setting", "load style patience waiting", defaults=("",))):
    """A load, by its number, into a console of one style, by a host of one patience, for which characters may wait."""

    def lines(self):
        """The setup lines of a script."""
        load = LOADS[self.load]
        waiting = [f"wait {self.waiting.encode().hex(' ')}"] if self.waiting else []
        puts = [f"put {address:06o} {value:06o}" for address, value in self.memory().items()]
        return [f"words {load.words}", f"style {self.style}", f"patience {self.patience}", *waiting, *puts]

    def memory(self):
        """The tape's words where they are not zero."""
        load = LOADS[self.load]
        return {address: load.filler for address, *_ in WORDS if load.filler and address < 2 * load.words}

    def line(self):
        console = Console(LOADS[self.load].words, self.memory(), self.style)
        return Line(console, Host(WORDS, START, self.patience), self.waiting)

    def length(self, way):
        """How many characters go a way on a line that loses nothing, counted by hand.

        `Z` is the one key that some styles echo before they refuse it.
        """
        load = LOADS[self.load]
        if way == "down":
            return load.keys
        extra = (load.shown if self.style & 1 else 0, load.prompts if self.style & 2 else 0, 1 if self.style & 4 else 0)
        return len(self.waiting) + load.answers + sum(extra)

    def events(self):
        """How many events such a load has: one is the silence before the first key."""
        return self.length("down") + self.length("up") + 1


# ---------------------------------------------------------------- the stories


class Story(namedtuple("Story", "setting way lost place kept stop", defaults=(None,) * 5)):
    """What happens in a load that would not happen on a line that loses nothing.

    `way` is "down" or "up" where the character with the number `lost` is lost on that way, "both" where all is lost
    that is under way after `lost` events. After `place` events the host is restarted and keeps `kept` words. `stop`
    events after the loss, or after the beginning where nothing is lost, the story stops; else at the host's end.
    """

    def losses(self, line, count):
        """The events that lose what the story says, where that is under way after so many events."""
        if self.way == "both":
            return ["down 0"] * len(line.down) + ["up 0"] * len(line.up) if count == self.lost else []
        gone, under_way = (line.taken, line.down) if self.way == "down" else (line.heard, line.up)
        place = self.lost - gone
        return [f"{self.way} {place}"] if 0 <= place < len(under_way) else []

    def play(self):
        """Plays the story in the model: returns its script, what is to be printed, and whether anything was lost."""
        line, script, said = self.setting.line(), self.setting.lines(), []

        def tell(event):
            script.append(event)
            said.append(f"line {len(script)}: not possible")

        count, since, is_lost = 0, 0, False
        while True:
            is_to_lose = self.way is not None and not is_lost
            losses = self.losses(line, count) if is_to_lose else []
            if count == self.place:
                events = [f"restart {self.kept}"]
            elif line.host.end or (since == self.stop and not is_to_lose):
                break
            elif losses:
                events, since, is_lost = losses, -len(losses), True
            else:
                events = [line.next_event()]
            if count % 3 == 0:
                tell(line.impossible(count % 4))
            for event in events:
                script.append(event)
                line.apply(event)
            count, since = count + len(events), since + len(events)
        for kind in range(4):
            tell(line.impossible(kind))
        return script, [*said, *line.report()], is_lost


def tried(story):
    """Plays a story in the model and rehearses it: returns whether anything was lost, and what differs, if anything."""
    script, wanted, is_lost = story.play()
    given = rehearsed(script)
    if given == Answer(0, text(wanted), ""):
        return is_lost, None
    printed = given.out.splitlines()
    place = next((place for place, line in enumerate(wanted) if printed[place : place + 1] != [line]), len(wanted))
    return is_lost, (
        f"{story}\nends with status {given.status} and {given.err!r}; from its line {place + 1} on it is"
        f"\n  {printed[place:][:6]}\nand not\n  {wanted[place:][:6]}"
    )


def rehearsed(script, tape=TAPE):
    return run_often(["rehearse", tape, "/dev/stdin"], keys=text(script).encode(), seconds=60)


def text(lines):
    return "\n".join(lines) + "\n"


class Stories(unittest.TestCase):
    """Stories, tried in several processes: in one the model would keep the program waiting."""

    @classmethod
    def setUpClass(cls):
        cls.pool = ProcessPoolExecutor(os.cpu_count(), mp_context=multiprocessing.get_context("fork"))
        cls.addClassCleanup(cls.pool.shutdown)

    def are_right(self, stories):
        """Asserts that stories end as the model says; returns each with whether anything was lost in it."""
        stories = list(stories)
        answers = list(self.pool.map(tried, stories, chunksize=32))
        wrong = [difference for _, difference in answers if difference]
        if wrong:
            self.fail(f"{len(wrong)} of {len(stories)} stories differ, the first of them\n{wrong[0]}")
        return [(story, is_lost) for story, (is_lost, _) in zip(stories, answers)]

    def test_the_model_on_a_line_that_loses_nothing(self):
        """It says what was counted by hand, and so does the program where it is left to itself."""
        for number, load in enumerate(LOADS):
            for style in STYLES:
                setting = Setting(number, style, 8)
                line = setting.line()
                while not line.host.end:
                    line.apply(line.next_event())
                with self.subTest(load.reason, style=style):
                    self.assertEqual(text(line.report()), load.report)
                    self.assertEqual(line.taken, setting.length("down"))
                    self.assertEqual(line.heard + len(line.up), setting.length("up"))
                    self.assertEqual(rehearsed([*setting.lines(), "clean"]), Answer(0, load.report, ""))

    def test_each_character_is_lost(self):
        """So many characters can be lost as were counted by hand, and the next one can't."""
        stories = (
            Story(Setting(load, style, patience), way, number)
            for load in range(len(LOADS))
            for style in STYLES
            for patience, first, step in ((8, 0, 1), (0, style % 4, 4), (1, style % 6, 6))
            for way in ("down", "up")
            for number in range(first, Setting(load, style, patience).length(way) + 1, step)
        )
        for story, is_lost in self.are_right(stories):
            self.assertEqual(is_lost, story.lost < story.setting.length(story.way), story)

    def test_all_that_is_under_way_is_lost(self):
        """The host hears nothing more of an answer, wherever in it it is."""
        self.are_right(
            Story(Setting(load, style, PATIENCES[count % 3]), "both", count)
            for load in range(len(LOADS))
            for style in STYLES
            for count in range(style % 4, Setting(load, style, 8).events(), 4)
        )

    def test_each_moment_of_a_clean_load(self):
        """In every other style."""
        self.are_right(
            Story(Setting(load, style, 8), stop=stop)
            for load in range(len(LOADS))
            for style in STYLES
            for stop in range(style % 2, Setting(load, style, 8).events() + 1, 2)
        )

    def test_moments_after_a_loss(self):
        """Up to 47 events after it: by then the word is begun again."""
        self.are_right(
            Story(Setting(load, style, PATIENCES[style % 2]), way, number, stop=(5 * number + 7 * style) % 48)
            for load in range(len(LOADS))
            for style in STYLES
            for way in ("down", "up")
            for number in range(style // 2, Setting(load, style, 8).length(way), 4)
        )

    def test_restarts_with_a_loss(self):
        """In the third load one word stands already, and one is deposited."""
        setting = Setting(2, 0, 8)
        self.are_right(
            Story(setting, way, number, place, (place + number) % 3)
            for way in ("down", "up")
            for number in range(setting.length(way))
            for place in range(number % 4, setting.events() + 1, 4)
        )

    def test_restarts_in_the_other_styles(self):
        self.are_right(
            Story(Setting(2, style, PATIENCES[style % 3]), way, number, place, (place + number) % 3)
            for style in STYLES[1:]
            for way in ("down", "up")
            for number in range(style % 9, Setting(2, style, 8).length(way), 9)
            for place in range(style % 7, Setting(2, style, 8).events() + 1, 7)
        )

    def test_restarts_on_a_line_that_loses_nothing(self):
        self.are_right(
            Story(Setting(load, style, 8), place=place, kept=(0, 1, 2, 4294967295)[place // 4 % 4])
            for load in range(len(LOADS))
            for style in STYLES
            for place in range(style % 4, Setting(load, style, 8).events() + 1, 4)
        )

    def test_characters_that_wait(self):
        """What an earlier session has left looks like the answers to the first keys; each of it is lost, or none."""
        setting = Setting(0, 0, 8, "?\r\n@001000/000000 031421\r\n@")
        self.are_right(Story(setting, "up", number) for number in range(len(setting.waiting) + 1))


# Other tapes: why they stand here, the tape, the setup lines, and the report of a line that loses nothing. The keys are
# counted by hand: `Z` first, 8 for a word that stands, and 7 for the start.
OTHER_TAPES = (
    (
        "a word that stands is only looked at",
        TAPES["first.lda"],
        ["put 001000 011064"],
        "sent 16 lost 0 spent 0 verified 1 of 1\nend Started\nodt Running 001000\n001000 011064 stands\n",
    ),
    (
        "a byte that stands is only looked at, whatever the other half of its word is",
        f"{TOP}/examples/losses/high-byte.lda",
        ["put 001000 052652"],
        "sent 9 lost 0 spent 0 verified 1 of 1\nend Loaded\nodt Prompt\n001000 052652 stands\n",
    ),
)


class CleanLines(Case):
    """Other tapes, on a line that loses nothing."""

    def test_small_tapes(self):
        for reason, tape, setup, report in OTHER_TAPES:
            with self.subTest(reason):
                self.assertEqual(rehearsed([*setup, "clean"], tape), Answer(0, report, ""))

    def test_a_start_alone(self):
        """Without a word to load no memory is needed."""
        self.put("start.lda", block(START, b""))
        report = "sent 8 lost 0 spent 0 verified 0 of 0\nend Started\nodt Running 001000\n"
        self.assertEqual(rehearsed(["words 0", "clean"], self.path("start.lda")), Answer(0, report, ""))

    def test_a_full_image(self):
        """The longest tape: every byte below 160000, no word zero. Each word is 22 keys."""
        data = bytes(place % 255 + 1 for place in range(57344))
        self.put("full.lda", block(0, data) + block(START, b""))
        words = ((address, data[address] + 256 * data[address + 1]) for address in range(0, 57344, 2))
        counts = f"sent {1 + 22 * 28672 + 7} lost 0 spent 0 verified 28672 of 28672"
        report = [counts, "end Started", "odt Running 001000"]
        report += [f"{address:06o} {word:06o} stands" for address, word in words]
        self.is_so(rehearsed(["clean"], self.path("full.lda")), Answer(0, text(report), ""))


if __name__ == "__main__":
    unittest.main()
