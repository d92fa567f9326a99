"""How many characters came changed, or not from ODT: a line on standard error, behind all else of a load, a look or a probe, a field of
its log, and a line of a probe's report. Only characters count that no loss explains, so that a line which loses, or changes nothing, has none.
"""
import os
import random
import re
import unittest
from concurrent.futures import ThreadPoolExecutor

from cases import LONG_QUIET, Case, Console
import odt_peer
from outside import came_changed, line_failed
import traced

# The dialogue of first.lda, one word deposited and started: what a console answers, with the place in it of each answer.
PROMPT, FIRST_ADDRESS, SLASH, READING, DEPOSIT, STORED, CHECK, START, GO = 0, 4, 10, 11, 18, 24, 27, 44, 50

# Characters of it that come as another one, each of which no loss explains, and how the load then ends.
CHANGED = (
    (PROMPT, "!", "Started", 0),
    (FIRST_ADDRESS, "1", "Started", 0),
    (FIRST_ADDRESS + 5, "7", "Started", 0),
    (SLASH, "o", "Started", 0),
    (READING, "p", "Started", 0),
    (DEPOSIT, "4", "Started", 0),
    (STORED, "\t", "Started", 0),
    (CHECK + 2, "0", "Started", 0),
    (START + 2, "5", "Started", 0),
    (GO, "F", "Uncertain", 6),
)


class Changing(Console):
    """A console one of whose answered characters comes as another one."""

    def __init__(self, place, comes, **named):
        super().__init__(**named)
        self.place, self.comes = place, comes

    def take(self, key):
        place = self.place - self.answered
        answer = super().take(key)
        return answer[:place] + self.comes + answer[place + 1:] if 0 <= place < len(answer) else answer


class ChangingOften(Console):
    """A console behind a line that changes the echo of the first digit in each of so many attempts at a word."""

    def __init__(self, count, **named):
        super().__init__(**named)
        self.left = count

    def take(self, key):
        is_first = self.mode == "prompt"
        answer = super().take(key)
        if self.left and is_first and key.isdigit():
            self.left -= 1
            return chr(ord(key) ^ 2)
        return answer


class ChangingAttempts(Console):
    """A console behind a line that changes the echo of the first digit typed at the prompt in the attempts with these numbers."""

    def __init__(self, numbers, **named):
        super().__init__(**named)
        self.numbers, self.attempt = numbers, 0

    def take(self, key):
        is_first = self.mode == "prompt" and key.isdigit()
        answer = super().take(key)
        self.attempt += is_first
        return chr(ord(key) ^ 2) if is_first and self.attempt - 1 in self.numbers else answer


# Of a probe the attempt 0 is the first look, 1 the trial, 2 the second look, and behind it a search of 258 words looks at 2 words, 9 and 3. One
# that was changed is made again, so that those behind it count one more. Which are changed, and how many are told: none of a trial.
PROBES = (((), 0), ((0,), 1), ((0, 1, 2), 3), ((1,), 0), ((2,), 1), ((2, 3), 2), ((3,), 1), ((5,), 1), ((14,), 1), ((0, 3, 5, 8), 4),
          ((0, 2, 4, 6, 9, 18), 5))


class KnownPeer(odt_peer.Peer):
    """It knows how many keys it had answered when it last began to wait for more."""

    answered_all = 0

    def receive(self, size):
        self.answered_all = self.keys
        return super().receive(size)

    def has_answered(self, keys):
        return self.answered_all >= keys


class Counts(Case):
    def setUp(self):
        super().setUp()
        self.put_tapes("first.lda")

    def load(self, console, words="", **named):
        return super().load(self.console_at(console, **named), f"first.lda{words}")

    def test_one_character(self):
        """Wherever it stands; the report is that of one mishap, as if it were lost."""
        def trial(row):
            place, comes, end, status = row
            given = self.load(Changing(place, comes))
            self.is_so((row, given.status, given.out.split("\n")[1], given.err), (row, status, f"end {end}", came_changed(1)))

        with ThreadPoolExecutor(4) as pool:
            list(pool.map(trial, CHANGED))

    def test_each_counts(self):
        """Each costs a mishap, and a `Z` and a digit more."""
        for count in (1, 2, 11):
            given = self.load(ChangingOften(count), " --patience 11")
            self.ends(given, 0, f"sent {30 + 2 * count} spent {count} verified 1 of 1\nend Started\n", came_changed(count))

    def test_behind_all_else(self):
        """Behind what the machine prints, a load that gave up, and a line that failed with why; a terminal has it last, too."""
        given = self.load(Changing(FIRST_ADDRESS, "1", says=[(0, "HELLO\r\n")]), " --listen 1")
        self.ends(given, 0, "sent 32 spent 1 verified 1 of 1\nend Started\nHELLO\r\n", came_changed(1))
        self.ends(self.load(ChangingOften(3), " --patience 2"), 5, "sent 6 spent 2 verified 0 of 1\nend GaveUp\n", came_changed(3))
        given = self.load(ChangingOften(2), close_after=30)
        self.is_so((given.status, given.out.split("\n")[1], given.err), (4, "end LineFailed", line_failed("closed") + came_changed(2)))
        given, shown = self.at_a_terminal(lambda it: super(Counts, self).load(self.console_at(ChangingOften(2)), "first.lda", stderr=it))
        self.is_so((given.out, shown.endswith("\x1b[K" + came_changed(2).replace("\n", "\r\n")), shown.count("ldaodt:")),
                   ("sent 34 spent 2 verified 1 of 1\nend Started\n", True, 1))

    def test_its_field_in_a_log(self):
        """It is the last one; where nothing was changed there is none (test_log.py)."""
        for count in (1, 3):
            given = self.load(ChangingOften(count), " --log")
            line, log = given.err.splitlines(True)
            self.is_so((line, log[21:]), (came_changed(count), log[21:-1].split(" status ")[0] + f" status 0 end Started sent {30 + 2 * count} spent {count} "
                                          f"verified 1 of 1 changed {count}\n"))

    def test_looks(self):
        """The first digit of the word's address comes as another one; a look that is not careful ends otherwise for it."""
        rows = (("verify first.lda LINE", 5, "end Changed"), ("verify first.lda LINE --careful", 0, "end Same"), ("save a.lda LINE 1000 1000", 0, "end Saved"),
                ("save b.lda LINE 1000 1000 --once", 5, "end Changed"))
        for words, status, end in rows:
            for count in (0, 1, 3):
                with self.subTest(words, count=count):
                    line = self.console_at(ChangingOften(count, memory={0o1000: 0o11064}))
                    given = self.ldaodt(self.words_at(line, words.replace(".lda", f"{count}.lda") if "save" in words else words))
                    wanted = (status, end) if count else (0, end.replace("Changed", "Same" if "verify" in words else "Saved"))
                    self.is_so((given.status, given.out.split("\n")[1], given.err), (*wanted, came_changed(count)))

    def test_what_a_terminal_is_told(self):
        """How to be sure, and what of it must not be gone on with."""
        careful, once, part = "the same line with --careful decides", "again without --once", "remove the .part file, and again without --once"
        for words, told in (("verify first.lda LINE", careful), ("save a.lda LINE 1000 1000 --once", once), ("save b.lda LINE 1000 1774 --once", once),
                            ("save c.lda LINE 1000 2000 --once", part)):
            with self.subTest(words):
                line = self.console_at(ChangingOften(1, memory={0o1000: 0o11064}))
                given, shown = self.at_a_terminal(lambda it: self.ldaodt(self.words_at(line, words), stderr=it))
                last = f"\x1b[K{told}\n{came_changed(1)}".replace("\n", "\r\n")
                self.is_so((given.status, given.out.split("\n")[1], shown[-len(last):]), (5, "end Changed", last))
                self.is_so(os.path.exists(self.path("c.lda.part")), told == part)

    def test_probes(self):
        """In the report, too: in the line before its end, and only where there is one to tell."""
        def trial(row):
            attempts, count = row
            line = self.console_at(ChangingAttempts(attempts, words=258))
            given = self.ldaodt(["probe", line.address, "--address", "0", "--quiet", str(self.quiet), "--log"])
            line.settle()
            return row, given, sum(it < line.machine.attempt for it in attempts)

        with ThreadPoolExecutor(4) as pool:
            for (attempts, count), given, changed in pool.map(trial, PROBES):
                with self.subTest(attempts):
                    told = [f"changed characters {count}"] if count else []
                    lines = given.out.splitlines()
                    self.is_so((given.status, changed, lines[4], lines[7:]), (0, len(attempts), "memory 000000 to 001002", [*told, "end Probed"]))
                    err, field = given.err.splitlines(True)[:-1], given.err.split(" status ")[1]
                    self.is_so(("".join(err), field), (came_changed(count), "0 end Probed" + f" changed {count}" * bool(count) + "\n"))

    def test_probes_that_come_to_nothing(self):
        """The count stands before the end of one that gave up."""
        line = self.console_at(ChangingOften(3))
        given = self.ldaodt(["probe", line.address, "--quiet", str(self.quiet), "--patience", "2"])
        self.is_so((given.status, given.out.splitlines()[-2:], given.err), (5, ["changed characters 3", "end GaveUp"], came_changed(3)))

    def test_where_it_cannot_be_came_changed(self):
        with open("/dev/full", "w", encoding="utf-8") as full:
            given = super().load(self.console_at(ChangingOften(1)), "first.lda", stderr=full)
        self.is_so((given.status, given.out), (0, "sent 32 spent 1 verified 1 of 1\nend Started\n"))

    def at_once(self, line, words):
        """Runs the program at a port that is silent as soon as its machine has answered all: no silence has to be waited for, and no answer
        is late, however busy this computer is. Where no process can be traced, silences are."""
        if not traced.is_possible():
            return self.ldaodt(words)
        keys = 0

        def before(call):
            nonlocal keys
            if call.name == "sendto":
                keys += 1
            elif call.name == "recvfrom" and call.file().startswith("socket:"):
                self.until(lambda: line.has_answered(keys))
                call.waits_for_nothing()
        return traced.run(words, before, seconds=300, cwd=self.room)

    def test_losses_are_none(self):
        """A hundred loads, saves, looks and probes over lines that lose: three of a hundred characters, each way."""
        def trial(seed):
            chance = random.Random(seed)
            console = Console(style=chance.randrange(8), memory={0o1000: chance.choice((0, 0o11064))})
            words = chance.choice(("load first.lda LINE", "load first.lda LINE --careful", f"save {seed}.lda LINE 1000 1006", "verify first.lda LINE", "probe LINE"))
            line = self.until_the_end(KnownPeer(console, loss=0.03, seed=seed))
            given = self.at_once(line, self.words_at(line, f"{words} --patience 100", LONG_QUIET if traced.is_possible() else None))
            self.is_so((seed, given.err, "changed" in given.out.lower()), (seed, "", False))
            return int(re.search(r" spent (\d+) |$", given.out)[1] or 0)

        with ThreadPoolExecutor(4) as pool:
            self.assertGreater(sum(pool.map(trial, range(100))), 50)


if __name__ == "__main__":
    unittest.main()
