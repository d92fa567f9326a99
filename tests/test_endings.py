"""Each ending of a load and of a look at memory, behind no mishap, nine, ten and a thousand, and each number of mishaps
and each quiet time that may be asked for, at its ends and between.

A mishap is here a `Z` that is not answered: it costs one key and one quiet time, and changes nothing else. So a run has
the keys that docs/MAP.md counts ("The way of a byte"), and one more for each mishap. `MaybeStarted` comes before any
key and has no mishaps (tests/test_loads.py), `TurnsOver` comes behind ten million characters (tests/test_large.py).
"""
import errno
import time
import unittest
from concurrent.futures import ThreadPoolExecutor

from cases import Case, Console, DeafConsole, as_closed
from commands import AT_A_MACHINE, RUNS, FalteringConsole
from outside import Answer, bytes_of, fault, tape_of

# The tape that `save` makes of the word at 001000: it starts nothing.
SAVED = tape_of([(0o1000, b"\x34\x12")])


class Mishaps(Case):
    """Every ending, behind mishaps."""

    def setUp(self):
        super().setUp()
        self.put_tapes("first.lda")

    def runs(self, mishaps, quiet):
        """Runs that have so many mishaps: of each its words, console, break and answer. A load has a record, too."""
        for number, run in enumerate(RUNS):
            words = run.words.replace("new.lda", f"{number}.{mishaps}.{quiet}.lda")
            yield words, run.console, run.breaks, run.answer(mishaps)
            if words.startswith("load "):
                yield f"{words} --record {number}.{mishaps}.{quiet}.record", run.console, run.breaks, run.answer(mishaps)
        # A record with room for its header alone: the key behind the word that was read back is counted, and does not go out.
        name = f"{mishaps}.{quiet}.short.record"
        wanted = Answer(4, f"sent {23 + mishaps} spent {mishaps} verified 1 of 1\nend KeepFailed\n", fault(f"cannot write {name}", errno.EFBIG))
        yield f"load first.lda LINE --record {name}", FalteringConsole, None, wanted

    def ended(self, mishaps, quiet, words, machine, close_after):
        """Does a run with so many mishaps, which is all its patience where they are many; returns its answer."""
        peer = self.console_at(machine(mishaps), close_after=None if close_after is None else close_after + mishaps, takes_last=True)
        given = self.words_at(peer, f"{words} --patience {max(mishaps, 8)}", quiet)
        return self.ldaodt(given, file_size=9 if "short.record" in words else None)

    def test_few(self):
        for mishaps in (0, 9, 10):
            runs = list(self.runs(mishaps, self.quiet))
            with ThreadPoolExecutor(len(runs)) as pool:
                answers = list(pool.map(lambda run: self.ended(mishaps, self.quiet, *run[:3]), runs))
            for (words, *_, wanted), answer in zip(runs, answers):
                with self.subTest(words, mishaps=mishaps):
                    self.is_so(answer, wanted)
            saved = [bytes_of(self.path(f"{number}.{mishaps}.{self.quiet}.lda")) for number in range(len(RUNS))]
            self.is_so(saved, [SAVED if run.end == "Saved" else b"" for run in RUNS])

    def test_a_thousand(self):
        """The quiet time is so short that an answer may well be late on a busy computer, which would be a mishap too
        many: then the run is done again, with more of it."""
        tries = [(quiet, list(self.runs(1000, quiet))) for quiet in (15, 30, 50)]

        def is_wrong(number):
            # Runs that begin together have their mishaps behind them together, and their machines would make one another late.
            time.sleep(number / 20)
            for quiet, runs in tries:
                *run, wanted = runs[number]
                answer = self.ended(1000, quiet, *run)
                if as_closed(answer) == as_closed(wanted):
                    return None
            return wanted, answer
        numbers = range(len(tries[0][1]))
        with ThreadPoolExecutor(len(numbers)) as pool:
            self.is_so([it for it in pool.map(is_wrong, numbers) if it], [])


class Numbers(Case):
    """The numbers that options have."""

    def setUp(self):
        super().setUp()
        self.put_tapes("first.lda")

    def test_a_patience_is_used_up(self):
        """A console that answers nothing gets one key, and one for each mishap: of a probe, whose first look it is, too."""
        values = sorted({0, 1000, *range(13), *(power + by for power in (16, 32, 64, 100, 128, 256, 512) for by in (-1, 0, 1)), 500, 999})
        rows = [(value, command) for value in reversed(values) for command in AT_A_MACHINE]

        def given(row):
            value, command = row
            peer = self.console_at(DeafConsole())
            answer = self.ldaodt([*command.words(line=peer.address, file=f"{value}.lda"), "--quiet", "1", "--patience", str(value)])
            peer.settle()
            return answer, peer.machine.typed

        with ThreadPoolExecutor(16) as pool:
            for (value, command), answer in zip(rows, pool.map(given, rows)):
                with self.subTest(command.name, patience=value):
                    report = f"sent {value + 1} spent {value} {command.counts.format(0)}\nend GaveUp\n" if command.counts else command.unanswered
                    self.is_so(answer, (Answer(5, report, ""), "Z" * (value + 1)))

    def test_every_number_is_taken_and_no_other(self):
        """The record says that the start was marked, so that no console is needed. A number has no more digits than it
        needs, or more; what is no number in its range is refused."""
        marked = b"LDAODT 2\n001000 011064\nG\n"
        powers = sorted({power + by for exponent in range(17) for power in (2 ** exponent,) for by in (-1, 0, 1)})
        for option, first, last in (("--patience", 0, 1000), ("--quiet", 1, 60000), ("--listen", 1, 65535)):
            for value in sorted({first - 1, first, last, last + 1, *powers, 10, 100, 1000, 10000, 2 ** 32, 2 ** 64}):
                with self.subTest(option, value=value):
                    self.put("a.record", marked)
                    given = self.ldaodt(f"load first.lda 127.0.0.1:1 --record a.record {option} {value}")
                    if first <= value <= last:
                        self.ends(given, 6, "sent 0 spent 0 verified 1 of 1\nend MaybeStarted\n")
                    else:
                        self.is_so((given.status, given.out, given.err.startswith("error: ")), (2, "", True))

    def test_a_look_bears_more_mishaps(self):
        """What is read of a machine over a bad line wants a hundred times as many. A tape without words needs no console."""
        self.put_tapes("no-word.lda")
        for value in (0, 1000, 1001, 65535, 65536, 99999, 100000, 100001, 2 ** 32, 2 ** 64):
            with self.subTest(value=value):
                given = self.ldaodt(f"verify no-word.lda 127.0.0.1:1 --patience {value}")
                if value <= 100000:
                    self.ends(given, 0, "sent 0 spent 0 looked 0 of 0 differ 0\nend Same\n")
                else:
                    self.is_so((given.status, given.out, given.err.startswith("error: ")), (2, "", True))

    def test_a_save_goes_on_behind_a_thousand_mishaps(self):
        """A console that answers nothing gets one key for each."""
        peer = self.console_at(DeafConsole())
        given = self.ldaodt(["save", "a.lda", peer.address, "0", "2", "--quiet", "1", "--patience", "1200"])
        self.ends(given, 5, "sent 1201 spent 1200 read 0 of 2\nend GaveUp\n")

    def test_machines_of_every_size_and_style(self):
        """The last word of a machine's memory is there, and the one behind it is not."""
        sizes = sorted({0, 28672, *(power + by for exponent in range(15) for power in (2 ** exponent,) for by in (-1, 0, 1)), 100, 1000, 10000, 20000})
        for words in sizes:
            with self.subTest(words=words):
                keys = "".join(f"{address:o}/\r" for address in (2 * words - 2, 2 * words) if address >= 0).encode()
                shown = "".join(
                    f"{address:o}/000000 \r\n@" if there else f"{address:o}/?\r\n@\r\n@"
                    for address, there in ((2 * words - 2, True), (2 * words, False)) if address >= 0
                )
                self.ends(self.ldaodt(f"type --words {words}", keys), 0, shown)
        for style in range(8):
            peer = self.console_at(Console(style=style))
            self.ends(self.ldaodt(f"load first.lda {peer.address} --quiet {self.quiet}"), 0, "sent 30 spent 0 verified 1 of 1\nend Started\n")


if __name__ == "__main__":
    unittest.main()
