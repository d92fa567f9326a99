"""A machine that lost its power in the middle of a load: what `--recheck` makes of it, and that a load without it finds
out. And a line that fails behind `G`.

A word that has to be deposited is 22 keys and 40 characters of answers, one that stands 8 and 17, `Z` one and four, and the
start seven keys.
"""
import os
import unittest

from cases import Case, Console
from outside import NO_OUTPUT, line_failed

# The tape's words, a whole one and a byte, and its records.
MEMORY = {0o1000: 0o031421, 0o1002: 0o104}
ONE_WORD = "LDAODT 2\n001000 031421"
BOTH_WORDS = "LDAODT 2\n001000 031421\nH 001002 000377 000104\n"
WHOLE = BOTH_WORDS + "G\n"
# `Z` and its answer, the first word, and a key of the second.
BEHIND_ONE_WORD = 1 + 4 + 22 + 40

FAILED = line_failed("closed")
STALE = "ldaodt: memory does not hold what the record says: load with --recheck\n"
LOOK_FIRST = "ldaodt: the start may have gone out: look at the machine first\n"
GOING_ON = "going on behind 1 of 2 words, listening; power lost? use --recheck"


class Loads(Case):
    """A load of two words."""

    usual = "two-words.lda --record a.record"

    def setUp(self):
        super().setUp()
        self.put_tapes("two-words.lda", "no-word.lda", "first.lda")


class PowerLoss(Loads):
    """A load that is broken off in the second word, and one that comes after it."""

    def is_whole_and_started(self, peer):
        """Asserts what the machine's end of the line shows: memory has the tape, and the program was started once."""
        machine = peer.machine
        self.is_so(({it: machine.word(it) for it in MEMORY}, machine.starts), (MEMORY, [0o1000]))
        self.holds({"a.record": WHOLE})

    def broken_off(self):
        """A machine whose load was broken off behind the first word."""
        peer = self.console_at(Console(), close_after=BEHIND_ONE_WORD)
        self.ends(self.load(peer), 4, "sent 24 spent 0 verified 1 of 2\nend LineFailed\n", FAILED)
        self.holds({"a.record": ONE_WORD})
        peer.close_after = None
        return peer

    def test_power_lost_and_each_word_looked_at_again(self):
        peer = self.broken_off()
        peer.machine = Console()
        self.ends(self.load(peer, "two-words.lda --record a.record --recheck"), 0, "sent 52 spent 0 verified 2 of 2\nend Started\n")
        self.is_whole_and_started(peer)

    def test_power_lost_and_found_out(self):
        """The first word is looked at first, and the program is not started over a memory without it."""
        peer = self.broken_off()
        peer.machine = Console()
        self.ends(self.load(peer), 5, "sent 9 spent 0 verified 0 of 2\nend Stale 001000\n", STALE)
        self.is_so((peer.machine.word(0o1000), peer.machine.starts), (0, []))
        self.holds({"a.record": ONE_WORD})

    def test_power_kept(self):
        """A word that stands costs eight keys, also one of the record, which is looked at behind a `Z` of its own."""
        peer = self.broken_off()
        machine = peer.machine
        kept = list(machine.words)
        self.ends(self.load(peer, "two-words.lda --record a.record --recheck"), 0, "sent 38 spent 0 verified 2 of 2\nend Started\n")
        self.is_whole_and_started(peer)
        self.put("a.record", ONE_WORD.encode())
        peer.machine = Console()
        peer.machine.words = kept
        self.ends(self.load(peer), 0, "sent 39 spent 0 verified 2 of 2\nend Started\n")
        self.is_whole_and_started(peer)

    def test_what_a_word_costs(self):
        """Counted at the line: 25 characters for a word that stands, 62 for one that does not, both in their keys and
        answers; `Z` has five, and the start 14."""
        for memory, characters in (({}, 5 + 2 * 62 + 14), (MEMORY, 5 + 2 * 25 + 14), ({0o1000: 0o031421}, 5 + 25 + 62 + 14)):
            self.put("a.record", BOTH_WORDS.encode())
            peer = self.console_at(Console(memory=memory))
            self.is_so(self.load(peer, "two-words.lda --record a.record --recheck").status, 0)
            self.is_so(peer.keys + peer.answered, characters)
            self.is_whole_and_started(peer)

    def test_the_record_says_what_this_life_has_seen(self):
        """It begins with no word, whatever it had before: here the line breaks before the first key, and behind a word."""
        for characters, keys, words, record in ((0, 0, 0, "LDAODT 2\n"), (BEHIND_ONE_WORD, 24, 1, ONE_WORD)):
            self.put("a.record", BOTH_WORDS.encode())
            peer = self.console_at(Console(), close_after=characters)
            given = self.load(peer, "two-words.lda --record a.record --recheck")
            # Of a line that is closed at once the system may take a key or not.
            self.is_so((given.status, given.err), (4, FAILED))
            if characters:
                self.is_so(given.out, f"sent {keys} spent 0 verified {words} of 2\nend LineFailed\n")
            self.holds({"a.record": record})

    def test_the_mark_counts(self):
        peer = self.console_at(Console())
        self.put("a.record", WHOLE.encode())
        given = self.load(peer, "two-words.lda --record a.record --recheck")
        self.ends(given, 6, "sent 0 spent 0 verified 2 of 2\nend MaybeStarted\n")
        self.holds({"a.record": WHOLE})
        self.is_so((peer.machine.typed, peer.connections), ("", 0))

    def test_a_tape_that_starts_nothing(self):
        """Its record has every word: believed, nothing is looked at; else each word is."""
        self.put("a.record", BOTH_WORDS.encode())
        peer = self.console_at(Console())
        words = "two-words.lda no-word.lda --record a.record"
        self.ends(self.load(peer, words), 0, "sent 0 spent 0 verified 2 of 2\nend Loaded\n")
        self.is_so(peer.connections, 0)
        self.ends(self.load(peer, words + " --recheck"), 0, "sent 45 spent 0 verified 2 of 2\nend Loaded\n")
        self.is_so(({it: peer.machine.word(it) for it in MEMORY}, peer.machine.starts), (MEMORY, []))
        self.holds({"a.record": BOTH_WORDS})

    def test_a_record_that_is_refused_stays_so(self):
        peer = self.console_at(Console())
        for text, why in (("hello\n", "refused: NotARecord"), ("LDAODT 2\n001000 031422\n", "refused at line 2")):
            self.put("a.record", text.encode())
            self.ends(self.load(peer, "two-words.lda --record a.record --recheck"), 3, "", f"ldaodt: record {why}\n")
            self.holds({"a.record": text})
        self.is_so(peer.connections, 0)

    def test_no_record_yet(self):
        peer = self.console_at(Console())
        self.ends(self.load(peer, "two-words.lda --record a.record --recheck"), 0, "sent 52 spent 0 verified 2 of 2\nend Started\n")
        self.is_whole_and_started(peer)

    def test_a_terminal_is_told_that_words_are_believed(self):
        """Before the first key and behind the report, and only where some are."""
        for record, option, is_told in ((ONE_WORD, "", True), (ONE_WORD, " --recheck", False), ("", "", False)):
            self.put("a.record", record.encode())
            peer = self.console_at(Console(memory={0o1000: 0o031421}))
            words = "two-words.lda --record a.record" + option
            given, shown = self.at_a_terminal(lambda terminal: self.load(peer, words, stderr=terminal))
            self.is_so(given.status, 0)
            self.is_so(GOING_ON in shown, is_told)
            self.is_so(shown.split("\r\x1b[K")[-1], "1 of 2 by the record\r\n" if is_told else "")


class BehindTheStart(Loads):
    """A line that fails. Where the start may have gone out standard error says so."""

    def test_the_echo_of_the_start_is_cut_off(self):
        """All but the echo passes: 1 + 4 for `Z`, 62 for each word, 13 for the start; the machine takes `G` or does not."""
        for takes_last in (True, False):
            for option, files in ((" --record a.record", {"a.record": WHOLE}), ("", {})):
                peer = self.console_at(Console(), close_after=5 + 2 * 62 + 13, takes_last=takes_last)
                given = self.load(peer, "two-words.lda" + option)
                self.is_so((given.status, given.out), (4, "sent 52 spent 0 verified 2 of 2\nend LineFailed\n"))
                self.is_so(given.err, FAILED + LOOK_FIRST)
                self.is_so(peer.machine.starts, [0o1000] if takes_last else [])
                self.holds(files)
                if files:
                    peer.close_after, typed = None, peer.machine.typed
                    self.ends(self.load(peer), 6, "sent 0 spent 0 verified 2 of 2\nend MaybeStarted\n")
                    self.is_so((peer.machine.typed, peer.connections), (typed, 1))
                    os.remove(self.path("a.record"))

    def test_a_line_that_fails_before(self):
        """Behind `Z`, in the first word, in the second word: the start did not go out, and the line says no more."""
        for characters in (5, 30, BEHIND_ONE_WORD, 100):
            peer = self.console_at(Console(), close_after=characters)
            given = self.load(peer)
            self.is_so((given.status, given.err), (4, FAILED))
            self.is_so(peer.machine.starts, [])
            os.remove(self.path("a.record"))

    def test_a_tape_without_a_start(self):
        """Every word is verified, and the answer to the last key is cut off: there is no start that could have gone out."""
        peer = self.console_at(Console(), close_after=5 + 2 * 62 - 3)
        given = self.load(peer, "two-words.lda no-word.lda --record a.record")
        self.ends(given, 4, "sent 45 spent 0 verified 2 of 2\nend LineFailed\n", FAILED)
        self.holds({"a.record": BOTH_WORDS})

    def test_a_report_that_can_not_be_written_is_told_alone(self):
        peer = self.console_at(Console(), close_after=5 + 2 * 62 + 13, takes_last=True)
        self.ends(self.load(peer, before="> /dev/full"), 4, "", NO_OUTPUT)
        self.holds({"a.record": WHOLE})


if __name__ == "__main__":
    unittest.main()
