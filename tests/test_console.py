"""The simulated console of `ldaodt type`: the key table by hand, its limits and styles, and every short
text of keys against a second console, `tools/odt_peer.py`."""
import itertools
import unittest

from cases import Case
from odt_peer import Machine

# A machine of four words: 000010 is the first address past them.
SMALL = ["type", "--words", "4"]

# What 000002 holds before each line of the table, and the keys that put it there.
FILLED = "2/123456\r"
FILL_SHOWN = "2/000000 123456\r\n@"

# The keys that bring the console into a state, the key typed in it, what is printed of that key, and what
# 000002 holds after a return. A running machine answers nothing more, so nothing is looked at there.
TABLE = (
    ("", "5", "5", "123456", "a digit at the prompt begins a number"),
    ("", "\r", "\r\n@", "123456", "a return at the prompt"),
    ("", "/", "?\r\n@", "123456", "an address is wanted before a slash"),
    ("", "G", "?\r\n@", "123456", "and before a start"),
    ("", "8", "?\r\n@", "123456", "8 is no octal digit"),
    ("1", "2", "2", "123456", "a further digit"),
    ("2", "/", "/123456 ", "123456", "a slash opens the word and prints it"),
    ("000002", "/", "/123456 ", "123456", "six digits are the same address"),
    ("3", "/", "/?\r\n@", "123456", "no word lies at an odd address"),
    ("6", "/", "/000000 ", "123456", "the last word"),
    ("10", "/", "/?\r\n@", "123456", "no word lies at the top"),
    ("1000", "G", "G", None, "a start, past the memory too"),
    ("1001", "G", "G?\r\n@", "123456", "no program starts at an odd address"),
    ("2", "\r", "\r\n@", "123456", "a return forgets the number"),
    ("2", "Z", "?\r\n@", "123456", "an illegal key forgets the number"),
    ("2/", "1", "1", "000001", "a digit begins the open word's new value"),
    ("2/", "\r", "\r\n@", "123456", "with nothing typed a return stores nothing"),
    ("2/", "G", "?\r\n@", "123456", "an illegal key closes an open word"),
    ("2/", "/", "?\r\n@", "123456", "so does a slash"),
    ("2/1", "7", "7", "000017", "a further digit of the new value"),
    ("2/17", "\r", "\r\n@", "000017", "a return stores what was typed"),
    ("2/17", "/", "?\r\n@", "123456", "an illegal key stores nothing"),
    ("2/17", "G", "?\r\n@", "123456", "nor does a start"),
    ("2/17777", "7", "7", "177777", "a value of six digits"),
    ("2/177777", "7", "7", "177777", "a value keeps sixteen bits"),
    ("2/123456", "7", "7", "034567", "a seventh digit pushes the first out"),
    ("2/1234567", "0", "0", "145670", "and an eighth the second"),
    ("200000", "/", "/000000 ", "123456", "so does one of an address: this one is 000000"),
    ("1000000002", "/", "/123456 ", "123456", "ten digits"),
)

# A style's number, and what it prints for `Z` and for `0/` in a machine of zeroes.
STYLES = (
    (0, "?\r\n@", "0/000000 "),
    (1, "?\r\n@", "0/ 000000 "),
    (2, "?\r\r\n@", "0/000000 "),
    (3, "?\r\r\n@", "0/ 000000 "),
    (4, "Z?\r\n@", "0/000000 "),
    (5, "Z?\r\n@", "0/ 000000 "),
    (6, "Z?\r\r\n@", "0/000000 "),
    (7, "Z?\r\r\n@", "0/ 000000 "),
)

# Keys of each kind that the console tells apart, and how many of them a text has at most.
KINDS = "027/\rGZ"
LONGEST = 5


def answers(machine, keys):
    return "".join(machine.take(key) for key in keys)


class Typed(Case):
    """What `type` prints for the keys on its input. A return is typed as LF there."""

    def prints(self, words, keys, printed):
        self.is_so(self.ldaodt(words, keys.replace("\r", "\n").encode()).out, printed)

    def test_each_line_of_the_key_table(self):
        for before, key, printed, word, reason in TABLE:
            with self.subTest(reason):
                first = self.ldaodt(SMALL, (FILLED + before).replace("\r", "\n").encode()).out
                self.assertTrue(first.startswith(FILL_SHOWN), first)
                after = "" if word is None else "\r2/"
                again = self.ldaodt(SMALL, (FILLED + before + key + after).replace("\r", "\n").encode()).out
                self.is_so(again[: len(first) + len(printed)], first + printed)
                if word is None:
                    self.is_so(again, first + printed)
                else:
                    self.assertTrue(again.endswith(f"2/{word} "), again)

    def test_a_running_machine_answers_nothing(self):
        self.prints(SMALL, "1000G0/\rZG", "1000G")

    def test_eight_styles(self):
        for number, illegal, opened in STYLES:
            self.prints(["type", "--style", str(number), "--words", "1"], "Z0/", illegal + opened)

    def test_the_largest_machine(self):
        top = "157776/1\r157776/\r157777/160000/"
        shown = "157776/000000 1\r\n@157776/000001 \r\n@157777/?\r\n@160000/?\r\n@"
        self.prints(["type"], top, shown)
        self.prints(["type", "--words", "28672"], top, shown)
        self.prints(["type", "--words", "28671"], "157774/\r157776/", "157774/000000 \r\n@157776/?\r\n@")

    def test_a_machine_of_no_words(self):
        self.prints(["type", "--words", "0"], "0/", "0/?\r\n@")

    def test_a_second_console_answers_the_same_to_every_short_text_of_keys(self):
        """One after another in one machine, each closed by a return, so that each begins where others
        have stored; those that would start a program are typed without their `G`."""
        texts = ["".join(keys) for count in range(LONGEST + 1) for keys in itertools.product(KINDS, repeat=count)]
        for style in range(8):
            machine, keys = Machine(4, style), []
            for text in texts:
                trial = Machine(4, style)
                answers(trial, text)
                keys.append((text.replace("G", "") if trial.starts else text) + "\r")
            whole = "".join(keys)
            with self.subTest(style):
                self.prints([*SMALL, "--style", str(style)], whole, answers(machine, whole))

    def test_a_second_console_runs_where_this_one_runs(self):
        for style in range(8):
            for text in ("0G", "2/7\r2G1\r", "1G0G0/", "20G?", "177776GZ", "Z2/G2G2", "00000000G\r"):
                self.prints([*SMALL, "--style", str(style)], text, answers(Machine(4, style), text))


if __name__ == "__main__":
    unittest.main()
