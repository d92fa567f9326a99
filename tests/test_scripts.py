"""Scripts of losses: which texts are scripts, at which line others are refused, what a setup line sets up, and stories.

What is refused and what each line means stands in docs/SCRIPTS.md. Most stories of losses stand in examples/losses.
"""
import unittest

from cases import Case

# Texts, the line at which they are refused where they are, and why they stand here.
TEXTS = (
    ("", None, "no line at all"),
    ("\n\n", None, "empty lines"),
    ("# anything  at all\n", None, "a comment"),
    ("clean", None, "the last line without a line feed"),
    ("clean\r\n", None, "a carriage return before the line feed"),
    ("clean\r", 1, "a carriage return with no line feed"),
    ("\r", 1, "a carriage return alone"),
    ("\r\n", None, "an empty line that ends with both"),
    ("clean\r\r\n", 1, "two carriage returns"),
    ("tak", 1, "no form"),
    ("Take", 1, "a capital letter"),
    (" take", 1, "a space before the keyword"),
    ("take ", 1, "a space and no count"),
    ("take 0", 1, "a count below 1"),
    ("take 1", None, "the smallest count"),
    ("take 1000000", None, "the largest count"),
    ("take 1000001", 1, "a count above it"),
    ("take  1", 1, "two spaces"),
    ("take 1 ", 1, "a space after the count"),
    ("take 0000000001", None, "ten digits, with leading zeros"),
    ("take 00000000001", 1, "eleven digits"),
    ("take +1", 1, "a sign"),
    ("take 1x", 1, "a letter in a number"),
    ("hear 1000000", None, "hear with a count"),
    ("hear\thear", 1, "a tab"),
    ("down 0", None, "the first key"),
    ("down 255", None, "the last place that can be named"),
    ("down 256", 1, "a place above it"),
    ("down", 1, "no place"),
    ("up 255", None, "an answer character"),
    ("up 256", 1, "a place above the last"),
    ("quiet", None, "a timeout"),
    ("quiet 1", 1, "a count where none may stand"),
    ("restart 0", None, "a life that forgets every word"),
    ("restart 4294967295", None, "the most words that can be kept"),
    ("restart 4294967296", 1, "one above it"),
    ("restart", 1, "a restart without its number"),
    ("to 0", 1, "a count of sent characters below 1"),
    ("to 4294967295", None, "the largest count of sent characters"),
    ("to 4294967296", 1, "one above it"),
    ("clean 1", 1, "a count where none may stand"),
    ("words 0", None, "no memory"),
    ("words 28672", None, "the largest memory"),
    ("words 28673", 1, "a memory above it"),
    ("style 7", None, "the last style"),
    ("style 8", 1, "no style"),
    ("patience 4294967295", None, "the largest patience"),
    ("patience 4294967296", 1, "one above it"),
    ("wait", 1, "no character"),
    ("wait 4a", None, "a small letter"),
    ("wait 4A 7f", None, "letters in either case"),
    ("wait 4", 1, "one hexadecimal digit"),
    ("wait 4A7F", 1, "no space between characters"),
    ("wait  4A", 1, "two spaces"),
    ("wait 4A ", 1, "a space at the end"),
    ("wait 4G", 1, "no hexadecimal digit"),
    ("put 001000 177777", None, "the largest word"),
    ("put 001000 200000", 1, "a number above sixteen bits"),
    ("put 1000 177777", 1, "an address of four digits"),
    ("put 001000 17777", 1, "a word of five digits"),
    ("put 001000  17777", 1, "two spaces"),
    ("put 001008 000000", 1, "no octal digit"),
    ("put 001000 000000 ", 1, "a space at the end"),
    ("words 1\nwords 1", 2, "a setup line again"),
    ("style 1\n\nstyle 1", 3, "again, and an empty line counts"),
    ("patience 1\npatience 1", 2, "again"),
    ("wait 41\nwait 41", 2, "again"),
    ("put 000000 000000\nput 000000 000000", None, "puts may come again"),
    ("take\nstyle 1", 2, "a setup line after an event line"),
    ("put 001001 000000\ntak", 2, "all forms are looked at first"),
)

# Texts of which each line has its form, and that are refused when the machine is made, or that are not.
UNPUT = (
    ("put 001001 000000\n", 1, "an odd address"),
    ("words 0\nput 000000 000000\n", 2, "past a memory of no words"),
    ("put 000000 000000\nwords 0\n", 1, "the size may stand after the put"),
    ("put 000776 000001\nput 001000 000001\nwords 256\n", 2, "the first put past memory"),
    ("put 001001 000000\ntak\n", 2, "a form before a put"),
    ("take\nwords 1\n", 2, "a setup line after an event line"),
    ("put 157776 000001\n", None, "the last word of the memory that there is where no line says how large it is"),
    ("put 160000 000001\n", 1, "the word behind it"),
)

UNTOUCHED = "end none\nodt Prompt\n001000 000000 differs\n"
STARTED = "end Started\nodt Running 001000\n001000 011064 stands\n"

# Stories of the smallest tape, their scripts, and what is printed.
STORIES = (
    (
        "no verified word is remembered, and the mark is",
        "to 30\ndown 0\nquiet\nrestart 0\nclean\n",
        "sent 0 lost 0 spent 0 verified 0 of 1\nend MaybeStarted\nodt Number 001000 6\n001000 011064 stands\n",
    ),
    (
        "a lavish console answers the first key with six characters",
        "style 7\n\nto 1\ntake\nhear 6\nhear\nup 0\n",
        "line 6: not possible\nline 7: not possible\nsent 2 lost 0 spent 0 verified 0 of 1\n" + UNTOUCHED,
    ),
    (
        "a console of which no line says anything is plain, and answers it with four",
        "to 1\ntake\nhear 4\nhear\n",
        "line 4: not possible\nsent 2 lost 0 spent 0 verified 0 of 1\n" + UNTOUCHED,
    ),
    (
        "no event happens",
        "# nothing\r\n",
        "sent 0 lost 0 spent 0 verified 0 of 1\n" + UNTOUCHED,
    ),
    (
        "nothing waits where no line says so",
        "hear\n",
        "line 1: not possible\nsent 0 lost 0 spent 0 verified 0 of 1\n" + UNTOUCHED,
    ),
    # The first quiet has `Z` typed. Each time it is lost and nothing comes, that is a mishap, and it is typed again.
    (
        "eight mishaps are survived where no line says how many",
        "quiet\n" + "down 0\nquiet\n" * 8 + "clean\n",
        "sent 38 lost 8 spent 8 verified 1 of 1\n" + STARTED,
    ),
    (
        "and the ninth is not",
        "quiet\n" + "down 0\nquiet\n" * 9 + "clean\n",
        "sent 9 lost 9 spent 8 verified 0 of 1\nend GaveUp\nodt Prompt\n001000 000000 differs\n",
    ),
)


class Scripts(Case):
    def setUp(self):
        super().setUp()
        self.put_tapes("first.lda")

    def rehearsed(self, script):
        self.put("script", script.encode())
        return self.ldaodt("rehearse first.lda script")

    def is_judged(self, script, line):
        """Asserts that a script is refused at a line, or where that is none, that it is one."""
        given = self.rehearsed(script)
        if line is None:
            self.assertEqual((given.status, given.err), (0, ""))
            self.assertIn("\nodt ", given.out)
        else:
            self.ends(given, 3, "", f"ldaodt: script refused at line {line}\n")

    def test_texts_are_scripts_or_are_refused_at_a_line(self):
        for text, line, reason in TEXTS + UNPUT:
            with self.subTest(text, reason=reason):
                self.is_judged(text, line)

    def test_at_most_32_characters_wait(self):
        self.is_judged("wait" + 32 * " 41", None)
        self.is_judged("wait" + 33 * " 41", 1)

    def test_the_longest_script(self):
        self.is_judged("\n" * 1048576, None)
        self.is_judged("\n" * 1048577, 0)

    def test_stories(self):
        for story, script, report in STORIES:
            with self.subTest(story):
                self.ends(self.rehearsed(script), 0, report)

    def test_characters_that_wait_are_written_in_letters_of_either_case(self):
        script = "wait 78 3F 0D 0A 40 30 30 31\nhear\nhear 4\nhear 3\nhear\nclean\n"
        report = "line 5: not possible\nsent 30 lost 0 spent 0 verified 1 of 1\n" + STARTED
        for text in (script, script.replace("3F 0D 0A", "3f 0d 0a")):
            self.ends(self.rehearsed(text), 0, report)


if __name__ == "__main__":
    unittest.main()
