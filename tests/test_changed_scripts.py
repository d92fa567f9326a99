"""Scripts of losses that were cut or changed at each byte, against a second reader of scripts.

The reader is written from docs/SCRIPTS.md: a line is one of some whole forms, and nothing else. A script that it
refuses is refused at that line. Of one that it takes, the report has its shape, the lines that were not possible are
lines of events that may be so, and scripts that say the same are reported alike.
"""
import re
import unittest

from cases import Case, changes, each_file
from outside import Answer

# A script with a line of each form, and one in which characters of an earlier session wait and look like echoes.
SCRIPTS = (
    b"# each form\nwords 28672\nstyle 5\npatience 12\nwait 4a 7F\nput 001000 000064\nput 157776 177777\r\n\ntake\n"
    b"hear 2\ndown 255\nup 3\nquiet\nrestart 1\nto 9\r\n# the rest\nclean",
    b"wait 78 3F 0D 0A 40 30 30 31\nhear\ndown 0\nhear 4\ndown 0\nhear\ndown 0\nhear\ndown 0\nhear\nclean\n",
)
OTHERS = b"\n\r\t 01489aFk#-\xff"

# Which numbers may stand behind a keyword.
RANGES = {
    b"words": (0, 28672),
    b"style": (0, 7),
    b"patience": (0, 4294967295),
    b"take": (1, 1000000),
    b"hear": (1, 1000000),
    b"down": (0, 255),
    b"up": (0, 255),
    b"restart": (0, 4294967295),
    b"to": (1, 4294967295),
}
NUMBERED = re.compile(rb"(words|style|patience|take|hear|down|up|restart|to) (\d{1,10})")
WAITING = re.compile(rb"wait((?: [0-9A-Fa-f]{2}){1,32})")
PUT = re.compile(rb"put ([01][0-7]{5}) ([01][0-7]{5})")
ALONE = {b"take": (b"take", 1), b"hear": (b"hear", 1), b"quiet": (b"quiet",), b"clean": (b"clean",)}

SETUP = (b"words", b"style", b"patience", b"wait", b"put")
MAY_BE_IMPOSSIBLE = (b"take", b"hear", b"down", b"up", b"quiet")

REPORT = re.compile(
    r"((?:line \d+: not possible\n)*)"
    r"sent \d+ lost \d+ spent \d+ verified [01] of 1\n"
    r"end (Loaded|Started|Uncertain|MaybeStarted|GaveUp|NoWord 001000|WontHold 001000|none)\n"
    r"odt (?:Prompt|Number [01][0-7]{5} [1-7]|Opened [01][0-7]{5}|Typing [01][0-7]{5} [01][0-7]{5} [1-7]|Running [01][0-7]{5})\n"
    r"001000 (011064 stands|(?!011064)[01][0-7]{5} differs|------ absent)\n"
)


def said(line):
    """What a line says: its keyword and what stands behind it; None where it has no form."""
    if line in ALONE:
        return ALONE[line]
    if found := NUMBERED.fullmatch(line):
        keyword, number = found[1], int(found[2])
        low, high = RANGES[keyword]
        return (keyword, number) if low <= number <= high else None
    if found := WAITING.fullmatch(line):
        return (b"wait", bytes.fromhex(found[1].decode()))
    if found := PUT.fullmatch(line):
        return (b"put", int(found[1], 8), int(found[2], 8))
    return None


def read(script):
    """The line at which a script is refused, None for a script, and what its lines say, by their numbers."""
    *ended, last = script.split(b"\n")
    lines = [line.removesuffix(b"\r") for line in ended] + [last]
    saying = {}
    for number, line in enumerate(lines, 1):
        if not line or line.startswith(b"#"):
            continue
        it = said(line)
        if it is None:
            return number, saying
        keywords = [earlier[0] for earlier in saying.values()]
        if it[0] in SETUP and (any(each not in SETUP for each in keywords) or it[0] != b"put" and it[0] in keywords):
            return number, saying
        saying[number] = it
    words = next((it[1] for it in saying.values() if it[0] == b"words"), 28672)
    for number, it in saying.items():
        if it[0] == b"put" and (it[1] % 2 or it[1] >= 2 * words):
            return number, saying
    return None, saying


class Changed(Case):
    def setUp(self):
        super().setUp()
        self.put_tapes("first.lda")
        # What was reported of scripts, by what they say.
        self.reported = {}

    def is_reported(self, saying, given):
        """Asserts that a report may be one of a script: what it says is that of others that say the same."""
        self.is_so((given.status, given.err), (0, ""))
        shape = REPORT.fullmatch(given.out)
        self.assertIsNotNone(shape, given.out)
        impossible = [int(line.split()[1][:-1]) for line in shape[1].splitlines()]
        self.is_so(impossible, sorted(set(impossible)))
        for number in impossible:
            self.assertIn(saying[number][0], MAY_BE_IMPOSSIBLE)
        if (b"clean",) in saying.values():
            self.assertNotEqual(shape[2], "none")
        places = {number: place for place, number in enumerate(saying)}
        report = ([places[number] for number in impossible], given.out[shape.end(1):])
        self.is_so(report, self.reported.setdefault(tuple(saying.values()), report))

    def test_each_byte_is_changed(self):
        for script in SCRIPTS:
            texts = changes(script, OTHERS)
            names = [f"{number}.script" for number in range(len(texts))]
            for name, text in zip(names, texts):
                self.put(name, text)
            taken = 0
            for text, given in zip(texts, each_file(self.room, ["rehearse", self.path("first.lda")], names)):
                with self.subTest(text):
                    line, saying = read(text)
                    if line is None:
                        taken += 1
                        self.is_reported(saying, given)
                    else:
                        self.is_so(given, Answer(3, "", f"ldaodt: script refused at line {line}\n"))
            # Neither answer is that of all.
            self.assertTrue(len(script) < taken < len(texts) / 2, (taken, len(texts)))


if __name__ == "__main__":
    unittest.main()
