"""Records of loads, cut and changed at each byte and written by hand, against a second reader of records.

The reader is written from docs/RECORD.md: it makes the texts that may come next and looks which of them is there. A
load whose record it refuses is refused, connects to nobody, and leaves the record as it was; so does a load of a
record with the mark, which is over. Any other load connects, and here the line breaks at once: so its report says how many words
it found, and nothing was typed. Where there are some, it was about to look at them, and the record is as it was; else it
was written anew. Behind looks it is written anew with the words that were found.
"""
import os
import unittest

from cases import Case, Console, changes, each_file
from outside import Answer, bytes_of, line_failed, tape_of

# Three words with both bytes, the low byte of a word, the high byte of another, and two words more.
PIECES = ((0o1000, b"\x34\x12\x56\x9a\x00\x00"), (0o1006, b"\x41"), (0o1011, b"\xc1"), (0o1020, b"\x00\xff\xff\x00"))
# Eighteen words: a run that is as long as a run may be, and two words more.
ROW = ((0o2000, bytes(range(1, 37))),)
# A word, and the low byte of one.
WORD_AND_BYTE = ((0o1000, b"\x11\x33\x44"),)
OTHERS = b"\n 0127G\xff"

LONGEST_RUN = 16
NO_RECORD = "NotARecord"
HEADERS = (b"LDAODT 1\n", b"LDAODT 2\n")


def words_of(pieces):
    """The words of some pieces of memory, which don't overlap: address, mask and value, in their order."""
    held = {address + place: byte for address, data in pieces for place, byte in enumerate(data)}
    words = []
    for address in sorted({address & ~1 for address in held}):
        mask = (0o377 if address in held else 0) | (0o177400 if address + 1 in held else 0)
        words.append((address, mask, held.get(address, 0) | held.get(address + 1, 0) << 8))
    return words


def run_of(words, count):
    """The line of a run of the next words, without its end; none where they make no run."""
    run = words[:count]
    if len(run) < count or any(it[:2] != (run[0][0] + 2 * place, 0o177777) for place, it in enumerate(run)):
        return None
    return f"{run[0][0]:06o}" + "".join(f" {value:06o}" for _, _, value in run)


def lines_of(words, version):
    """Each line that may stand next in a record where these words are due, and how many of them it has."""
    if version == 1:
        return {"%06o %06o %06o" % words[0]: 1} if words else {}
    lines = {run_of(words, count): count for count in range(1, LONGEST_RUN + 1)}
    if words and words[0][1] != 0o177777:
        lines["H %06o %06o %06o" % words[0]] = 1
    lines.pop(None, None)
    return lines


def read(record, words, has_start):
    """What is refused of a record: no record at all, or a line by its number; or how many words it says are verified,
    and whether it has the mark."""
    *lines, torn = record.decode("latin-1").split("\n")
    if len(record) > 1 << 20:
        return NO_RECORD
    if not lines:
        return (0, False) if any(header.startswith(record) for header in HEADERS) else NO_RECORD
    if lines[0] not in ("LDAODT 1", "LDAODT 2"):
        return NO_RECORD
    version, done, is_marked = int(lines[0][-1]), 0, False
    for number, line in enumerate(lines[1:], 2):
        count = 0 if is_marked else lines_of(words[done:], version).get(line, 0)
        is_due = has_start and done == len(words) and not is_marked
        if not count and not (line == "G" and is_due):
            return number
        done, is_marked = done + count, is_marked or not count
    if version == 2:
        done += max((count for text, count in lines_of(words[done:], 2).items() if text[0] != "H" and torn.startswith(text)), default=0)
    return done, is_marked


def written(words):
    """The record of version 2 with these words; the line of a run at its end is open."""
    record, rest = "LDAODT 2\n", list(words)
    while rest:
        line, count = max(lines_of(rest, 2).items(), key=lambda it: it[1])
        rest = rest[count:]
        record += line + ("\n" if rest or line[0] == "H" else "")
    return record


def whole_record(words, version, mark="G\n"):
    """A whole record, each line with its end."""
    if version == 1:
        return "LDAODT 1\n" + "".join("%06o %06o %06o\n" % it for it in words) + mark
    return written(words).rstrip("\n") + "\n" + mark


class Records(Case):
    """Loads of which each finds a record, and a line that breaks before anything was typed."""

    def loaded(self, pieces, start, records):
        """Loads the tape of these pieces with each of the records, and asserts what comes of each. Returns how many
        were refused, were over, and went on to the line."""
        words, has_start = words_of(pieces), start % 2 == 0
        self.put("tape.lda", tape_of(pieces, start))
        peer = self.console_at(Console(), close_after=0)
        names = [f"{number}.record" for number in range(len(records))]
        for name, record in zip(names, records):
            self.put(name, record)
        answers = each_file(self.room, ["load", self.path("tape.lda"), peer.address, "--quiet", "60000", "--record"], names)
        counts = [0, 0, 0]
        for name, record, given in zip(names, records, answers):
            with self.subTest(record[:200]):
                wanted, left, kind = self.wanted(read(record, words, has_start), words, has_start, record)
                self.is_so(given, wanted)
                with open(self.path(name), "rb") as file:
                    self.is_so(file.read(), left)
                counts[kind] += 1
        peer.settle()
        self.is_so((peer.connections, peer.machine.typed), (counts[2], ""))
        self.is_so([name for name in os.listdir(self.room) if name.endswith("ldaodt-new")], [])
        return counts

    def wanted(self, said, words, has_start, record):
        """The answer of a load, the record that it leaves, and whether that was refused, over, or went on."""
        if said == NO_RECORD:
            return Answer(3, "", f"ldaodt: record refused: {said}\n"), record, 0
        if isinstance(said, int):
            return Answer(3, "", f"ldaodt: record refused at line {said}\n"), record, 0
        count, is_marked = said
        report = f"sent 0 spent 0 verified {count} of {len(words)}\n"
        if is_marked:
            return Answer(6, f"{report}end MaybeStarted\n", ""), record, 1
        if count == len(words) and not has_start:
            return Answer(0, f"{report}end Loaded\n", ""), record, 1
        left = record if count else written([]).encode()
        return Answer(4, f"{report}end LineFailed\n", line_failed("closed")), left, 2

    def test_it_is_written_anew_behind_the_looks(self):
        """Of any number of words, in each version; the line breaks right behind the looks, of 25 characters for each word."""
        for pieces, start in ((PIECES, 0o1000), (ROW, 0o2000)):
            words = words_of(pieces)
            self.put("tape.lda", tape_of(pieces, start))
            for version in (1, 2):
                for count in range(1, len(words) + 1):
                    record = whole_record(words[:count], version, "")
                    self.is_so(read(record.encode(), words, True), (count, False))
                    self.put("a.record", record.encode())
                    memory = {address: value for address, _, value in words[:count]}
                    peer = self.console_at(Console(memory=memory), close_after=5 + 25 * min(8, count))
                    given = self.ldaodt(f"load tape.lda {peer.address} --quiet {self.quiet} --record a.record")
                    peer.settle()
                    self.is_so((given.status, given.out.split("\n")[1]), (4, "end LineFailed"))
                    self.is_so(bytes_of(self.path("a.record")), written(words[:count]).encode())

    def test_each_byte_is_changed(self):
        for version in (1, 2):
            record = whole_record(words_of(PIECES), version).encode()
            refused, over, went_on = self.loaded(PIECES, 0o1000, changes(record, OTHERS))
            self.assertGreater(refused, 4 * len(record))
            self.is_so(over, 1)
            self.assertGreater(went_on, len(record))

    def test_each_byte_is_changed_of_a_record_with_an_open_run(self):
        words = words_of(ROW)
        for count in (LONGEST_RUN, len(words)):
            self.loaded(ROW, 0o2000, changes(written(words[:count]).encode(), b"\n3"))

    def test_a_record_is_cut_at_each_byte(self):
        """By hand: how many words count of the first bytes, the fewest first; the whole record has the mark too."""
        record = b"LDAODT 2\n001000 031421\nH 001002 000377 000104\nG\n"
        done = [0] * 22 + [1] * 24 + [2] * 2
        cut = [record[:length] for length in range(len(record))]
        self.is_so([read(it, words_of(WORD_AND_BYTE), True) for it in cut], [(count, False) for count in done])
        self.is_so(self.loaded(WORD_AND_BYTE, 0o1000, [*cut, record]), [0, 1, 48])

    def test_a_seventeenth_word_begins_another_run(self):
        """The words stand in memory already: one `Z`, and for each word its address, `/` and a return."""
        record = "LDAODT 2\n001000" + 16 * " 000000" + "\n001040 000000"
        self.is_so(len(record), 141)
        self.put("tape.lda", tape_of([(0o1000, bytes(34))]))
        peer = self.console_at(Console())
        load = f"load tape.lda {peer.address} --quiet {self.quiet} --record a.record"
        self.ends(self.ldaodt(load), 0, "sent 137 spent 0 verified 17 of 17\nend Loaded\n")
        self.is_so(bytes_of(self.path("a.record")), record.encode())
        self.ends(self.ldaodt(load), 0, "sent 0 spent 0 verified 17 of 17\nend Loaded\n")

    def test_records_of_a_tape_that_starts_nothing(self):
        """The mark is due in none."""
        words = words_of(PIECES)
        records = [whole_record(words, version, mark).encode() for version in (1, 2) for mark in ("", "G\n", "G")]
        self.is_so(self.loaded(PIECES, 1, records), [2, 4, 0])

    def test_runs_may_be_shorter_and_not_longer(self):
        words = words_of(ROW)
        line = lambda first, count: f"{words[first][0]:06o}" + "".join(f" {value:06o}" for _, _, value in words[first:first + count]) + "\n"
        wholes = ((16, 2), (15, 3), (1,) * 18, (2, 16), (9, 9))
        too_long = ((17, 1), (1, 17), (18,))
        records = []
        for counts in wholes + too_long:
            firsts = [sum(counts[:place]) for place in range(len(counts))]
            records.append(("LDAODT 2\n" + "".join(line(*it) for it in zip(firsts, counts)) + "G\n").encode())
        self.is_so(self.loaded(ROW, 0o2000, records), [len(too_long), len(wholes), 0])

    def test_a_run_has_neighbours_with_both_bytes_alone(self):
        """In PIECES the fourth word has one byte, the fifth too, and the sixth does not stand behind the fifth."""
        words = [it[2] for it in words_of(PIECES)]
        head = "LDAODT 2\n001000 %06o %06o %06o" % tuple(words[:3])
        halves = "\nH 001006 000377 %06o\nH 001010 177400 %06o\n" % tuple(words[3:5])
        records = (
            head + " %06o\n" % words[3],
            head + "\n001006 %06o\n" % words[3],
            head + halves.replace("H", "001006 000377 000101\nH", 1),
            head + halves.replace("000377", "177777"),
            head + halves + "001012 %06o\n" % words[5],
            head + halves + "H 001020 177777 %06o\n" % words[5],
            head.replace("001000", "H 001000") + "\n",
        )
        self.is_so(self.loaded(PIECES, 0o1000, [it.encode() for it in records]), [len(records), 0, 0])
        # Behind the last line end the same is no fault: the words are counted up to there.
        torn = (head + " %06o" % words[3], head + "\n001006 %06o" % words[3], head + "7", head + "\nG", head + halves[:-1])
        self.is_so(self.loaded(PIECES, 0o1000, [it.encode() for it in torn]), [0, 0, len(torn)])

    def test_marks(self):
        """The mark is due behind all words, and once."""
        for version in (1, 2):
            whole = whole_record(words_of(PIECES), version)
            lines = whole.splitlines(True)
            records = [whole + "G\n", whole + "\n", whole + lines[1], "".join(lines[:-2]) + "G\n", lines[0] + "G\n", whole.replace("G", "g"), whole.replace("G", "G ")]
            self.is_so(self.loaded(PIECES, 0o1000, [it.encode() for it in records]), [len(records), 0, 0])
            self.is_so(self.loaded(PIECES, 0o1000, [(whole + torn).encode() for torn in ("", "G", "x", "001000 011064")]), [0, 4, 0])

    def test_headers(self):
        words = words_of(PIECES)
        refused = ("LDAODT 0\n", "LDAODT 3\n", "LDAODT 2 \n", "ldaodt 2\n", "LDAODT2\n", "LDAODT 2\r\n", "\n", "\nLDAODT 2\n", "LDAODT 22\n",
                   "hello", "G", "\xff\0", "LDAODT 3", "LDAODT 22", "LDAODT 2 ", "LDAODT 2\r", "ldaodt")
        empty = ("", "L", "LDAODT", "LDAODT ", "LDAODT 1", "LDAODT 2", "LDAODT 1\n", "LDAODT 2\n")
        self.is_so(self.loaded(PIECES, 0o1000, [it.encode("latin-1") for it in refused]), [len(refused), 0, 0])
        self.is_so(self.loaded(PIECES, 0o1000, [it.encode("latin-1") for it in empty]), [0, 0, len(empty)])
        # The lines of one version are none of the other.
        swapped = [whole_record(words, version).replace(f"T {version}", f"T {3 - version}").encode() for version in (1, 2)]
        self.is_so(self.loaded(PIECES, 0o1000, swapped), [2, 0, 0])


if __name__ == "__main__":
    unittest.main()
