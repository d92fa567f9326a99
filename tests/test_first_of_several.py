"""Of several files that are missing, can't be read or are refused, which is named.

All files that the words name are opened in the order of the words, before any is read; then the tapes are read in
their order, and last a script. The first fault of this row is the one that is told.
"""
import errno
import itertools
import os
import unittest

from cases import Case
from commands import OF_TAPES
from outside import Answer, fault

GOOD, OTHER, BAD = "first.lda", "no-word.lda", "bad-sum.lda"
BAD_SUM = "refused at 9: BadSum"

# Words that name files, and what is told of them. `folder` opens, and then can't be read; m1 to m3 are not there.
TAPES = [
    ("m1", "cannot read m1"),
    ("folder", "cannot read folder"),
    ("m1 m2", "cannot read m1"),
    ("m2 m1", "cannot read m2"),
    ("m1 m2 m3", "cannot read m1"),
    (f"{GOOD} m2 m3", "cannot read m2"),
    (f"m3 {GOOD} m1", "cannot read m3"),
    (f"{GOOD} {OTHER} m3", "cannot read m3"),
    (f"{BAD} m2", "cannot read m2"),
    (f"{BAD} {GOOD} m1", "cannot read m1"),
    ("folder m2", "cannot read m2"),
    ("m1 folder", "cannot read m1"),
    (f"folder {BAD}", "cannot read folder"),
    (f"{BAD} folder", f"tape 1 {BAD_SUM}"),
    (f"{GOOD} folder {BAD}", "cannot read folder"),
    (f"{GOOD} {BAD} folder", f"tape 2 {BAD_SUM}"),
    (f"{BAD} {BAD}", f"tape 1 {BAD_SUM}"),
    (f"{GOOD} {OTHER} {BAD}", f"tape 3 {BAD_SUM}"),
]

# TAPE SCRIPT MORE: opened in this order; the script is read last.
REHEARSALS = [
    ("m1 m2", "cannot read m1"),
    (f"{BAD} m2", "cannot read m2"),
    (f"{BAD} bad.script", f"tape {BAD_SUM}"),
    (f"{GOOD} bad.script", "script refused at line 1"),
    (f"{GOOD} folder", "cannot read folder"),
    ("m1 m2 m3", "cannot read m1"),
    (f"{GOOD} m2 m3", "cannot read m2"),
    (f"{GOOD} good.script m3", "cannot read m3"),
    (f"{BAD} m2 m3", "cannot read m2"),
    (f"{BAD} bad.script m3", "cannot read m3"),
    (f"{GOOD} bad.script {BAD}", f"tape 2 {BAD_SUM}"),
    (f"{GOOD} folder {BAD}", f"tape 2 {BAD_SUM}"),
    ("folder bad.script ./folder", "cannot read folder"),
    (f"{GOOD} folder ./folder", "cannot read ./folder"),
    (f"{GOOD} bad.script {OTHER}", "script refused at line 1"),
    (f"{GOOD} folder {OTHER}", "cannot read folder"),
]


class Several(Case):
    def setUp(self):
        super().setUp()
        self.put_tapes(GOOD, OTHER, BAD)
        self.put("good.script", b"words 300\n")
        self.put("bad.script", b"what is this\n")
        os.mkdir(self.path("folder"))

    def told(self, words, told):
        given = self.ldaodt(words)
        is_refused = "refused" in told
        why = None if is_refused else errno.EISDIR if told.endswith("folder") else errno.ENOENT
        self.is_so((words, given), (words, Answer(3 if is_refused else 4, "", fault(told, why))))


class Files(Several):
    """Files."""

    def test_tapes(self):
        """Nothing is dialled where a line is named: nobody listens there, or it is no address, and that is not told. A script that
        is there, and says nothing, is read behind them all."""
        for command, line in itertools.product(OF_TAPES, ("127.0.0.1:1", ":")):
            for names, told in TAPES:
                self.told(command.line(*names.split(), line=line, script="good.script"), told)
        for names, told in TAPES:
            first, *more = names.split()
            self.told(f"load --record a.record {first} 127.0.0.1:1 {' '.join(more)}", told)
        self.assertFalse(os.path.exists(self.path("a.record")))

    def test_rehearsals(self):
        for words, told in REHEARSALS:
            self.told(f"rehearse {words}", told)


if __name__ == "__main__":
    unittest.main()
