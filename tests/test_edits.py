"""`tools/edits`: how many edits it tries in one check, what it takes for refused, and when edits.txt is no longer true. The prover of these tests
refuses each function whose body has a 9, at its own line, and the callers of `helper`, which has no contract; a 7 is no program. What it
remarks of a proof that it takes is no refusal."""
import os
import shutil
import subprocess
import unittest

from cases import TOP, Case

PROVER = r"""#!/usr/bin/env python3
import re, sys
text = open("src/lib.rt", encoding="utf-8").read()
print("check", *sorted(set(re.findall(r"[79]", text))), file=open(NOTES, "a", encoding="utf-8"))
if "7" in text:
    print("src/lib.rt:1:1: error[syntax]: no program")
    sys.exit(1)
found, lines = [], text.split("\n")
for it in ("first", "caller"):
    print(f"./proofs/{it}/Answers.antt:1:1: note: large solution")
for at, line in enumerate(lines):
    if "9" in line:
        head = max(it for it in range(at) if "fn " in lines[it])
        head = next(it for it, line in enumerate(lines) if "fn caller" in line) if "fn helper" in lines[head] else head
        found += [f"note: src/lib.rt:{head + 1}:1: it is not proved"]
print(*found, "logic=not-proved" if found else "logic=proved", sep="\n")
sys.exit(1 if found else 0)
"""

SOURCE = """/// A comment.
pub fn first(value: u16) -> u16
    ensures { result \u2261 value }
{
    value + 1
}

fn helper(value: u16) -> u16 {
    value + 2
}

pub fn caller(value: u16) -> u16
    ensures { result \u2261 value }
{
    helper(value) + 3
}
"""


class Edits(Case):
    def setUp(self):
        super().setUp()
        self.top = f"{self.room}/repository"
        os.makedirs(f"{self.top}/tools")
        for name in ("edits", "crates.py"):
            shutil.copy(f"{TOP}/tools/{name}", f"{self.top}/tools/{name}")
        self.put("crates.txt", "low:\nhigh: low\n")
        self.put("crates/low/src/lib.rt", "")
        self.put("crates/low/specs/Low.antt", "abbrev pub low : \u2115\nlow = 1\n")
        self.put("crates/high/src/lib.rt", SOURCE)
        self.edit("must-fail/one", "value + 1", "value + 9")
        self.edit("more-edits/two", "helper(value) + 3", "helper(value) + 9")
        for it in ("low", "high"):
            os.makedirs(f"{self.top}/crates/{it}/out/rlib/{it}.rlib")
        # The toolchain of these tests: `rt` is on the path, and the prover is beside it.
        self.put("kit/bin/rt", "#!/bin/sh\nexit 1\n")
        self.put("kit/bin/rattle", PROVER.replace("NOTES", repr(f"{self.room}/notes")))
        for it in ("kit/bin/rt", "kit/bin/rattle", "tools/edits"):
            os.chmod(f"{self.top}/{it}", 0o755)

    def put(self, path, text):
        os.makedirs(os.path.dirname(f"{self.top}/{path}"), exist_ok=True)
        with open(f"{self.top}/{path}", "w", encoding="utf-8") as file:
            file.write(text)

    def edit(self, name, old, new):
        self.put(f"crates/high/{name}.edit", f"file: src/lib.rt\nold: {old}\nnew: {new}\n")

    def run_tool(self, *words):
        """The status, the lines, and what each check of the prover read."""
        open(f"{self.room}/notes", "w", encoding="utf-8").close()
        path = f"{self.top}/kit/bin:{os.environ['PATH']}"
        ran = subprocess.run([f"{self.top}/tools/edits", *words], env={**os.environ, "PATH": path}, stdin=subprocess.DEVNULL, capture_output=True, text=True, timeout=60)
        with open(f"{self.room}/notes", encoding="utf-8") as file:
            return ran.returncode, ran.stdout.splitlines(), file.read().splitlines()

    def test_two_functions_are_tried_at_once(self):
        """One check of the crate as it stands, one with both; then edits.txt says so."""
        self.assertEqual(self.run_tool("--look")[0], 1)
        status, lines, checks = self.run_tool()
        self.assertEqual((status, checks), (0, ["check", "check 9"]))
        self.assertEqual(lines[:2], ["high/more-edits/two: refused: note: src/lib.rt:12:1: it is not proved", "high/must-fail/one: refused: note: src/lib.rt:2:1: it is not proved"])
        self.assertEqual(lines[2], "high: 2 edits in 1 checks, 0 not refused")
        self.assertEqual(self.run_tool("--look"), (0, [], []))
        self.assertEqual(self.run_tool(), (0, [], []))

    def test_what_has_no_contract_is_tried_alone(self):
        """Its callers are refused in its place, so that in a round it would speak for them."""
        self.edit("more-edits/three", "value + 2", "value + 9")
        status, lines, checks = self.run_tool("--jobs", "1")
        self.assertEqual((status, checks), (0, ["check", "check 9", "check 9"]))
        self.assertIn("high/more-edits/three: refused: note: src/lib.rt:12:1: it is not proved", lines)

    def test_one_that_is_not_refused(self):
        """In a round with another that is; it is tried once more alone, and nothing is noted."""
        self.edit("more-edits/two", "helper(value) + 3", "helper(value) + 4")
        status, lines, checks = self.run_tool()
        self.assertEqual((status, checks), (1, ["check", "check 9", "check"]))
        self.assertIn("high/more-edits/two: NOT REFUSED: the crate is still proved with it", lines)
        self.assertEqual(self.run_tool("--look")[0], 1)

    def test_one_that_is_no_program_or_stands_nowhere(self):
        """It hides the others of its round, so each is tried alone."""
        for new, said in (("value + 7", "BAD EDIT: src/lib.rt:1:1: error[syntax]: no program"), (None, "BAD EDIT: must-fail/one: this stands 0 times in src/lib.rt: nothing")):
            self.edit("must-fail/one", "value + 1" if new else "nothing", new or "value + 9")
            status, lines, _ = self.run_tool()
            self.assertEqual((status, lines[0].split(": ")[1]), (1, "refused"))
            self.assertEqual(lines[1], f"high/must-fail/one: {said}")

    def test_a_crate_that_is_not_proved(self):
        self.put("crates/high/src/lib.rt", SOURCE.replace("+ 3", "+ 39"))
        status, lines, checks = self.run_tool()
        self.assertEqual((status, lines[0], checks), (1, "high is not proved as it stands:", ["check 9"]))

    def test_when_edits_have_to_be_tried_again(self):
        """A body, an attribute, a comment, or which folder an edit is in, says nothing of what they are refused by."""
        self.assertEqual(self.run_tool()[0], 0)
        first = SOURCE.replace("value + 1", "1 + value").replace("/// A comment.", "#[tactic(auto)]\n/// Another.")
        self.put("crates/high/src/lib.rt", first)
        os.makedirs(f"{self.top}/crates/high/more-edits", exist_ok=True)
        os.rename(f"{self.top}/crates/high/must-fail/one.edit", f"{self.top}/crates/high/more-edits/one.edit")
        self.put("crates/low/specs/Low.antt", "-- the least\nabbrev pub low : \u2115\nlow = 1\n")
        self.assertEqual(self.run_tool("--look"), (0, [], []))
        changes = {"a contract": ("crates/high/src/lib.rt", first.replace("result \u2261 value", "\u22a4", 1), first),
                   "a definition below": ("crates/low/specs/Low.antt", "abbrev pub low : \u2115\nlow = 2\n", "abbrev pub low : \u2115\nlow = 1\n"),
                   "an edit": ("crates/high/more-edits/one.edit", "file: src/lib.rt\nold: 1 + value\nnew: 9\n", "file: src/lib.rt\nold: value + 1\nnew: value + 9\n")}
        for what, (path, new, old) in changes.items():
            with self.subTest(what):
                self.put(path, new)
                status, lines, _ = self.run_tool("--look")
                self.assertEqual((status, len(lines)), (1, 1))
                self.assertIn("make edits CRATES=high", lines[0])
                self.put(path, old)
                self.assertEqual(self.run_tool("--look")[0], 0)

    def test_one_crate_anew(self):
        """Also where edits.txt is true of all."""
        self.assertEqual(self.run_tool()[0], 0)
        status, lines, checks = self.run_tool("--one")
        self.assertEqual((status, lines[-1], len(checks)), (0, "high: 2 edits in 1 checks, 0 not refused", 2))

    def test_crates_that_have_no_edits(self):
        self.assertEqual(self.run_tool("low")[::2], (2, []))


if __name__ == "__main__":
    unittest.main()
