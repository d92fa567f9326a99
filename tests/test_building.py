"""`tools/prove-below`: which libraries of a crate it builds, when, with how many processors, and what stays of one that fails. The `rt` of these
tests proves nothing: it notes how it was called, and what lay around it."""
import json
import os
import shutil
import signal
import subprocess
import time
import unittest

from cases import Case
from outside import TOP

# What a crate's library is built by: notes when, and what was there; fails where the crate's text asks for it. Those that are to meet wait
# for one another, and give up after a while.
FAKE = """#!/usr/bin/env python3
import json, os, sys, time
here = os.getcwd()
name = os.path.basename(here)
root = os.path.dirname(os.path.dirname(here))
began = time.monotonic()
crates = sorted(os.listdir(f"{root}/crates"))
seen = {
    "crate": name, "words": sys.argv[1:], "nice": os.nice(0), "crates": crates, "list": open(f"{root}/crates.txt").read(),
    "built": [it for it in crates if os.path.isfile(f"{root}/crates/{it}/out/rlib/{it}.rlib/format")],
    "kept": sorted(os.listdir("out")) if os.path.isdir("out") else [],
}
text = open("src/lib.rt").read()
meeting = os.environ.get("MEETING", "").split()
if name in meeting:
    open(f"{os.environ['NOTES']}.{name}", "w").close()
    while time.monotonic() < began + 20 and not all(os.path.exists(f"{os.environ['NOTES']}.{it}") for it in meeting):
        time.sleep(0.05)
time.sleep(1.5 if "slow" in text else 0.2)
os.makedirs(f"out/incremental", exist_ok=True)
if "wrong" in text:
    print(f"fn {name}::wrong: not proved")
    sys.exit(1)
os.makedirs(f"out/rlib/{name}.rlib", exist_ok=True)
open(f"out/rlib/{name}.rlib/format", "w").write(name)
print(f"functions of {name}\\nlogic=proved functions=1")
with open(os.environ["NOTES"], "a") as notes:
    notes.write(json.dumps({**seen, "began": began, "ended": time.monotonic()}) + "\\n")
"""

# As much code as is divided among several processors.
CODE = "fn right() {}\n" * 400

LIST = """# low first
low: arrayvec
left: low
right: low itoa
apart:
top: left right
"""


class Building(Case):
    def setUp(self):
        super().setUp()
        self.top = f"{self.room}/repository"
        os.makedirs(f"{self.top}/tools")
        for name in ("prove-below", "crates.py"):
            shutil.copy(f"{TOP}/tools/{name}", f"{self.top}/tools/{name}")
        with open(f"{self.top}/crates.txt", "w", encoding="utf-8") as file:
            file.write(LIST)
        for name in ("low", "left", "right", "apart", "top"):
            self.write(name, CODE * (3 if name == "left" else 1))
        os.mkdir(f"{self.room}/bin")
        os.mkdir(f"{self.room}/copies")
        # Before the folder of this test goes away.
        self.addCleanup(self.leaves_no_copy)
        with open(f"{self.room}/bin/rt", "w", encoding="utf-8") as file:
            file.write(FAKE)
        os.chmod(f"{self.room}/bin/rt", 0o755)

    def write(self, name, text):
        os.makedirs(f"{self.top}/crates/{name}/src", exist_ok=True)
        with open(f"{self.top}/crates/{name}/src/lib.rt", "w", encoding="utf-8") as file:
            file.write(text)

    def surroundings(self, meeting):
        """The environment of the tool: with the rt of these tests, and nothing noted yet."""
        notes = f"{self.room}/notes"
        open(notes, "w", encoding="utf-8").close()
        return {**os.environ, "PATH": f"{self.room}/bin:{os.environ['PATH']}", "NOTES": notes, "MEETING": meeting, "TMPDIR": f"{self.room}/copies"}

    def build(self, *words, meeting=""):
        """Runs the tool, and gives how it ended and what each call of rt that built something noted."""
        ran = subprocess.run([f"{self.top}/tools/prove-below", *words], env=self.surroundings(meeting), stdin=subprocess.DEVNULL, capture_output=True, text=True, timeout=60)
        with open(f"{self.room}/notes", encoding="utf-8") as file:
            return ran, {it["crate"]: it for it in map(json.loads, file)}

    def leaves_no_copy(self):
        """Looks until the copies are gone, which the tool doesn't wait for."""
        until = time.monotonic() + 60
        while os.listdir(f"{self.room}/copies") and time.monotonic() < until:
            time.sleep(0.05)
        self.assertEqual(os.listdir(f"{self.room}/copies"), [])

    def is_built(self, name):
        return os.path.isfile(f"{self.top}/crates/{name}/out/rlib/{name}.rlib/format")

    def test_each_library_below_and_nothing_else(self):
        ran, notes = self.build("top", "4")
        self.assertEqual((ran.returncode, ran.stderr), (0, ""))
        self.assertEqual(sorted(notes), ["left", "low", "right"])
        self.assertEqual([self.is_built(it) for it in ("low", "left", "right", "apart", "top")], [True, True, True, False, False])
        self.assertEqual(sorted(ran.stdout.splitlines()), [f"{it} is built: logic=proved functions=1" for it in ("left", "low", "right")])

    def test_a_crate_begins_when_those_below_it_are_built(self):
        _, notes = self.build("top", "4", meeting="left right")
        for name in ("left", "right"):
            self.assertGreaterEqual(notes[name]["began"], notes["low"]["ended"])
            self.assertEqual((notes[name]["crates"], notes[name]["built"]), (sorted([name, "low"]), ["low"]))
        self.assertLess(max(notes["left"]["began"], notes["right"]["began"]), min(notes["left"]["ended"], notes["right"]["ended"]))

    def test_rt_reads_the_lines_of_the_list_that_it_needs(self):
        _, notes = self.build("top", "4")
        self.assertEqual(sorted(notes["right"]["list"].splitlines()), ["low: arrayvec", "right: low itoa"])

    def test_the_shorter_its_chain_the_further_back_a_crate_stands(self):
        self.write("beside", CODE * 2)
        with open(f"{self.top}/crates.txt", "a", encoding="utf-8") as file:
            file.write("beside: low\nover: left right beside\n")
        self.write("over", CODE)
        _, notes = self.build("over", "4")
        self.assertEqual({it: notes[it]["words"][2] for it in notes}, {"low": "4", "left": "4", "beside": "1", "right": "1"})
        self.assertEqual({it: notes[it]["nice"] - os.nice(0) for it in notes}, {"low": 0, "left": 0, "beside": min(5, 19 - os.nice(0)), "right": min(10, 19 - os.nice(0))})

    def test_what_a_crate_has_to_read_counts_as_well(self):
        with open(f"{self.top}/crates.txt", "w", encoding="utf-8") as file:
            file.write("low:\nheavy:\nleft: low\nright: heavy\ntop: left right\n")
        for name in ("low", "heavy", "left", "right"):
            self.write(name, CODE)
        os.makedirs(f"{self.top}/crates/heavy/proofs")
        with open(f"{self.top}/crates/heavy/proofs/Lib.antt", "w", encoding="utf-8") as file:
            file.write("-" * 50 * len(CODE))
        _, notes = self.build("top", "4")
        self.assertEqual({it: notes[it]["nice"] - os.nice(0) for it in ("low", "heavy")}, {"low": min(5, 19 - os.nice(0)), "heavy": 0})

    def test_a_small_crate_has_one_processor(self):
        self.write("low", "fn right() {}\n")
        _, notes = self.build("top", "4")
        self.assertEqual({it: notes[it]["words"][2] for it in notes}, {"low": "1", "left": "4", "right": "1"})

    def test_where_all_processors_are_busy_each_crate_has_one(self):
        with open(f"{self.top}/crates.txt", "a", encoding="utf-8") as file:
            file.write("beside: low\nover: left right beside\n")
        for name in ("beside", "over"):
            self.write(name, CODE)
        _, notes = self.build("over", "2")
        shares = {it: notes[it]["words"][2] for it in notes}
        self.assertEqual((shares["low"], shares["left"]), ("2", "1"))
        # Whichever of the two begins last has nothing behind it that waits.
        self.assertEqual(sorted((shares["beside"], shares["right"])), ["1", "2"])

    def test_there_are_no_more_at_once_than_that(self):
        _, notes = self.build("top", "1")
        self.assertEqual([notes[it]["words"] for it in notes], [["lib", "--jobs", "1"]] * 3)
        for number in range(6):
            self.write(f"more{number}", CODE)
        with open(f"{self.top}/crates.txt", "a", encoding="utf-8") as file:
            file.write("".join(f"more{number}: low\n" for number in range(6)) + "over: left more0 more1 more2 more3 more4 more5\n")
        self.write("over", CODE)
        _, notes = self.build("over", "2")
        at_once = [sum(other["began"] <= it["began"] < other["ended"] for other in notes.values()) for it in notes.values()]
        self.assertEqual(len(notes), 8)
        self.assertLessEqual(max(at_once), 2)

    def test_what_was_kept_is_there_again(self):
        self.build("top", "2")
        _, notes = self.build("top", "2")
        self.assertEqual({it: notes[it]["kept"] for it in notes}, dict.fromkeys(("low", "left", "right"), ["incremental", "rlib"]))

    def test_one_that_is_not_proved(self):
        with open(f"{self.top}/crates.txt", "a", encoding="utf-8") as file:
            file.write("over: top\n")
        self.write("over", CODE)
        self.write("left", "fn wrong() {}\n" * 9)
        ran, notes = self.build("over", "1")
        self.assertEqual((ran.returncode, sorted(notes)), (1, ["low", "right"]))
        self.assertIn("== left\nfn left::wrong: not proved\n", ran.stdout)
        self.assertEqual(os.listdir(f"{self.top}/crates/left/out"), ["incremental"])
        self.assertEqual([self.is_built(it) for it in ("low", "left", "right", "top")], [True, False, True, False])

    def test_one_that_is_not_proved_beside_another(self):
        """Which ends later, and well: nothing is begun behind it, and it is not all built."""
        with open(f"{self.top}/crates.txt", "a", encoding="utf-8") as file:
            file.write("over: top\n")
        self.write("over", CODE)
        self.write("left", "fn wrong() {}\n" * 9)
        self.write("right", "fn slow() {}\n" * 9)
        ran, notes = self.build("over", "2")
        self.assertEqual((ran.returncode, sorted(notes)), (1, ["low", "right"]))

    def test_an_interrupt_loses_nothing_that_was_kept(self):
        os.makedirs(f"{self.top}/crates/low/out/incremental/earlier")
        # Without it a shell's background job hands on that it ignores interrupts.
        heed = lambda: signal.signal(signal.SIGINT, signal.SIG_DFL)
        how = {"env": self.surroundings("low nobody"), "stdin": subprocess.DEVNULL, "stdout": subprocess.PIPE, "stderr": subprocess.PIPE, "text": True}
        ran = subprocess.Popen([f"{self.top}/tools/prove-below", "top", "2"], start_new_session=True, preexec_fn=heed, **how)
        until = time.monotonic() + 20
        while not os.path.exists(f"{self.room}/notes.low") and time.monotonic() < until:
            time.sleep(0.05)
        os.killpg(ran.pid, signal.SIGINT)
        _, said = ran.communicate(timeout=60)
        self.assertEqual(ran.returncode, 130)
        self.assertNotIn("prove-below", said)
        self.assertEqual(os.listdir(f"{self.top}/crates/low/out/incremental"), ["earlier"])

    def test_words_that_name_no_crate(self):
        for words in ([], ["none"], ["top", "many"]):
            ran, notes = self.build(*words)
            self.assertEqual((ran.returncode, ran.stdout, notes), (2, "", {}))
            self.assertEqual(ran.stderr, "prove-below: which crates of crates.txt, and how many processors?\n")

    def test_it_waits_for_another_command_of_rt(self):
        other = subprocess.Popen(["flock", f"{self.top}/crates/low", "sleep", "1"])
        time.sleep(0.3)
        began = time.monotonic()
        _, notes = self.build("top", "2")
        other.wait()
        self.assertGreater(notes["low"]["began"] - began, 0.4)


if __name__ == "__main__":
    unittest.main()
