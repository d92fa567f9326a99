"""The tools that try the program from outside, in a small tree of their own: what they leave out is said by name and counted, and
another program can be tried; and those that build it and call these, with an `rt` that proves nothing."""
import os
import re
import shutil
import signal
import subprocess
import time
import unittest

from cases import Case
from outside import TOP, bytes_of

# Tests that are right, that are skipped in one way and another, and one that is right or wrong by what ./ldaodt says.
SMALL = '''
import os, subprocess, unittest

TOP = os.path.dirname(os.path.dirname(os.path.realpath(__file__)))

class Small(unittest.TestCase):
    def test_right(self):
        pass

    def test_skipped(self):
        self.skipTest("there is no moon")

    def test_a_part_of_it(self):
        for it in "one", "other", "third":
            with self.subTest(it):
                if it != "one":
                    self.skipTest(f"there is no {it}")

    @unittest.skip("never")
    def test_never(self):
        pass

    def test_the_program(self):
        self.assertEqual(subprocess.check_output([f"{TOP}/ldaodt"]), b"well\\\\n")
'''.replace("\\\\", "\\")
NAME = "test_small.Small"
NAMES = "test_a_part_of_it test_never test_right test_skipped test_the_program".split()
SKIPPED = [
    f"left out: {NAME}.test_a_part_of_it [other]: there is no other",
    f"left out: {NAME}.test_a_part_of_it [third]: there is no third",
    f"left out: {NAME}.test_never: never",
    f"left out: {NAME}.test_skipped: there is no moon",
]

# What a part of the check says where all is right, or by what ./ldaodt says.
PARTS = {
    "examples/check-losses": "echo '5 stories rehearsed, 0 wrong'",
    "examples/check-refused": "[ \"$(./ldaodt)\" = well ] && echo '3 tapes refused, 0 wrong' || { echo '3 tapes refused, 2 wrong'; exit 1; }",
    "tools/check-transcripts": "echo 'left out: a.md:1: not installed here: it'; echo '7 transcripts run, 1 left out, 0 wrong'",
}


class Tree(Case):
    """A tree with the tools that are tried here, a small file of tests, and a program."""

    def setUp(self):
        super().setUp()
        for folder in ("tools", "tests", "examples", "docs", "crates"):
            os.mkdir(self.path(folder))
        for name in ("README.md", "CHANGELOG.md", "CONTRIBUTING.md", "Makefile", "crates.txt"):
            self.put(name, b"")
        for name in ("check-tests", "check-program"):
            shutil.copy(f"{TOP}/tools/{name}", self.path(f"tools/{name}"))
        self.put("tests/test_small.py", SMALL.encode())
        for name, text in PARTS.items():
            self.put_script(name, text)
        self.put_script("ldaodt", "echo well")

    def put_script(self, name, text):
        self.put(name, f"#!/bin/bash\n{text}\n".encode())
        os.chmod(self.path(name), 0o755)

    def set_line(self, tool, old, new):
        """Puts another line in the place of one in a tool."""
        text = bytes_of(self.path(tool))
        self.assertEqual(text.count(f"\n{old}\n".encode()), 1)
        self.put(tool, text.replace(f"\n{old}\n".encode(), f"\n{new}\n".encode()))

    def runs(self, tool, *words):
        ran = subprocess.run([self.path(f"tools/{tool}"), *words], cwd="/", stdin=subprocess.DEVNULL, capture_output=True, text=True, timeout=120)
        return ran.returncode, ran.stdout.splitlines(), ran.stderr

    def closes(self, lines, front):
        """Asserts how the closing line of the tests begins."""
        self.assertEqual([it.split(";")[0] for it in lines if "Ran " in it and " files" in it], [front])

    def left_out(self, lines):
        return [it.strip() for it in lines if it.strip().startswith("left out: ")]


class Tests(Tree):
    """tools/check-tests."""

    def test_what_is_skipped_is_said_and_counted(self):
        status, lines, _ = self.runs("check-tests")
        self.assertEqual((status, self.left_out(lines)), (0, SKIPPED))
        self.closes(lines, "Ran 5 tests in 1 files, 3 left out, 0 wrong")

    def test_what_fails_is_counted_beside_it(self):
        self.put_script("ldaodt", "echo ill")
        self.put("tests/cases.py", b"PATIENT_QUIET = 1\nclass Case:\n    pass\n")
        status, lines, _ = self.runs("check-tests")
        self.assertEqual((status, self.left_out(lines)), (1, SKIPPED))
        self.closes(lines, "Ran 5 tests in 1 files, 3 left out, 1 wrong")

    def test_a_list_leaves_out_a_test(self):
        self.put("list", f"# why\n{NAME}.test_right: not today: no\n".encode())
        status, lines, _ = self.runs("check-tests", "--leave-out", self.path("list"))
        self.assertEqual((status, self.left_out(lines)), (0, sorted([f"left out: {NAME}.test_right: not today: no", *SKIPPED])))
        self.closes(lines, "Ran 4 tests in 1 files, 4 left out, 0 wrong")

    def test_a_list_leaves_out_a_whole_file(self):
        self.put("tests/test_other.py", SMALL.encode())
        self.put("list", b"test_small: not at all\n")
        status, lines, _ = self.runs("check-tests", "--leave-out", self.path("list"))
        self.assertEqual((status, self.left_out(lines)[-5:], len(self.left_out(lines))), (0, sorted(f"left out: {NAME}.{it}: not at all" for it in NAMES), 9))
        self.closes(lines, "Ran 5 tests in 2 files, 8 left out, 0 wrong")

    def test_a_list_leaves_out_all(self):
        """Then nothing was tried."""
        self.put("list", b"test_small: not at all\n")
        status, lines, _ = self.runs("check-tests", "--leave-out", self.path("list"))
        self.assertEqual(status, 1)
        self.closes(lines, "Ran 0 tests in 1 files, 5 left out, 0 wrong")

    def test_files_that_are_named(self):
        """They alone are tried, also beside a list."""
        self.put("tests/test_other.py", SMALL.replace("class Small", "class Other").encode())
        self.put("list", b"test_other.Other.test_right: not today\n")
        for words, ran in (((), 5), (("--leave-out", self.path("list")), 4)):
            status, lines, _ = self.runs("check-tests", *words, self.path("tests/test_other.py"))
            self.assertEqual((status, [it.split(",")[0] for it in lines if it.startswith("right")]), (0, [f"right  tests/test_other.py: {ran} tests"]))

    def test_a_list_that_names_no_test(self):
        for name in (f"{NAME}.test_rig", "test_smal", "test_small.Big"):
            self.put("list", f"{name}: gone\n".encode())
            status, lines, said = self.runs("check-tests", "--leave-out", self.path("list"))
            self.assertEqual((status, lines, said), (1, [], f"check-tests: {self.path('list')} names no test: {name}\n"))

    def test_a_test_that_was_not_run_is_wrong(self):
        """A skip of its whole class, once that began, says of no test why."""
        self.put("tests/cases.py", b"PATIENT_QUIET = 1\nclass Case:\n    pass\n")
        skips = "    @classmethod\n    def setUpClass(cls):\n        raise unittest.SkipTest()\n\n"
        self.put("tests/test_small.py", SMALL.replace("    def test_right", f"{skips}    def test_right").encode())
        status, lines, _ = self.runs("check-tests")
        self.assertEqual(status, 1)
        self.assertRegex("\n".join(lines), "\nRan 5 tests in 1 files, .* 5 wrong;")

    def test_what_fails_beside_others_is_tried_alone(self):
        """With a long quiet time; and where it is right then it is right."""
        self.put("tests/cases.py", b"PATIENT_QUIET = 1000\nclass Case:\n    quiet = 200\n")
        self.put("tests/test_small.py", b"import cases, unittest\nclass Small(unittest.TestCase):\n    def test_late(self):\n        self.assertEqual(cases.Case.quiet, 1000)\n")
        status, lines, _ = self.runs("check-tests")
        self.assertEqual((status, [it for it in lines if it.startswith("once more")]), (0, [f"once more, alone: {NAME}.test_late, which failed beside others:"]))
        self.closes(lines, "Ran 1 tests in 1 files, 0 left out, 0 wrong")

    def test_a_test_without_end_is_ended(self):
        """And what it waits for is named. Its time is made two seconds here."""
        self.set_line("tools/check-tests", "TIME = 600", "TIME = 2")
        self.put("tests/cases.py", b"PATIENT_QUIET = 1\nclass Case:\n    pass\n")
        self.put_script("ldaodt", "exec sleep 50")
        status, lines, _ = self.runs("check-tests")
        self.assertEqual(status, 1)
        self.assertIn("TimeoutError: no end within 2 seconds", lines)
        self.assertIn("has not ended: sleep 50 ", lines)
        self.closes(lines, "Ran 5 tests in 1 files, 3 left out, 1 wrong")

    def test_a_test_that_waits_again_is_ended_again(self):
        """As one does whose end waits for what it began."""
        self.set_line("tools/check-tests", "TIME = 600", "TIME = 1")
        self.set_line("tools/check-tests", "AGAIN = 5", "AGAIN = 1")
        self.put("tests/cases.py", b"PATIENT_QUIET = 1\nclass Case:\n    pass\n")
        waits = "import subprocess, unittest\nclass Small(unittest.TestCase):\n    def test_it(self):\n"
        self.put("tests/test_small.py", f"{waits}        self.addCleanup(subprocess.run, ['sleep', '30'])\n        subprocess.run(['sleep', '30'])\n".encode())
        began = time.monotonic()
        status, lines, _ = self.runs("check-tests")
        self.assertEqual(status, 1)
        self.closes(lines, "Ran 1 tests in 1 files, 0 left out, 1 wrong")
        self.assertLess(time.monotonic() - began, 30)

    def test_a_file_without_a_test_is_wrong(self):
        self.put("tests/test_small.py", b"")
        status, lines, _ = self.runs("check-tests")
        self.assertEqual(status, 1)
        self.closes(lines, "Ran 0 tests in 1 files, 0 left out, 1 wrong")


class Program(Tree):
    """tools/check-program."""

    # What was left out of all parts, and passed: stories, tapes, transcripts, tests.
    LEFT_OUT, PASSED = ["left out: a.md:1: not installed here: it", *SKIPPED], 5 + 3 + 7 + 5

    def test_all_that_is_right(self):
        status, lines, _ = self.runs("check-program")
        self.assertEqual((status, self.left_out(lines), lines[-1]), (0, self.LEFT_OUT, f"{self.PASSED} passed, 0 failed"))
        self.closes(lines, "right  tools/check-tests: Ran 5 tests in 1 files, 3 left out, 0 wrong")

    def test_another_program(self):
        self.put_script("ldaodt", "echo ill")
        self.put_script("other", "echo well")
        self.put_script("tools/check-transcripts", f"stat -c %a .. > {self.path('mode')}; {PARTS['tools/check-transcripts']}")
        status, lines, _ = self.runs("check-program", "--program", self.path("other"))
        self.assertEqual((status, lines[-1]), (0, f"{self.PASSED} passed, 0 failed"))
        # Where it is tried another user may go, too: a test runs it as one.
        self.assertEqual(bytes_of(self.path("mode")), b"755\n")

    def test_another_program_that_is_wrong(self):
        self.put("tests/cases.py", b"PATIENT_QUIET = 1\nclass Case:\n    pass\n")
        self.put_script("other", "echo ill")
        status, lines, _ = self.runs("check-program", "--program", self.path("other"))
        self.assertEqual((status, lines[-1]), (1, f"{self.PASSED - 3} passed, 3 failed"))

    def test_a_list_of_what_is_left_out(self):
        self.put("list", f"{NAME}.test_right: not today\n".encode())
        # By its name from the top, and by one from where the tool is called.
        for name in (self.path("list"), self.path("list").removeprefix("/")):
            status, lines, _ = self.runs("check-program", "--leave-out", name)
            self.assertEqual((status, lines[-1]), (0, f"{self.PASSED - 1} passed, 0 failed"))
            self.assertIn(f"left out: {NAME}.test_right: not today", self.left_out(lines))

    def test_a_part_that_says_nothing(self):
        self.put_script("examples/check-losses", "exit 0")
        status, lines, _ = self.runs("check-program")
        self.assertEqual((status, lines[-1]), (1, f"{self.PASSED - 5} passed, 1 failed"))
        self.assertIn("WRONG  examples/check-losses: nothing was tried", lines)

    def test_what_was_late_is_said(self):
        """Though all of it is right in the end."""
        self.put("tests/cases.py", b"PATIENT_QUIET = 1000\nclass Case:\n    quiet = 200\n")
        self.put("tests/test_late.py", b"import cases, unittest\nclass Late(unittest.TestCase):\n    def test_it(self):\n        self.assertEqual(cases.Case.quiet, 1000)\n")
        held_up = "held up: a.md:1, for 40 ms; once more"
        self.put_script("tools/check-transcripts", f"echo '{held_up}'; {PARTS['tools/check-transcripts']}")
        status, lines, _ = self.runs("check-program")
        self.assertEqual((status, lines[-1]), (0, f"{self.PASSED + 1} passed, 0 failed"))
        self.assertEqual([it for it in lines if it.startswith(("held up", "once more"))], [held_up, "once more, alone: test_late.Late.test_it, which failed beside others:"])

    def test_an_interrupt(self):
        """It leaves no process of any part behind."""
        self.put_script("examples/check-losses", f"sleep 100 &\necho $! > {self.path('process')}\nwait")
        ran = subprocess.Popen([self.path("tools/check-program")], stdin=subprocess.DEVNULL, stdout=subprocess.DEVNULL, start_new_session=True)
        self.addCleanup(self.let_go, ran)
        until = time.monotonic() + 20
        while not (os.path.exists(self.path("process")) and bytes_of(self.path("process"))) and time.monotonic() < until:
            time.sleep(0.05)
        ran.send_signal(signal.SIGTERM)
        self.assertEqual(ran.wait(60), 130)
        path = f"/proc/{bytes_of(self.path('process')).decode().strip()}/cmdline"
        while b"sleep" in words_of(path) and time.monotonic() < until:
            time.sleep(0.05)
        self.assertEqual(words_of(path), b"")

    def test_no_program_and_no_such_word(self):
        for words, why in (
            (["--program", self.path("none")], f"there is no {self.path('none')} yet: run make first"),
            (["--programme", "other"], "no such word: --programme"),
            (["--program"], "no such word: --program"),
        ):
            self.assertEqual(self.runs("check-program", *words), (2, [], f"check-program: {why}\n"))
        os.remove(self.path("ldaodt"))
        self.assertEqual(self.runs("check-program"), (2, [], "check-program: there is no ./ldaodt yet: run make first\n"))


class Transcripts(Tree):
    """tools/check-transcripts, of a page that is all there is."""

    def setUp(self):
        super().setUp()
        for name in ("check-transcripts", "outside.py"):
            shutil.copy(f"{TOP}/tools/{name}", self.path(f"tools/{name}"))
        self.put_script("ldaodt", "echo well; echo 'ldaodt: ill' >&2; exit 3")

    def verdicts(self, text):
        """What becomes of a page: the status, the places that are wrong, and the last line."""
        self.put("docs/a.md", text.encode())
        status, lines, _ = self.runs("check-transcripts", self.path("docs/a.md"))
        return status, [it.split(": ")[0] for it in lines if it.startswith("WRONG")], lines[-1]

    def test_all_that_is_right(self):
        """Also a command's faults, which stand behind what it prints, and its status, which is asked for."""
        page = "```\n$ ./ldaodt\nwell\nldaodt: ill\n$ echo $?\n3\n$ printf 'a\\r\\n'; cat /dev/null\na\n```\n\n```\nno transcript\n```\n"
        self.assertEqual(self.verdicts(page), (0, [], "1 transcripts run, 0 left out, 0 wrong"))

    def test_all_that_is_wrong(self):
        """Each in a block of its own: other text, a blank at a line's end, a last line without an end, a fault that is not shown, or on the other stream, and a status that
        is not asked for."""
        blocks = ("echo a\nb", "echo 'a '\na", "echo a\na ", "printf a\na", "echo a\na\n", "./ldaodt\nwell\n$ echo $?\n3", "echo 'ldaodt: ill'\nldaodt: ill",
                  "(exit 1)", "(exit 2)", "echo a; (exit 77)\na")
        page = "".join(f"```\n$ {it}\n```\n" for it in blocks)
        places = [f"WRONG  docs/a.md:{page[:page.index(f'$ {it}{chr(10)}```')].count(chr(10)) + 1}" for it in blocks]
        self.assertEqual(self.verdicts(page), (1, places, f"{len(blocks)} transcripts run, 0 left out, {len(blocks)} wrong"))

    def test_what_nobody_would_run(self):
        """A command in no block, in a block of something else, and a block without an end."""
        right = "```\n$ echo a\na\n```\n"
        for more, line in (("$ echo b\n", 5), ("```\nb\n$ echo b\n```\n", 7), ("> $ echo b\n", 5), ("```\nb\n", 7)):
            with self.subTest(more):
                self.assertEqual(self.verdicts(right + more), (1, [f"WRONG  docs/a.md:{line}"], "1 transcripts run, 0 left out, 1 wrong"))

    def test_what_differs_on_a_busy_computer_is_run_once_more(self):
        """With a long quiet time. Here a computer that was not held up at all counts as busy."""
        self.set_line("tools/check-transcripts", "BUSY_SECONDS = 0.03", "BUSY_SECONDS = -1")
        page = "```\n$ echo --quiet 200; echo --quiet 20\n--quiet 3000\n--quiet 20\n```\n"
        self.assertEqual(self.verdicts(page), (0, [], "1 transcripts run, 0 left out, 0 wrong"))
        self.assertEqual(self.verdicts(page.replace("3000", "200")), (0, [], "1 transcripts run, 0 left out, 0 wrong"))
        self.assertEqual(self.verdicts(page.replace("3000", "2000")), (1, ["WRONG  docs/a.md:2"], "1 transcripts run, 0 left out, 1 wrong"))

    def test_what_goes_on_in_the_background_is_ended(self):
        """As a machine that nobody switches off."""
        page = f"```\n$ (echo $BASHPID > {self.path('process')}; exec sleep 100) &\n$ until [ -s {self.path('process')} ]; do sleep 0.01; done\n```\n"
        self.assertEqual(self.verdicts(page)[0], 0)
        path = f"/proc/{bytes_of(self.path('process')).decode().strip()}/cmdline"
        until = time.monotonic() + 20
        while b"sleep" in words_of(path) and time.monotonic() < until:
            time.sleep(0.05)
        self.assertEqual(words_of(path), b"")

    def test_what_does_not_end(self):
        """It is wrong, and ended with all that it began. Its time is made a second here."""
        self.set_line("tools/check-transcripts", "SECONDS = 600", "SECONDS = 1")
        page = f"```\n$ sh -c 'echo $$ > {self.path('process')}; sleep 100; true'\n```\n"
        self.assertEqual(self.verdicts(page), (1, ["WRONG  docs/a.md:2"], "1 transcripts run, 0 left out, 1 wrong"))
        path = f"/proc/{bytes_of(self.path('process')).decode().strip()}/cmdline"
        until = time.monotonic() + 20
        while b"sleep" in words_of(path) and time.monotonic() < until:
            time.sleep(0.05)
        self.assertEqual(words_of(path), b"")

    def test_a_page_without_one(self):
        self.assertEqual(self.verdicts("nothing\n"), (1, [], "0 transcripts run, 0 left out, 0 wrong"))


def words_of(path):
    """What the system has of a process there: nothing of one that has ended."""
    try:
        return bytes_of(path)
    except OSError:
        return b""


class Around(Tree):
    """tools/build and tools/gate."""

    def setUp(self):
        super().setUp()
        for name in ("build", "gate", "lanes"):
            shutil.copy(f"{TOP}/tools/{name}", self.path(f"tools/{name}"))
        for folder in ("bin", "crates/ldaodt", "crates/ldaodt/out"):
            os.mkdir(self.path(folder))
        self.put("examples/first.lda", b"")
        self.put_script("tools/edits", 'echo "edits $*" >> notes; [ "$*" != "$MISSED" ]')
        self.put_script("tools/prove-below", "echo below >> notes")
        self.put_script("tools/check-program", "echo checked >> notes; exit $WRONG")
        self.put_script("crates/ldaodt/out/ldaodt", "echo new")

    def run_with(self, tool, *words, rt="echo '3 passed, 0 failed'", wrong=0, missed=""):
        """Runs a tool with an rt that does this, or without one."""
        path = "/usr/bin:/bin"
        if rt is not None:
            self.put_script("bin/rt", f'echo "rt $*" >> {self.path("notes")}; {rt}')
            path = f"{self.path('bin')}:{path}"
        ran = subprocess.run([self.path(f"tools/{tool}"), *words], cwd="/", env={**os.environ, "PATH": path, "WRONG": str(wrong), "MISSED": missed},
                             stdin=subprocess.DEVNULL, capture_output=True, text=True, timeout=60)
        notes = bytes_of(self.path("notes")).decode().splitlines()
        self.put("notes", b"")
        return ran.returncode, ran.stdout.splitlines(), ran.stderr, notes

    def program(self):
        return bytes_of(self.path("ldaodt")).decode().splitlines()[-1]

    def test_a_gate_that_is_passed(self):
        status, lines, _, notes = self.run_with("gate")
        self.assertEqual((status, lines[-1], notes, self.program()), (0, "3 passed, 0 failed", ["edits --look", "rt ci", "checked", "edits --one"], "echo new"))

    def test_a_gate_that_the_program_or_an_edit_does_not_pass(self):
        for wrong, missed, failed in ((1, "", 1), (0, "--one", 1), (1, "--one", 2)):
            status, lines, _, notes = self.run_with("gate", wrong=wrong, missed=missed)
            self.assertEqual((status, lines[-1], notes), (1, f"3 passed, {failed} failed", ["edits --look", "rt ci", "checked", "edits --one"]))

    def test_edits_that_were_not_tried_since(self):
        """Nothing else is begun."""
        status, lines, _, notes = self.run_with("gate", missed="--look")
        self.assertEqual((status, lines[-1], notes), (1, "0 passed, 1 failed", ["edits --look"]))

    def test_a_gate_that_the_proofs_do_not_pass(self):
        """The program is left alone, and not tried."""
        status, lines, _, notes = self.run_with("gate", rt="echo '2 passed, 1 failed'; exit 5")
        self.assertEqual((status, lines[-1], notes, self.program()), (5, "2 passed, 1 failed", ["edits --look", "rt ci"], "echo well"))

    def test_a_program_that_is_built(self):
        """What is below it is proved first where there is no program yet. One that runs is replaced, and one that is the same is left alone."""
        self.assertEqual(self.run_with("build", "3")[::3], (0, ["rt run"]))
        self.assertEqual(self.program(), "echo new")
        before = os.stat(self.path("ldaodt")).st_mtime_ns
        self.run_with("build")
        self.assertEqual(os.stat(self.path("ldaodt")).st_mtime_ns, before)
        os.remove(self.path("ldaodt"))
        status, lines, _, notes = self.run_with("build", "3")
        self.assertEqual((status, lines[-1], notes, self.program()), (0, "./ldaodt is proved and built", ["below", "rt run --jobs 3"], "echo new"))
        shutil.copy(shutil.which("sleep"), self.path("ldaodt"))
        running = subprocess.Popen([self.path("ldaodt"), "60"])
        self.addCleanup(self.let_go, running)
        self.assertEqual((self.run_with("build")[0], self.program()), (0, "echo new"))

    def test_on_how_many_processors(self):
        """As many as there are, and 4 GB of memory for each; or as many as are asked for."""
        os.remove(self.path("ldaodt"))
        self.put_script("tools/prove-below", "echo $* >> notes; exit 1")

        def fitting():
            room = int(re.search(r"MemAvailable: +(\d+)", bytes_of("/proc/meminfo").decode())[1]) // 4_000_000
            return max(1, min(room, len(os.sched_getaffinity(0))))

        before = fitting()
        said = self.run_with("build")[3]
        least, most = sorted((before, fitting()))
        self.assertIn(said, [[f"ldaodt {it}"] for it in range(least, most + 1)])
        self.assertEqual(self.run_with("build", "7")[3], ["ldaodt 7"])

    def test_a_program_that_is_not_proved(self):
        self.assertEqual(self.run_with("build", rt="exit 6")[0], 6)
        self.assertEqual(self.program(), "echo well")

    def test_without_the_toolchain(self):
        """A program that is there is taken as it is."""
        self.assertEqual(self.run_with("build", rt=None)[0], 0)
        os.remove(self.path("ldaodt"))
        self.assertEqual([self.run_with(it, rt=None)[0] for it in ("build", "gate", "edits")], [1, 1, 1])


if __name__ == "__main__":
    unittest.main()
