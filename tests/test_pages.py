"""What the pages say of endings, statuses, options, functions and clauses: that they say the same as one another, as the
program's help and as the crates. And that what they show to be pasted into a shell can be pasted."""
import collections
import contextlib
import glob
import os
import re
import subprocess
import unittest
from concurrent.futures import ThreadPoolExecutor

from cases import Case, Console, DeafConsole, StoringConsole
from commands import AT_A_MACHINE
from outside import FIRST, HELLO, PROGRAM, TOP, run

# What stands before a command.
CALLED = r"(?:ldaodt|tools/serial \S+ \S+)"

ROW = re.compile(r"^\|(.*)\|$", re.MULTILINE)


def text_at(name):
    with open(f"{TOP}/{name}", encoding="utf-8") as file:
        return file.read()


def rows_of(text):
    """The rows of a text's tables, as lists of cells."""
    return [[cell.strip() for cell in row.split("|")] for row in ROW.findall(text)]


def section(text, heading):
    """What stands below a heading, up to the next one of its kind."""
    level = heading.split(" ")[0]
    return text.split(f"{heading}\n", 1)[1].split(f"\n{level} ", 1)[0]


def ends_of_the_crates():
    """How something ends, as the crates have it: the cases of the loader's ends, of what stops an engine, and of each command's ends.
    Those that say that an engine ended somehow are none of their own."""
    cases = cases_of("crates/host_core/src/phase.rt", "End")
    for name in "Stop<E>", "Cut":
        cases |= cases_of("crates/engine/src/stop.rt", name)
    for file in glob.glob("crates/*/src/*_end.rt", root_dir=TOP):
        for name in re.findall(r"^pub enum (\w+End) ", text_at(file), re.MULTILINE):
            cases |= cases_of(file, name)
    return cases - {"Ended", "CutOff", "Driven", "Unfinished"}


def cases_of(file, name):
    """The cases of an enum of the crates."""
    body = re.search(rf"^pub enum {name} \{{\n(.*?)^\}}", text_at(file), re.MULTILINE | re.DOTALL)[1]
    return set(re.findall(r"^    (\w+)\b", body, re.MULTILINE))


ENDS = re.compile(rf"\b({'|'.join(ends_of_the_crates())})\b")


def statuses_in(text):
    """The endings that each line of a list of statuses names, as `5  a load ended GaveUp, ..` and its next lines."""
    found, status = {}, None
    for line in text.split("\n"):
        begins = re.match(r"  ([0-7])  ", line)
        status = int(begins[1]) if begins else status if line.startswith("     ") else None
        if status is not None:
            found.update({end: status for end in ENDS.findall(line)})
    return found


def commands():
    """The commands that the program's help lists, but for `help`."""
    listed = run(["--help"]).out.split("Commands:\n")[1].split("\n\n")[0]
    return [it for it in re.findall(r"^  (\w+) ", listed, re.MULTILINE) if it != "help"]


# Endings whose status a command's help gives in other words: the line or the record failed.
NOT_IN_HELP = {"LineFailed", "KeepFailed"}

# Whose endings ENDINGS has as those of `all`.
ALL = {it.name for it in AT_A_MACHINE}


class Endings(Case):
    """docs/ENDINGS.md has all; the others say the same in short."""

    def setUp(self):
        super().setUp()
        self.page = text_at("docs/ENDINGS.md")
        self.ends, self.commands_of, self.to_do = {}, {}, {}
        for cells in rows_of(section(self.page, "## Endings")):
            name = re.match(r"`end (\w+)[ A]*`, (.*)", cells[0])
            if name:
                self.ends[name[1]], self.to_do[name[1]] = int(cells[1]), cells[3]
                self.commands_of[name[1]] = ALL if name[2] == "all" else set(re.findall(r"`(\w+)`", name[2]))
        self.statuses = {int(cells[0]): cells[1] for cells in rows_of(section(self.page, "## Statuses")) if cells[0].isdecimal()}

    def test_each_ending_has_a_status_that_is_one(self):
        self.assertGreaterEqual(len(self.ends), 17)
        self.assertLessEqual(set(self.ends.values()), set(self.statuses))
        for status, when in self.statuses.items():
            for end in ENDS.findall(when):
                self.is_so((end, self.ends[end]), (end, status))

    def test_each_ending_of_the_crates_is_one(self):
        self.assertGreater(len(ends_of_the_crates()), 16)
        self.is_so(ends_of_the_crates(), set(self.ends) - {"none"})

    def test_help_says_the_same(self):
        named = set()
        for command in commands():
            with self.subTest(command):
                said = statuses_in(run([command, "--help"]).out)
                self.is_so(said, {end: self.ends.get(end) for end in said})
                if command in ALL:
                    self.is_so(set(said), {end for end, its in self.commands_of.items() if command in its} - NOT_IN_HELP)
                named |= set(said)
        self.is_so(named, set(self.ends) - {"none"} - NOT_IN_HELP)
        whole = run(["--help"]).out
        said = {int(it) for it in re.findall(r"^  ([0-7])  ", section(f"{whole}\n", "Exit status:"), re.MULTILINE)}
        self.is_so(said, set(self.statuses))

    def test_the_manual_page_says_the_same(self):
        page = text_at("docs/ldaodt.1")
        ends = page.split(".Sh ENDINGS")[1].split(".Sh EXIT STATUS")[0]
        self.is_so({end: int(status) for end, status in re.findall(r"^\.It Li (\w+).*\n(\d): ", ends, re.MULTILINE)}, self.ends)
        statuses = re.findall(r"^\.It (\d)$", page.split(".Sh EXIT STATUS")[1].split(".Sh ")[0], re.MULTILINE)
        self.is_so({int(it) for it in statuses}, set(self.statuses))

    def test_what_to_do_is_said_of_each_ending(self):
        """Of each that comes of a machine."""
        self.is_so({end for end, text in self.to_do.items() if not text}, {"none"})

    def test_what_may_be_the_cause_where_a_word_does_not_hold(self):
        """Not memory alone, but the line, too, and what tells which."""
        for word in ("memory chip", "or the line", "`--careful`", "`memory`"):
            self.assertIn(word, self.to_do["WontHold"])

    def test_the_headline_names_its_premise(self):
        """Where it says what a line may do, it says what one must not."""
        headline, = re.findall("^> (.*)$", text_at("README.md"), re.MULTILINE)
        self.assertRegex(headline, "^Whatever a line that changes no character ")

    def test_each_heading_that_a_probe_names_is_there(self):
        """Those of its lines `help`, as the crate of its report has them."""
        text = text_at("crates/probe_report/src/heard_text.rt")
        named = [it for it in re.findall(r'b"([A-Z][^"\\]*)"', text) if " " in it]
        self.is_so(len(named), 5)
        page = text_at("docs/REAL-MACHINE.md")
        for heading in named:
            self.assertIn(f"\n### {heading}\n", page)

    def test_each_fault_of_the_program_is_one(self):
        """By the words of its line, up to a colon or a comma. And each that the manual page explains."""
        told = re.findall(r"`(ldaodt: [^`]*)`", "\n".join(cells[0] for cells in rows_of(section(self.page, "## Faults"))))
        text = "".join(text_at(f"crates/endings/src/{it}.rt") for it in ("line_words", "printing"))
        words = re.findall(r'b"([^"]*[a-z ]{8}[^"]*)"', text)
        said = {re.split("[:,]", next(filter(None, re.split(r"\\n|ldaodt: ", it))))[0].strip() for it in words}
        self.assertGreater(len(said), 15)
        # What the command line refuses before can't be met.
        self.is_so({it for it in said if not any(it in row for row in told)}, {"machine too large"})
        explained = set(re.findall(r'^\.It Li "(ldaodt: .*)"$', text_at("docs/ldaodt.1"), re.MULTILINE))
        self.assertGreater(len(explained), 3)
        self.assertLessEqual(explained, set(told))


class Reasons(Case):
    """Why tapes and words are refused."""

    def test_each_reason_is_explained(self):
        """In a table of TAPE and on the manual page."""
        cases = cases_of("crates/tape_blocks/src/fault.rt", "Why") | cases_of("crates/tape_making/src/refusal.rt", "WordsWhy")
        self.assertGreater(len(cases), 10)
        named = [re.fullmatch(r"`([A-Z][a-z]\w+)`", cells[0]) for cells in rows_of(text_at("docs/TAPE.md"))]
        self.is_so({it[1] for it in named if it}, cases)
        faults = text_at("docs/ldaodt.1").split(".Sh DIAGNOSTICS")[1]
        self.is_so({it for it in cases if not re.search(rf"\b{it}\b", faults)}, set())


class Edits(Case):
    """The edits that the prover has to refuse, whichever of them the gate tries."""

    def test_each_line_that_is_replaced_stands_once(self):
        for folder in ("must-fail", "more-edits"):
            for path in sorted(glob.glob(f"{TOP}/crates/*/{folder}/*.edit")):
                lines = text_at(os.path.relpath(path, TOP)).splitlines()
                file = text_at(f"{os.path.relpath(path, TOP).split(folder)[0]}{lines[0].removeprefix('file: ')}")
                for line in lines:
                    if line.startswith("old: "):
                        self.is_so((path, file.count(line.removeprefix("old: "))), (path, 1))


class Options(Case):
    """What README, help and the manual page say of each command's words and options."""

    def setUp(self):
        super().setUp()
        self.helps = {command: run([command, "--help"]).out for command in commands()}

    def words_and_options(self):
        """Of each command, as its help has them: the words behind its name, and what each option takes, in capitals."""
        found = {}
        for command, text in self.helps.items():
            words = re.search(rf"^Usage: ldaodt {command}(.*)$", text, re.MULTILINE)[1].replace("[OPTIONS]", "")
            options = re.findall(r"^ +(?:-\w, )?--([\w-]+)(?: <(\w+)>)?", text.split("Options:\n")[1].split("\n\n")[0], re.MULTILINE)
            found[command] = re.findall(r"\w+", words), {name: value for name, value in options if name != "help"}
        return found

    def test_readme_says_the_same(self):
        found = {}
        for cells in rows_of(text_at("README.md")):
            command = re.fullmatch(r"`ldaodt (\w+)(.*)`", cells[0])
            if command:
                found[command[1]] = re.findall(r"\w+", command[2]), dict(re.findall(r"`--([\w-]+)(?: (\w+))?`", cells[1]))
        self.is_so(found, self.words_and_options())

    def test_the_manual_page_says_the_same(self):
        page = text_at("docs/ldaodt.1").split(".Sh SYNOPSIS")[1].split(".Sh ")[0]
        found = {}
        for command, text in re.findall(r"^\.Cm (\w+)\n(.*?)(?=^\.Nm|\Z)", page, re.MULTILINE | re.DOTALL):
            options = re.findall(r"Fl -([\w-]+)(?: Ar (\w+))?", text)
            words = [word for line in re.findall(r"^\.(?:Op )?(Ar .*)", text, re.MULTILINE) for word in re.findall(r"Ar (\w+)", line)]
            found[command] = [it.upper() for it in words], {name: value.upper() for name, value in options}
        self.is_so(found, self.words_and_options())

    def test_the_manual_page_has_the_same_ranges(self):
        page = text_at("docs/ldaodt.1").split(".Sh DESCRIPTION")[1].split(".Sh ")[0]
        entries = re.findall(r"^\.It Fl -([\w-]+).*\n((?:(?!\.It|\.El).*\n)*)", page, re.MULTILINE)
        compared = 0
        for command, text in self.helps.items():
            for name, said in re.findall(r"^ +--([\w-]+)(.*\n(?: {12,}.*\n)*)", text, re.MULTILINE):
                flat = " ".join(said.split())
                bounds = re.findall(r"(\d+) to (\d+)", flat)
                default = re.findall(r"\[default: (\d+)\]", flat)
                told = [" ".join(it.split()) for its_name, it in entries if its_name == name]
                for low, high in bounds:
                    self.assertTrue(any(re.search(rf"\b{low} to {high}\b", it) for it in told), f"{command} --{name}: {low} to {high}")
                for it in default:
                    self.assertTrue(any(re.search(rf"\b[Bb]y default (?:it is |all )?{it}\b", one) for one in told), f"{command} --{name}: {it}")
                compared += len(bounds) + len(default)
        self.assertGreater(compared, 15)


HELP = "tests/help.md"

# Numbers of the pages that are also the program's, a test's or a script's: where a page has one, and where else it stands, each with a
# group for it. What the page of help says is the program's.
SAID_TWICE = {
    "docs/ldaodt.1": (
        (r"Up to (\d+) of its words are looked at first", HELP, r"looks at up to (\d+) of its words first"),
        (r"some (\d+) times as quick", HELP, r"some (\d+) times as quick"),
        (r"as quick, from (\d+) words on", HELP, r"as quick, from (\d+) words on"),
        (r"above the time of (\d+) characters", "tools/serial", r"needed=\$\(\((\d+) \* 11 "),
        (r"both included, even and below (\d+)", HELP, r"Saves words .*? octal, even, below (\d+)"),
        (r"leaves each (\d+) words that it has read", HELP, r"keeps each (\d+) words that were read"),
        (r"The start of the tape, octal, by default (\d+)", HELP, r"an odd one starts nothing \[default: (\d+)\]"),
        (r"The word that is tried: octal, even, below (\d+)", HELP, r"The word that is tried: octal, even, below (\d+)"),
        (r"The word that is tried: .*?, by default (\d+)", HELP, r"The word that is tried: .*? \[default: (\d+)\]"),
        (r"is a bank of (\d+) words", HELP, r"a row is a bank of (\d+) words"),
        (r"The first (\d+) words that do not hold", HELP, r"The first (\d+) words that do not hold"),
        (r"(\d+) keys end it", HELP, r"or after (\d+) keys"),
        (r"[Nn]o ODT is there: (\d+) characters and silences", "crates/host_devices/src/turns.rt", r"MOST_TURNS: u64 = ([\d_]+);"),
        (r"PastTop \(data above (\d+)\)", HELP, r"PastTop \(data above (\d+)\)"),
        (r"transfer block\), TooLong \(more than (\d+) bytes\)", "tests/test_tapes.py", r"\nMOST = (\d+)\n"),
        (r"PastTop \((\d+) or above\)", HELP, r"Saves words .*? octal, even, below (\d+)"),
        (r"TooLong \(line 0: more than (\d+) bytes\)", "tests/test_make.py", r"\nMOST = (\d+)\n"),
        (r"one of the tapes, or has more than (\d+) bytes", "tests/test_tapes.py", r"\nMOST = (\d+)\n"),
    ),
    "docs/REAL-MACHINE.md": (
        (r"The whole memory\*\* is `0 (\d+)`", HELP, r"not below the first \[default: (\d+)\]"),
        (r"From some (\d+) words on `--fast`", HELP, r"as quick, from (\d+) words on"),
        (r"above the time of (\d+) characters", "tools/serial", r"needed=\$\(\((\d+) \* 11 "),
        (r"characters .{0,30}: from 300 baud on (\d+) is", HELP, r"nothing more is coming, .*? \[default: (\d+)\]"),
    ),
    "docs/RECORD.md": ((r"looks first at up to (\d+) words of its record", HELP, r"looks at up to (\d+) of its words first"),),
    "docs/LINE.md": (
        (r"above the time of (\d+) characters", "tools/serial", r"needed=\$\(\((\d+) \* 11 "),
        (r"of (\d+) bits 3\.4 seconds at 110 baud", "tools/serial", r"needed=\$\(\(34 \* (\d+) "),
        (r"nothing more will; (\d+) by default", HELP, r"nothing more is coming, .*? \[default: (\d+)\]"),
    ),
}


def flat(name):
    """A page in one line, a manual page's without the marks of its words; a script or a test as it stands."""
    text = text_at(name)
    if name.endswith(".1"):
        text = re.sub(r"^\.[A-Z][a-z] ", "", text, flags=re.MULTILINE)
    return " ".join(text.split()) if name.endswith((".1", ".md")) else text


class Numbers(Case):
    """Numbers that pages have, and others, too."""

    def test_what_is_said_twice(self):
        for page, rows in SAID_TWICE.items():
            for on_page, other, there in rows:
                with self.subTest(page, row=on_page):
                    told, known = (re.findall(pattern, flat(name), re.DOTALL) for pattern, name in ((on_page, page), (there, other)))
                    self.assertTrue(told and known, (told, known))
                    self.is_so(len({it.replace("_", "") for it in [*told, *known]}), 1)

    def test_each_limit_of_the_manual_page_is_one_of_these(self):
        """Those of three digits and more, beside ranges, defaults and what is shown to be typed, which others ask for."""
        page = flat("docs/ldaodt.1").split(" DESCRIPTION ")[1].split(" EXAMPLES ")
        page = f"{page[0]} {page[1].split(' DIAGNOSTICS ')[1]}".split(" SEE ALSO ")[0]
        others = (r"\b(\d+) to \d+\b", r"\b\d+ to (\d+)\b", r"\bby default (?:it is |all )?(\d+)\b", r"\[::1\]:(2323)")
        asked_for = {it.start(1) for pattern in (*others, *(it for it, *_ in SAID_TWICE["docs/ldaodt.1"])) for it in re.finditer(pattern, page)}
        self.is_so([it[0] for it in re.finditer(r"\b\d{3,}\b", page) if it.start() not in asked_for], [])

    def test_the_last_address(self):
        """The one below the number that the manual page has is taken, and that is refused, where a word is saved, tried or tested."""
        nobody = self.taken_port()
        limit = int(re.search(r"both included, even and below (\d+)", flat("docs/ldaodt.1"))[1], 8)
        for words in ("save new.lda LINE {0} {0}", "save new.lda LINE 0 {0}", "probe LINE --address {0}", "memory LINE {0} {0}", "memory LINE 0 {0}"):
            for address, status in ((limit - 2, 4), (limit, 2)):
                with self.subTest(words, address=address):
                    self.is_so(self.ldaodt(words.format(f"{address:o}").replace("LINE", nobody)).status, status)

    def test_where_a_program_is_started_by_hand(self):
        """Where the tape starts it that a page loads: first.lda and hello.lda both at one address."""
        starts = {re.search(r"^start (\d+)$", run(["check", it]).out, re.MULTILINE)[1] for it in (FIRST, HELLO)}
        named = 0
        for page in ("docs/REAL-MACHINE.md", "docs/PROBE.md", "docs/CONSOLE.md", "README.md", "examples/README.md"):
            for start in re.findall(r"\b([0-7]{6})G\b", text_at(page)):
                named += 1
                self.is_so((page, {start}), (page, starts))
        self.assertGreater(named, 1)

    def test_how_long_characters_take(self):
        """Of LINE what is told of two and of 34 characters, of 10 and 11 bits, at each speed."""
        text, tried = flat("docs/LINE.md"), 0
        for part, bits in ((re.search(r"the time of two characters \((.*?)\)", text)[1], 2 * 10), (re.search(r"of 11 bits (.*?)\. Where", text)[1], 34 * 11)):
            for number, unit, speed in re.findall(r"(\d+(?:\.\d)?) ?(seconds|ms|) at (\d+)", part):
                tried += 1
                milliseconds = float(number) * (1 if unit == "ms" else 1000)
                self.assertAlmostEqual(milliseconds, 1000 * bits / int(speed), delta=0.5 if unit == "ms" else 60, msg=(part, number, speed))
        self.is_so(tried, 8)

    def test_the_settings_of_a_bridge(self):
        """ser2net reads a speed, a parity, bits and stop bits in one word; those of socat and of stty are the same."""
        page = text_at("docs/LINE.md")
        self.is_so(re.findall(r"serialdev,/dev/ttyUSB0,(\w+),local$", page, re.MULTILINE), ["9600n81"])
        told = re.search(r"/dev/ttyUSB0,(b9600,\S*)", page)[1].split(",")
        self.is_so(sorted(told), sorted("b9600 raw echo=0 cs8 parenb=0 cstopb=0 crtscts=0 clocal=1 hupcl=0".split()))


CRATES = sorted(glob.glob(f"{TOP}/crates/*/src"))


def defined_in(folders):
    """The functions and types of some crates: of each name what stands behind it, up to the next one."""
    found = collections.defaultdict(list)
    for folder in folders:
        text = "\n".join(text_at(os.path.relpath(file, TOP)) for file in sorted(glob.glob(f"{folder}/**/*.rt", recursive=True)))
        for part in re.split(r"\b(?:fn|struct) (?=\w)", text)[1:]:
            found[re.match(r"\w+", part)[0]].append(part)
    return found


class Crates(Case):
    """What docs/MAP.md and docs/PROVED.md say of the crates."""

    def setUp(self):
        super().setUp()
        self.crates, self.floor_of, floor = {}, {}, None
        for line in text_at("crates.txt").split("\n"):
            heading = re.match(r"# (?:Floor (\d+)$|Tests:)", line)
            if heading:
                floor = int(heading[1] or 99)
            elif line and not line.startswith("#"):
                name, _, libraries = line.partition(":")
                self.crates[name], self.floor_of[name] = libraries.split(), floor

    def test_the_map_says_how_each_crate_is_listed(self):
        """And names none that isn't there."""
        part = section(text_at("docs/MAP.md"), "## The crates")
        ran = subprocess.run(["bash", "-c", re.search("^```\n(.*?)^```$", part, re.MULTILINE | re.DOTALL)[1]], cwd=TOP, capture_output=True, text=True)
        listed = re.findall(r"^crates/(\w+)/src/\w+\.rt://! \S", ran.stdout, re.MULTILINE)
        self.is_so(sorted(listed), sorted(self.crates))
        self.assertLessEqual({it for it in re.findall(r"`([a-z]+_\w+)`", part)} - {"_tests"}, set(self.crates))

    def test_each_crate_stands_on_lower_floors_alone(self):
        """And as low as that lets it."""
        for name, libraries in self.crates.items():
            below = max([self.floor_of[it] for it in libraries if it in self.crates], default=-1)
            self.is_so((name, self.floor_of[name]), (name, 99 if name.endswith("_tests") else below + 1))

    def test_each_crate_names_what_it_is_said_to_stand_on(self):
        """A library that is listed and not named would be one more that is walked before each check."""
        for name, libraries in self.crates.items():
            files = [it for part in ("src", "specs", "proofs") for it in glob.glob(f"{TOP}/crates/{name}/{part}/**/*.*t", recursive=True)]
            text = "\n".join(text_at(os.path.relpath(it, TOP)) for it in files)
            for library in libraries:
                self.assertTrue(re.search(rf"\b{library}::|Rattle\.{library}\b", text), f"{name} does not name {library}")

    def test_the_way_of_a_key_is_a_way(self):
        """Each call stands in its file, and its body names the next one."""
        calls = re.findall(r"^\d+\. `(\w+)`, `(.*?)`", section(text_at("docs/MAP.md"), "## The way of a key"), re.MULTILINE)
        self.assertGreater(len(calls), 7)
        for number, (call, file) in enumerate(calls):
            bodies = [it[1] for it in re.findall(rf"\n( *)(?:pub(?:\(crate\))? )?(fn {call}\b.*?\n)\1\}}\n", text_at(file), re.DOTALL)]
            following = calls[number + 1][0] if number + 1 < len(calls) else "write"
            self.assertTrue(any(re.search(rf"\b{following}\(", it.split("{", 1)[-1]) for it in bodies), f"{call} in {file} calls no {following}")

    def test_one_loop_of_turns_hears_a_line(self):
        """Beside listening, and where a line hands on what another heard: no engine but the one has a loop of turns."""
        calls = set()
        for name in self.crates:
            for file in glob.glob(f"{TOP}/crates/{name}/src/**/*.rt", recursive=True) if not name.endswith("_tests") else ():
                for part in re.split(r"\bfn (?=\w)", text_at(os.path.relpath(file, TOP)))[1:]:
                    if re.search(r"(?<!\bself)\.hear\(\)", part) and not part.startswith("hear("):
                        calls.add((name, re.match(r"\w+", part)[0]))
        self.is_so(calls, {("engine", "turn"), ("console_lines", "copy_next")})

    def test_each_function_and_clause_that_is_named_is_there(self):
        """As `World::run`: `safe`, `since`; `drive`: `driven`; and functions with one clause, which has no name."""
        crates, page = defined_in(it for it in CRATES if "_tests/" not in it), text_at("docs/PROVED.md")
        named = 0
        for cells in rows_of(page.replace(section(page, "## What tells"), "")):
            if len(cells) != 2 or "`" not in cells[1]:
                continue
            for carried in cells[1].replace("::", ".").split(";"):
                functions, _, clauses = carried.partition(":")
                wanted = [rf"ensures {it} \{{" for it in re.findall(r"`(\w+)`", clauses)] or [r"ensures"]
                for function in re.findall(r"`(?:\w+\.)?(\w+)`", functions):
                    named += 1
                    self.assertTrue(any(all(re.search(it, body) for it in wanted) for body in crates[function]), f"{function} has no {clauses}")
        self.assertGreater(named, 90)

    def test_what_tells_is_there(self):
        """Of each clause of the table, by a name that tests may have alone."""
        there, rows = defined_in(CRATES), rows_of(section(text_at("docs/PROVED.md"), "## What tells"))[2:]
        self.assertGreater(len(rows), 8)
        for function in re.findall(r"`(?:\w+::)?(\w+)`", " ".join(f"{clauses} {told}" for clauses, told in rows)):
            self.assertTrue(there[function], f"{function} is not there")

    def test_promises_are_printed(self):
        ran = subprocess.run([f"{TOP}/tools/promises", "octal", "host_devices"], capture_output=True, text=True)
        self.is_so((ran.returncode, ran.stderr), (0, ""))
        self.assertIn("\nfn oct6(word: u16) -> [u8; 6]\n    The octal text of `word`: six ASCII digits, the first `0` or `1`.\n"
                      "    ensures text: result ≡ octal_text word\n    ensures is_octal: IsOct6 word result\n", ran.stdout)
        self.assertIn("line.rt: pub trait Line\n\nfn send(&mut self, key: u8)", ran.stdout)
        self.assertNotIn("digit_at", ran.stdout)
        ran = subprocess.run([f"{TOP}/tools/promises"], capture_output=True, text=True)
        self.is_so(re.findall("^# (.*)", ran.stdout, re.MULTILINE), [it for it in self.crates if not it.endswith("_tests")])
        ran = subprocess.run([f"{TOP}/tools/promises", "nothing"], capture_output=True, text=True)
        self.is_so((ran.returncode, ran.stderr), (2, "promises: crates.txt has no nothing\n"))

    def test_no_page_names_a_crate_that_is_gone(self):
        gone = {"load_command", "socket_line", "load_reports", "tape_check", "console_typing", "rehearsals", "tape_requests", "command_words",
                "memory_end", "told_disk", "trial_tests"} - set(self.crates)
        for name in ("README.md", "CONTRIBUTING.md", *(os.path.relpath(it, TOP) for it in glob.glob(f"{TOP}/docs/*"))):
            for it in gone:
                self.assertNotIn(f"`{it}`", text_at(name), name)


class Links(unittest.TestCase):
    """Where the pages lead."""

    def test_each_link_leads_somewhere(self):
        pages = [f"{TOP}/{it}" for it in ("README.md", "CONTRIBUTING.md", "CHANGELOG.md")] + \
            [it for folder in ("docs", "examples", "tests") for it in glob.glob(f"{TOP}/{folder}/**/*.md", recursive=True)]
        for page in pages:
            with open(page, encoding="utf-8") as file:
                for target in re.findall(r"\]\(([^)#]+)\)", file.read()):
                    with self.subTest(os.path.relpath(page, TOP), target=target):
                        self.assertTrue(os.path.exists(os.path.join(os.path.dirname(page), target)))

    def test_each_step_and_heading_that_is_named_behind_a_link_is_there(self):
        """As `[LINE.md](LINE.md), "The bridge"`, and `step 4`."""
        named = 0
        for page in glob.glob(f"{TOP}/docs/*.md"):
            with open(page, encoding="utf-8") as file:
                text = file.read()
            for target, step, heading in re.findall(r'\]\(([\w-]+\.md)\),? \(?(?:step (\d+)|"([^"\n]+)")', text):
                named += 1
                wanted = rf"^##+ {step}\. " if step else rf"^##+ (?:\d+\. )?{re.escape(heading)}$"
                with self.subTest(os.path.relpath(page, TOP), target=target):
                    self.assertRegex(text_at(f"docs/{target}"), re.compile(wanted, re.MULTILINE))
        self.assertGreater(named, 10)


class FadingConsole(Console):
    """Once a second load or look begins, which types a `Z`, its word at 001000 is gone."""

    def take(self, key):
        if key == "Z" and "Z" in self.typed:
            self.words[0o1000 // 2] = 0
        return super().take(key)


class ForgetfulConsole(Console):
    """It loses four keys of the load of `hello.lda`: as many as two loads with a patience of 1 give up at."""

    def take(self, key):
        if len(self.typed) not in (100, 200, 300, 400):
            return super().take(key)
        self.typed += key
        return ""


class Pasting(Case):
    """Blocks that are shown to be pasted into a shell, as they stand, with a simulated machine for the device. They are
    pasted side by side, each in a folder of its own."""

    def folder(self, number, device=None, options=""):
        """A folder that has what a block names: the program, by its name alone too, the tapes, and a machine's console."""
        room = self.path(str(number))
        os.makedirs(f"{room}/bin")
        for name in ("ldaodt", "examples", "tools"):
            os.symlink(f"{TOP}/{name}", f"{room}/{name}")
        os.symlink(PROGRAM, f"{room}/bin/ldaodt")
        os.symlink(HELLO, f"{room}/program.lda")
        os.symlink(FIRST, f"{room}/first.lda")
        if device:
            os.symlink(device, f"{room}/ttyUSB0")
        else:
            subprocess.run(["tools/machine", *options.split(), "./ttyUSB0"], cwd=room, check=True, stdout=subprocess.DEVNULL)
            self.addCleanup(self.switch_off, room)
        return room

    def switch_off(self, room):
        """Ends the machines of a folder, which go with their links."""
        for name in ("ttyUSB0", "lsi11"):
            with contextlib.suppress(FileNotFoundError):
                os.remove(f"{room}/{name}")

    def paste(self, row):
        """Pastes a block; returns its status and what it said on standard error. What is only looked at was loaded before,
        and what is made isn't there before."""
        number, block = row
        room = self.folder(number)
        for name in re.findall(r"ldaodt make (\S+)", block):
            with contextlib.suppress(FileNotFoundError):
                os.remove(f"{room}/{name}")
        if "verify" in block and "load" not in block:
            loaded = run("load first.lda ./ttyUSB0 --no-start --quiet 300".split(), cwd=room)
            self.is_so((loaded.status, loaded.err), (0, ""))
        ran = self.shell(["bash", "-e"], block, room)
        return ran.returncode, ran.stderr

    def shell(self, words, block, room):
        """What a shell makes of a block that is typed into it."""
        # At 300 baud, which a simulated machine's device does not mind, tools/serial leaves the quiet time alone.
        text = block.replace("/dev/ttyUSB0", "./ttyUSB0").replace("--listen 10", "--listen 1").replace("tools/serial 9600 ", "tools/serial 300 ")
        env = {**os.environ, "PATH": f"{room}/bin:{os.environ['PATH']}"}
        return subprocess.run(words, input=text, text=True, cwd=room, env=env, capture_output=True, timeout=600, check=False)

    def paste_all(self, blocks):
        """Asserts that each command of each block ends well and says nothing of a fault."""
        with ThreadPoolExecutor(len(blocks)) as pool:
            for block, ended in zip(blocks, pool.map(self.paste, enumerate(blocks))):
                with self.subTest(block):
                    self.is_so(ended, (0, ""))

    def of_the_pages(self):
        pages = "".join(map(text_at, ("README.md", "docs/REAL-MACHINE.md", "examples/README.md")))
        return re.findall(r"^```sh\n(.*?)^```$", pages, re.MULTILINE | re.DOTALL)

    def of_help(self):
        blocks = []
        for command in ["", *commands()]:
            examples = run([*command.split(), "--help"]).out.split("Example")[1:]
            self.assertTrue(examples, command)
            blocks.extend("".join(f"{it[2:]}\n" for it in text.split("\n")[1:] if it.startswith("  ")) for text in examples)
        return blocks

    def of_the_manual_page(self):
        page = text_at("docs/ldaodt.1").split(".Sh EXAMPLES")[1].split(".Sh DIAGNOSTICS")[0].replace("\\e", "\\")
        blocks = re.findall(r"^\.Dl (\$ .*\n)", page, re.MULTILINE) + re.findall(r"^\.Bd -literal.*?\n(.*?)^\.Ed", page, re.MULTILINE | re.DOTALL)
        return [re.sub(r"^\$ ", "", it, flags=re.MULTILINE).replace("0 157776", "0 176") for it in blocks]

    def test_the_blocks_of_the_pages(self):
        self.assertGreaterEqual(len(self.of_the_pages()), 4)
        self.paste_all(self.of_the_pages())

    def test_the_examples_of_help(self):
        self.paste_all(self.of_help())

    def test_the_examples_of_the_manual_page(self):
        self.assertGreaterEqual(len(self.of_the_manual_page()), 4)
        self.paste_all(self.of_the_manual_page())

    def test_each_load_that_is_shown_is_careful(self):
        """It costs no character more where whole words are deposited."""
        loads = re.findall(f"{CALLED} load .*", "".join(self.of_the_pages()))
        self.assertGreaterEqual(len(loads), 5)
        self.is_so([it for it in loads if " --careful" not in it], [])

    def test_the_block_that_goes_on_by_itself(self):
        """Where each of its loads gains words it goes on up to the start; where nothing answers there is no second load."""
        block, = (it for it in self.of_the_pages() if "until " in it)
        block = block.replace("--patience 1000", f"--patience 1 --quiet {self.quiet}")
        for machine, wanted in ((ForgetfulConsole(), ["GaveUp", "GaveUp", "Started"]), (DeafConsole(), ["GaveUp"])):
            with self.subTest(wanted=wanted):
                device = self.device_at(machine)
                ran = self.shell(["bash"], block, self.folder(len(wanted), device.name))
                device.settle()
                self.is_so((re.findall("^end (.*)$", ran.stdout, re.MULTILINE), ran.stderr), (wanted, ""))
                counts = [int(it) for it in re.findall(r" verified (\d+) of 28$", ran.stdout, re.MULTILINE)]
                self.is_so(counts, sorted(set(counts)))

    def typed_by(self, block, console, number):
        """What is typed at such a console where a block is typed into a shell. Nothing is started there."""
        device = self.device_at(console())
        self.shell(["bash"], block, self.folder(number, device.name))
        device.settle()
        self.is_so(device.machine.starts, [])
        return device.machine.typed

    def shown_before_a_load(self, command):
        blocks = [*self.of_the_pages(), *self.of_help(), *self.of_the_manual_page()]
        return [it for it in blocks if re.search(rf"{CALLED} {command} .*{CALLED} load ", it, re.DOTALL)]

    def test_no_load_behind_a_probe_that_warns(self):
        """At a console that stores: behind what the probe types there may be looks, and no digit is typed into a word."""
        alone = self.typed_by("ldaodt probe /dev/ttyUSB0\n", StoringConsole, "alone")
        blocks = self.shown_before_a_load("probe")
        self.assertGreaterEqual(len(blocks), 2)
        for number, block in enumerate(blocks):
            with self.subTest(block):
                typed = self.typed_by(block, StoringConsole, number)
                self.is_so(typed[: len(alone)], alone)
                self.assertIsNone(re.search(r"/[0-7]|[^0-7/\rZ]", typed[len(alone) :]), repr(typed))

    def test_no_start_behind_a_verify_that_finds_a_difference(self):
        blocks = self.shown_before_a_load("verify")
        self.assertGreaterEqual(len(blocks), 1)
        for number, block in enumerate(blocks):
            with self.subTest(block):
                self.typed_by(block, FadingConsole, number)


if __name__ == "__main__":
    unittest.main()
