"""The programs of `examples/toolbox`: they boot disks, in SIMH, and a TU58, find boards, copy boot ROMs and fill memory. What their words say and do
is what the page and their comments say of it; and with any of them changed a test sees it."""
import contextlib
import glob
import os
import re
import socket
import subprocess
import threading
import time
import unittest

from cases import Case
import simh
import tu58
from odt_peer import RUNNING
from outside import TOP, run
from toolbox_cases import (CONTROL, DRIVES, ELSEWHERE, HALTED, LARGER, LEFT, LONG, NEVER_CAME, NOP, NOTHING_ANSWERS, NOWHERE, PRIORITY_7, REPORTED, SECONDS,
                           START, TEXT, TOOLBOX, UNIT, CrowdedLine, DamagingLine, LosingDrive, MachineWithBoards, PagedRom, Registers, Run, SilentDrive,
                           attached, block_that_halts, block_that_prints, bytes_of_words, lines_of, made_ready, ran, start_of, words_of)

NAMES = sorted(os.path.basename(it).removesuffix(".words") for it in glob.glob(f"{TOOLBOX}/*.words"))
BOOTS = sorted({it.boot for it in DRIVES} | {"tu58"})

# Where the copies of boot ROMs begin, and the addresses of which a character could be lost.
SAVED_FIRST = 0o10000
SPARED = (0o167774, 0o176502, 0o176512, 0o176522, 0o176532, 0o177562)

# The registers by which the console prints.
PRINTING = (0o177564, 0o177566)


def page():
    with open(f"{TOP}/examples/toolbox.md", encoding="utf-8") as file:
        return file.read()


def rows():
    """The rows of the page's tables."""
    return [[cell.strip() for cell in row.split("|")] for row in re.findall(r"^\|(.*)\|$", page(), re.MULTILINE)]


def made(case, name, *options):
    """The tape of a text, in the case's folder."""
    tape = case.path(f"{name}.lda")
    if not os.path.exists(tape):
        case.ends(run(["make", tape, f"{TOOLBOX}/{name}.words", "--start", f"{start_of(name):o}", *options]), 0)
    return tape


class Texts(Case):
    def test_each_is_on_the_page(self):
        """With what is to be changed in it, and how many words it has."""
        told = {cells[0]: cells[2:] for cells in rows() if len(cells) == 4}
        for name in NAMES:
            changes, count = told[f"`{name}.words`"]
            self.is_so((name, count), (name, str(len(words_of(name)))))
            marked = [address for address, _, comment in lines_of(name) if "CHANGE" in comment]
            if name in BOOTS:
                self.is_so((name, marked, changes[-6:]), (name, [UNIT, CONTROL, SECONDS], f"{words_of(name)[CONTROL]:06o}"))
            else:
                self.is_so((name, re.findall(r"`(\d{6})`", changes)), (name, [f"{it:06o}" for it in marked]))
        for address in (UNIT, CONTROL, SECONDS):
            self.assertIn(f"`{address:06o}`", page())

    def test_the_halts(self):
        """What is printed at each is said behind it, and on the page."""
        for name in NAMES:
            for address, word, comment in lines_of(name):
                if word == 0 and (told := re.search(r"HALT +prints (\d{6})", comment)):
                    self.is_so((name, int(told[1], 8)), (name, address + 2))
                    self.assertIn(told[1], page())

    def test_an_instruction_is_what_its_comment_says(self):
        """SIMH reads the words, too."""
        simh.ask_for(self)
        for name in NAMES:
            with self.subTest(name):
                lines = lines_of(name)
                labels = {it[1]: address for address, _, comment in lines if (it := re.match(r"(\w+):", comment))}
                labels["BEHIND"] = lines[-1][0] + 2
                said = self.instructions(name, [address for address, _, comment in lines if comment[7:8].strip()])
                for address, _, comment in lines:
                    written = re.match(r"(?:\w+:)? *(.*?)(?:  |$)", comment)[1]
                    if not comment[7:8].strip() or written.startswith(".WORD"):
                        continue
                    told = re.sub(r"\b[A-Z]{2,6}\b", lambda it: f"{labels[it[0]]:o}" if it[0] in labels else it[0], written.replace(", ", ","))
                    self.is_so((address, said[address]), (address, re.sub(r"#-(\d+)", lambda it: f"#{-int(it[1], 8) & 0o177777:o}", told)))

    def instructions(self, name, addresses):
        said = simh.said_to([*(f"deposit {address:o} {word:o}" for address, word in words_of(name).items()), *(f"examine -m {it:o}" for it in addresses)])
        return {int(address, 8): text.rstrip() for address, text in re.findall(r"^([0-7]+):\t(.*)$", said, re.MULTILINE)}


class Loads(Case):
    """By `load`, at machines that run what is started there, by hand: how long a program is silent before it prints is this computer's affair."""

    def load(self, name, machine, most=1_000_000):
        """Loads a text and starts it; returns the line, and what the machine printed, up to its `@`."""
        tape, line = made(self, name), self.console_at(machine)
        count = len(words_of(name))
        given = self.ldaodt(self.words_at(line, f"load {tape} LINE --no-start"))
        line.settle()
        self.assertRegex(given.out, rf"\Asent \d+ spent \d+ verified {count} of {count}\nend Loaded\n\Z")
        start = f"{start_of(name):06o}G"
        printed = "".join(machine.take(key) for key in start)
        while machine.mode == RUNNING and machine.computer.time < most:
            printed += machine.go_on()
        return line, printed.removeprefix(start)

    def test_a_tu58(self):
        block = block_that_prints("BOOTED")[:511].ljust(511, b"\0") + b"\x77"
        machine = MachineWithBoards()
        machine.has_tape(tu58.Drive(block))
        self.is_so(self.load("tu58", machine)[1], f"BOOTED\r\n{TEXT:06o}\r\n@")
        self.is_so((bytes_of_words(machine.words[:256]), machine.computer.processor.registers[:2]), (block, [0, tu58.REGISTERS[0]]))

    def test_a_tu58_of_which_a_byte_is_lost(self):
        """The boot waits for it until its time is over; started again it boots."""
        machine = MachineWithBoards(counter=2000)
        machine.has_tape(LosingDrive(block_that_prints("BOOTED")))
        self.assertEqual(machine.runs("tu58", {SECONDS: 1}), f"\r\n{NEVER_CAME:06o}\r\n@")
        self.assertEqual(machine.registers[2], tu58.BLOCK - 1)
        self.assertEqual(machine.runs("tu58", {}, most=10 * machine.computer.time), f"BOOTED\r\n{TEXT:06o}\r\n@")

    def test_which_boards_answer(self):
        rom, others = PagedRom(), Registers([*range(0o160000, 0o160010, 2), 0o172100, 0o177546, 0o177774, 0o177776])
        machine = MachineWithBoards(boards=[(rom, rom.addresses), (others, others.held)])
        self.is_so(self.load("boards", machine)[1].replace("\r", ""),
                   "160000 160006\n172100 172100\n173000 173776\n177520 177520\n177546 177546\n177560 177566\n177774 177776\n\n002076\n@")
        self.is_so((rom.writes, others.writes), ([], []))

    def test_on_four_kilobytes(self):
        """The boards are found there, and each boot fits below."""
        self.is_so(self.load("boards", MachineWithBoards(2048))[1], "177560 177566\r\n\r\n002076\r\n@")
        for name in set(NAMES) - {"bdv11", "rom"}:
            self.assertLess(max(words_of(name)), 4096)

    def test_a_boot_rom(self):
        """It comes onto a tape."""
        rom = PagedRom()
        for name, count, halt in (("bdv11", len(rom.words), 0o2054), ("rom", 256, 0o2032)):
            with self.subTest(name):
                line, printed = self.load(name, MachineWithBoards(boards=[(rom, rom.addresses)]))
                self.is_so(printed, f"\r\n{halt:06o}\r\n@")
                last, tape = SAVED_FIRST + 2 * count - 2, self.path(f"saved-{name}.lda")
                given = self.ldaodt(self.words_at(line, f"save {tape} LINE {SAVED_FIRST:o} {last:o} --once"))
                self.is_so((given.status, given.out.splitlines()[-1]), (0, "end Saved"))
                listed = re.findall(r"^(\d{6}) 177777 (\d{6})$", run(["check", tape]).out, re.MULTILINE)
                self.is_so([(int(address, 8), int(word, 8)) for address, word in listed],
                           [(SAVED_FIRST + 2 * place, word) for place, word in enumerate(rom.words[:count])])

    def test_all_memory(self):
        for words in (4096, 28672):
            with self.subTest(words):
                machine = MachineWithBoards(words, memory=0o123456)
                self.is_so(self.load("zero", machine)[1], "\r\n000004\r\n@")
                self.is_so((machine.words[0], set(machine.words[1:])), (0o005041, {0}))


class InSimh(Case):
    def setUp(self):
        super().setUp()
        simh.ask_for(self)

    def said(self, name, *commands, changed=()):
        """What SIMH says of a tape that it loads and starts, behind a reset as `G` has one."""
        return simh.said_to([*commands, f"load {made(self, name)}", *changed, f"run {start_of(name):o}", "examine r0,r1,psw"])

    def disks(self):
        """Each kind of disk, and the commands that make it ready."""
        for drive in DRIVES:
            text = f"BOOTED {drive.size}"
            yield drive, text, [*made_ready(drive, [0]), attached(drive, 0, self.room, block_that_prints(text))]

    def test_each_disk(self):
        for drive, text, commands in self.disks():
            with self.subTest(drive):
                said = self.said(drive.boot, *commands)
                self.assertIn(f"{text}\n", said)
                self.assertIn(f"HALT instruction, PC: {TEXT:06o}", said)
                found = simh.registers_in(said)
                self.is_so((found["R0"], found["R1"], found["PSW"] & PRIORITY_7), (0, drive.control, PRIORITY_7))

    def test_each_disk_on_later_processors(self):
        """Without memory management, as `G` leaves them."""
        for processor in LARGER:
            for drive, text, commands in self.disks():
                with self.subTest(drive, processor=processor):
                    self.assertIn(f"{text}\n", self.said(drive.boot, f"set cpu {processor}", *commands))

    def test_what_is_printed_where_it_does_not_boot(self):
        """Within a time that is the program's own: so many looks, of three instructions each."""
        limit = 3 * (0o74 + 1) * 65536
        silent = ["set dli enable", "set dli lines=1"]
        for name, commands, halt in (
            *((it.boot, ["set rx disable", f"set {it.device} disable"], NOTHING_ANSWERS) for it in DRIVES),
            ("tu58", [], NOTHING_ANSWERS),
            ("rk05", [], NEVER_CAME),
            ("tu58", silent, NEVER_CAME),
            *((it.boot, made_ready(it, []), REPORTED) for it in DRIVES if it.boot != "rk05"),
        ):
            with self.subTest(name, commands=commands):
                said = simh.said_to([*commands, f"load {made(self, name)}", f"deposit pc {START:o}", f"step {limit}"], LONG)
                self.assertIn(f"HALT instruction, PC: {halt:06o}", said)

    def test_a_disk_whose_block_0_is_empty(self):
        """A HALT stands there, as the page says."""
        drive = DRIVES[0]
        self.assertIn("HALT instruction, PC: 000002", self.said(drive.boot, *made_ready(drive, [0]), attached(drive, 0, self.room, b"")))
        self.assertIn("`000002`", page())

    def test_which_boards_answer(self):
        """What SIMH shows of itself, but for the line clock: that of an 11/03 has no register."""
        said = self.said("boards", "show cpu iospace")
        shown = [(int(first, 8) & 0o177777, int(last, 8) & 0o177776)
                 for first, last, name in re.findall(r"^(177\d{5}) - (177\d{5})\*?\s+(\w+)$", said, re.MULTILINE) if name != "CLK"]
        self.assertGreater(len(shown), 10)
        stretches = []
        for first, last in sorted(shown):
            joins = stretches and stretches[-1][1] + 2 == first
            stretches = [*stretches[:-1], (stretches[-1][0], last)] if joins else [*stretches, (first, last)]
        printed = re.findall(r"^([0-7]{6}) ([0-7]{6})$", said, re.MULTILINE)
        self.is_so(printed, [(f"{first:06o}", f"{last:06o}") for first, last in stretches])

    def test_what_else_on_later_processors(self):
        for processor in LARGER:
            with self.subTest(processor):
                self.assertIn("177776 177776\n", self.said("boards", f"set cpu {processor}"))
                self.assertIn("HALT instruction, PC: 000004", self.said("zero", f"set cpu {processor}", "deposit 50-157776 123456"))

    def test_a_tu58(self):
        """At SIMH's second serial line, a port of this computer, of which SIMH takes sixty characters in a second: so on this processor alone."""
        self.assertIn("BOOTED\n", TapeAtPort(self, "11/03").said())


class TapeAtPort:
    """SIMH with a TU58 at its line at 176500. The processor waits until a character comes, by which the port is known to be connected. No break comes over
    the port; and the boot waits for as long as this computer needs."""

    WAITING = (0o105737, 0o176500, 0o100375, 0o005737, 0o176502, 0o000137, START)
    WILL_BINARY = b"\xff\xfb\x00"

    def __init__(self, case, processor):
        with socket.create_server(("127.0.0.1", 0)) as it:
            self.port = it.getsockname()[1]
        self.case, name = case, f"{processor.replace('/', '')}.sim"
        commands = ["set cpu 11/03", f"set cpu {processor}", "set dli enable", "set dli lines=1", "set dlo0 8b", f"attach dli {self.port}",
                    f"load {made(case, 'tu58')}", f"deposit {SECONDS:o} 177777",
                    *(f"deposit {0o5000 + 2 * place:o} {word:o}" for place, word in enumerate(self.WAITING)), "run 5000", "exit"]
        case.put(name, "".join(f"{it}\n" for it in commands).encode())
        self.process = subprocess.Popen(["pdp11", case.path(name)], stdin=subprocess.DEVNULL, stdout=subprocess.PIPE, stderr=subprocess.STDOUT,
                                        preexec_fn=simh.limit)
        case.addCleanup(case.let_go, self.process)
        threading.Thread(target=self.play, daemon=True).start()

    def said(self):
        """What SIMH says until it ends."""
        return self.process.communicate(timeout=LONG)[0].decode("latin-1").replace("\r", "")

    def play(self):
        """Plays the drive, behind a break, until SIMH ends."""
        drive = tu58.Drive(block_that_prints("BOOTED"))
        drive.hear_break()
        with contextlib.suppress(OSError), self.connected() as line:
            line.sendall(self.WILL_BINARY + b"?")
            while got := line.recv(64):
                for byte in got:
                    drive.take(byte)
                leaving, drive.leaving = drive.leaving, bytearray()
                line.sendall(bytes(leaving).replace(b"\xff", b"\xff\xff"))

    def connected(self):
        """A connection to SIMH, once it listens."""
        while True:
            try:
                return socket.create_connection(("127.0.0.1", self.port), LONG)
            except ConnectionRefusedError:
                time.sleep(0.01)
                if self.process.poll() is not None:
                    raise


class ChangedWords(Case):
    """Each word of each program, changed to one that does nothing: is it seen?

    Of the others the page says why not."""

    def is_seen(self, name, seen):
        """Asserts that each is, but for those that the page names."""
        told = [address for cells in rows() if len(cells) == 3 and cells[0] == f"`{name}`" for address in re.findall(r"`(\d{6})`", cells[1])]
        self.is_so((name, [f"{it:06o}" for it, word in words_of(name).items() if word != NOP and not seen(it)]), (name, sorted(told)))

    def in_simh(self, name):
        """At each drive of this kind; what is not asked there is how long a boot waits."""
        simh.ask_for(self)
        seen = set()
        for drive in (it for it in DRIVES if it.boot == name):
            questions = self.questions(drive)
            for run_, wanted in zip(ran(name, made_ready(drive, [0, drive.another]), [it for it, _ in questions], self.room), (it for _, it in questions)):
                self.is_so(self.came(run_, wanted), wanted)
            changed = [(address, it._replace(changed={**it.changed, address: NOP}), wanted)
                       for address, word in words_of(name).items() if word != NOP for it, wanted in questions]
            outcomes = ran(name, made_ready(drive, [0, drive.another]), [it for _, it, _ in changed], self.room)
            self.is_so(len(outcomes), len(changed))
            seen |= {address for it, (address, _, wanted) in zip(outcomes, changed) if self.came(it, wanted) != wanted}
        self.is_seen(name, seen.__contains__)

    def questions(self, drive):
        """Runs, and what has to come of each: two units boot, and each halt is met. Where a boot may look once alone it has to look again for a second, and
        another; where it may look for one second, and R4 begins with so many looks, that is all."""
        short = {SECONDS: 1}
        disks = {unit: attached(drive, unit, self.room, block_that_halts(unit)) for unit in (0, drive.another)}
        booted = lambda unit: ({"R0": unit, "R1": drive.control, "SP": START}, HALTED, block_that_halts(unit)[:drive.read])
        halted = lambda address: ({}, address, None)
        left = lambda unit: LEFT[drive.device](unit)
        never, reported = {CONTROL: ELSEWHERE, **short}, {**short}
        before = [f"detach {drive.device}0"]
        if drive.boot == "rk05":
            # A drive without a disk that was not to be written; and of the first a sector that it doesn't have.
            never, reported, before = {UNIT: 5, **short}, {UNIT: 0o360, **short}, ["set rk5 locked"]
        return [
            (Run({}, [disks[0], *left(0)]), booted(0)),
            (Run({UNIT: drive.another, **short}, [disks[drive.another], *left(drive.another)], 20_000), booted(drive.another)),
            (Run({CONTROL: NOWHERE, **short}, [], 20_000), halted(NOTHING_ANSWERS)),
            (Run(never, before, 20_000), halted(NEVER_CAME)),
            (Run(reported, before, 20_000), halted(REPORTED)),
        ]

    def came(self, outcome, wanted):
        """What came of a run, as far as it was wanted."""
        registers, _, block = wanted
        memory = bytes_of_words(outcome.memory)
        if outcome.registers.get("PSW", 0) & PRIORITY_7 != PRIORITY_7 or block and memory[len(block):len(block) + 2] != bytes_of_words([NOP]):
            return None
        return {it: outcome.registers.get(it) for it in registers}, outcome.halted, block and memory[:len(block)]

    def test_rk05(self):
        self.in_simh("rk05")

    def test_rl(self):
        self.in_simh("rl")

    def test_rx01(self):
        self.in_simh("rx01")

    def test_rx02(self):
        self.in_simh("rx02")

    def in_python(self, name, *questions):
        """At machines that each question makes for some changed words; it answers whether all came as it has to."""
        for ask in questions:
            self.assertTrue(ask({}), ask.__name__)
        self.is_seen(name, lambda address: not all(ask({address: NOP}) for ask in questions))

    def test_tu58(self):
        blocks = [block_that_halts(unit) for unit in (0, 1)]

        def halts(changed, drive, wanted, counter=1, kind=CrowdedLine, **more):
            machine = MachineWithBoards(counter=counter)
            if drive:
                machine.has_tape(drive, kind)
            return machine.runs("tu58", changed) == f"\r\n{wanted:06o}\r\n@" and machine

        def boots(unit, changed, counter):
            machine = halts(changed, tu58.Drive(*blocks), HALTED, counter)
            return machine and bytes_of_words(machine.words[:257]) == blocks[unit] + bytes_of_words([NOP]) and \
                (machine.registers[:2], machine.registers[6]) == ([unit, tu58.REGISTERS[0]], START)

        self.in_python(
            "tu58",
            lambda changed: boots(0, changed, 1),
            lambda changed: boots(1, {UNIT: 1, SECONDS: 1, **changed}, 20_000),
            lambda changed: halts(changed, None, NOTHING_ANSWERS),
            lambda changed: halts({SECONDS: 1, **changed}, tu58.Drive(), NEVER_CAME, 2000),
            lambda changed: halts({SECONDS: 1, **changed}, SilentDrive(), NEVER_CAME, 2000),
            lambda changed: halts(changed, tu58.Drive(*blocks), REPORTED, kind=DamagingLine),
        )

    def test_boards(self):
        """The walk of the last 512 addresses, before which an address stands that is not read; one word alone needs the whole walk."""
        first, unread = 0o2012, 0o2240

        def walks(begin, spared, others, wanted):
            def ask(changed):
                boards = Registers([*others, 0o177546, 0o177774, 0o177776])
                machine = MachineWithBoards(boards=[(boards, boards.held)])
                printed = machine.runs("boards", {first: begin, unread: spared, **changed})
                tried = [it for it in machine.computer.bus.tried if it not in PRINTING]
                return (printed, tried, boards.writes, machine.registers[6]) == \
                    (wanted, [it for it in range(begin, 0o200000, 2) if it not in (spared, *SPARED, *PRINTING)], [], START)
            return ask

        end = "177546 177546\r\n177560 177566\r\n177774 177776\r\n\r\n002076\r\n@"
        whole = walks(0o160000, SPARED[0], [0o167772], f"167772 167774\r\n{end}")
        self.in_python(
            "boards",
            walks(0o176000, 0o176000, range(0o176500, 0o176540, 2), f"176500 176536\r\n{end}"),
            lambda changed: MachineWithBoards().runs("boards", {first: 0o177000, unread: 0o177000, **changed}) == "177560 177566\r\n\r\n002076\r\n@",
            lambda changed: not changed.keys() <= {first} or whole(changed),
        )

    def test_bdv11(self):
        self.a_rom("bdv11", 2048, (0o2054, 0o2056))

    def test_rom(self):
        self.a_rom("rom", 256, (0o2032, 0o2034))

    def a_rom(self, name, count, halts):
        def copies(changed):
            rom = PagedRom()
            machine = MachineWithBoards(4096, [(rom, rom.addresses)])
            printed, first = machine.runs(name, changed), SAVED_FIRST // 2
            return printed == f"\r\n{halts[0]:06o}\r\n@" and machine.words[first:first + count] == rom.words[:count]

        def finds_none(changed):
            machine = MachineWithBoards(4096)
            return machine.runs(name, changed) == f"\r\n{halts[1]:06o}\r\n@" and machine.registers[6] == START - 4

        self.in_python(name, copies, finds_none)

    def test_zero(self):
        """Two words alone need a memory that ends where boards begin."""
        value, whole_memory = 0o22, {0o16, 0o36}

        def fills(words, number):
            def ask(changed):
                board = Registers([0o160000])
                machine = MachineWithBoards(words, [(board, board.held)], memory=0o123456)
                printed = machine.runs("zero", {value: number, **changed}, 120_000)
                own = max(words_of("zero")) // 2 + 1
                return printed == "\r\n000004\r\n@" and machine.words == [0o005041] + [0] * (own - 1) + [number] * (words - own) and not board.writes
            return ask

        whole = fills(28672, 0)
        self.in_python("zero", fills(2048, 0), fills(2048, 0o123), lambda changed: not changed.keys() <= whole_memory or whole(changed))

    def test_block_0(self):
        def prints(changed):
            return MachineWithBoards().runs("block0", changed, priority=0) == "HELLO FROM BLOCK 0\r\n\r\n000030\r\n@"

        self.in_python("block0", prints)


if __name__ == "__main__":
    unittest.main()
