"""`ldaodt load --fast` where something happens: bad memory, the HALT switch, lost characters, kills, losses of power, a full disk, a
second load. After each life it is judged at the machine: each word of the record stands, outside the image memory is what it was,
and the program was started once at most, over the whole image."""
import errno
import subprocess
import threading
import time
import unittest
from concurrent.futures import ThreadPoolExecutor

from cases import DeafConsole
from fast_cases import (ALL, BACKGROUND, EXCHANGED, GAIN, HALTED, IMAGE, MOST_IN_VAIN, ONE_STRETCH, PLACE, START, STARTED, WHOLE, WORDS,
                        FastCase, FastConsole, Model, StuckWords, TrappingConsole, WatchedPeer, ahead, memory_with, pushed_at, record_of)
from outside import PROGRAM, Answer, fault, kept_in, line_failed, text_of
from stub_listing import AHEAD, CHUNK

# Loads at a time, in each of the tests that do many.
AT_ONCE = 4

# How many characters a chunk has, both ways together, and how many words.
PASSED, FILLED = 4 * CHUNK, CHUNK // 2


def spread(first, end, count):
    """So many numbers from one up to another, which is excluded: the first two, the last two, and others between."""
    between = [first + (end - first) * number // (count - 3) for number in range(1, count - 3)]
    return [first, first + 1, *between, end - 2, end - 1]


class Load:
    """A machine behind a port, and the loads of it with one record, one after another."""

    def __init__(self, case, name, **named):
        self.case, self.record = case, f"{name}.record"
        self.machine = FastConsole(IMAGE, **named)
        self.peer = WatchedPeer(self.machine)
        self.earlier = 0
        case.addCleanup(self.peer.close)

    def lives(self, options="--fast", killed_at=None, loses_power=False):
        """A life, killed before the character with a number passes, if one is given; it is judged. Returns its answer."""
        words = ["load", "a.lda", self.peer.name, "--quiet", str(self.case.quiet), "--record", self.record, *options.split()]
        begun, processes = threading.Event(), []

        def kill():
            begun.wait()
            # What was sent before has arrived by then.
            time.sleep(0.02)
            processes[0].kill()
            if loses_power:
                self.machine.lose_power()

        if killed_at is not None:
            self.machine.at = {self.machine.passed() + killed_at: kill}
        processes.append(subprocess.Popen([PROGRAM, *words], cwd=self.case.room, stdin=subprocess.DEVNULL, stdout=subprocess.PIPE, stderr=subprocess.PIPE))
        begun.set()
        out, err = processes[0].communicate(timeout=300)
        self.peer.settle()
        self.machine.at = {}
        if not loses_power:
            self.case.is_right(self.machine, self.record)
        return Answer(processes[0].returncode, text_of(out), text_of(err))

    def comes_to_its_end(self, options="--fast", end="Started"):
        """A life that is not killed, behind which memory and record are whole."""
        given = self.lives(options)
        counted = f" verified {len(WORDS)} of {len(WORDS)}\nend {end}\n"
        if given.status != (0 if end == "Started" else 6) or not given.out.endswith(counted) or given.err:
            self.case.fail(f"{given}")
        self.case.is_so(self.case.recorded(self.record), WHOLE)
        self.case.is_so(list(self.machine.words), memory_with(IMAGE, 4096))
        self.case.is_so(self.machine.starts.count(START), 1)


class SmallLoads(FastCase):
    """Loads of that image."""

    def setUp(self):
        super().setUp()
        # Several machines are answered at the same time.
        self.quiet = max(self.quiet, 300)
        self.put_tape("a.lda", IMAGE)

    def each(self, story, rows):
        """Tells a story for each row, some at a time: of the row's number and what stands in it."""
        def told(number_and_row):
            try:
                story(*number_and_row)
                return None
            except Exception as wrong:
                return f"{number_and_row}: {wrong}"
        with ThreadPoolExecutor(AT_ONCE) as pool:
            self.is_so([it for it in pool.map(told, enumerate(rows)) if it], [])

    def goes_on(self, peer):
        """The next load with the record comes to its end."""
        given = self.load(peer, "a.lda --fast --record a.record")
        self.is_so((given.status, given.err, self.recorded()), (0, "", WHOLE))
        self.is_right(peer.machine)


class BadMemory(SmallLoads):
    """Words of which a bit does not hold."""

    def is_loaded(self, stuck, end, stubs, why="too few words"):
        """Loads where bits are stuck, and asserts how that ends, and how many stubs were started."""
        self.put("a.record", b"")
        peer = self.console_at(FastConsole(IMAGE, stuck=stuck))
        model = Model(WORDS, StuckWords([BACKGROUND] * 4096, stuck)).fast()
        self.went_as(model, peer, self.load(peer, "a.lda --fast --record a.record"))
        self.is_right(peer.machine)
        self.is_so((model.end, len(model.stubs), model.why), (end, stubs, why))

    def wrong_bit(self, address, bit=0o10):
        """A bit of a word that is not what the image has there."""
        word = memory_with(IMAGE, 4096)[address // 2]
        return {address: (bit, ~word & bit)}

    def test_in_a_chunk(self):
        """The words of the chunks before it are verified by the first stub, and nothing by three more; ODT finds it out. In the last
        chunk of all the stub has halted by then, since its last byte was sent."""
        for address, bit in ((START + 0o106, 0o10), (START + 0o110, 0o200), (START + 0o176, 0o100000)):
            self.is_loaded(self.wrong_bit(address, bit), f"WontHold {address:06o}", 4, None)
        self.is_loaded(self.wrong_bit(PLACE - 4), f"WontHold {PLACE - 4:06o}", 1)

    def test_in_the_first_chunk(self):
        self.is_loaded(self.wrong_bit(START), f"WontHold {START:06o}", 3, None)

    def test_in_the_stubs_place(self):
        """No stub is started. The load ends as one without the option: well, where the image's own word holds."""
        stub, image = Model(WORDS, [BACKGROUND] * 4096), memory_with(IMAGE, 4096)
        stub.bring_in(ahead)
        for address in (PLACE, PLACE + 0o10, PLACE + 2 * ONE_STRETCH - 2):
            bit = next(1 << number for number in range(16) if (stub.memory[address // 2] ^ image[address // 2]) >> number & 1)
            stuck = {address: (bit, image[address // 2] & bit)}
            self.is_loaded(stuck, "Started", 0, "the stub did not start")
        self.is_loaded(self.wrong_bit(PLACE + 4), f"WontHold {PLACE + 4:06o}", 0, "the stub did not start")

    def test_in_a_sounding(self):
        """The last word before the window. A person is told."""
        stuck = self.wrong_bit(PLACE - 2)
        self.is_loaded(stuck, f"WontHold {PLACE - 2:06o}", 0, "the stub did not start")
        peer = self.console_at(FastConsole(IMAGE, stuck=stuck))
        _, told = self.at_a_terminal(lambda terminal: self.load(peer, stderr=terminal))
        self.assertIn("the stub did not start", told)

    def test_the_halt_switch(self):
        """Three stubs halt before they have taken anything, and the rest is typed. A person is told."""
        def halting():
            peer = self.console_at(FastConsole(IMAGE))
            peer.machine.has_halt_switch_on = True
            return peer
        model, peer = Model(WORDS, [BACKGROUND] * 4096, halting=MOST_IN_VAIN).fast(), halting()
        self.went_as(model, peer, self.load(peer))
        self.is_so((model.end, peer.machine.starts), ("Started", [PLACE] * 3 + [START]))
        peer = halting()
        _, told = self.at_a_terminal(lambda terminal: self.load(peer, stderr=terminal))
        self.assertIn("--fast did not serve: three stubs took no word: is the HALT switch at ENABLE?", told)


class Traps(SmallLoads):
    """A stub's start that traps, and pushes two words: an interrupt that comes before its first instruction, a HALT that traps. Behind
    such stubs samples of all words that count as verified are looked at again, before anything is typed that stores or starts."""

    # The record has so many words.
    RECORDED = 20

    def trapped(self, stack, recorded=RECORDED):
        """A load with a record at a machine whose stack is there; returns its model, the peer and the answer."""
        self.put("a.record", record_of(WORDS[:recorded]).encode())
        machine = TrappingConsole(IMAGE, stack)
        for address, _, value in WORDS[:recorded]:
            machine.words[address // 2] = value
        peer = self.console_at(machine)
        model = Model(WORDS, list(machine.words), verified=recorded, halting=MOST_IN_VAIN, pushed=pushed_at(stack))
        model.fast()
        return model, peer, self.load(peer, "a.lda --fast --record a.record")

    def test_a_verified_word_is_pushed_over(self):
        """The first, one of the others that are looked at, the last; the first of two that are hurt is told. No program is started, the
        record is what it was, and a load that looks at each word again gets over it."""
        for address in (START, START + 2 * 10, START + 2 * (self.RECORDED - 1)):
            model, peer, given = self.trapped(address + 2)
            self.went_as(model, peer, given, "ldaodt: memory does not hold what the record says: load with --recheck\n")
            self.is_so((model.end, peer.machine.starts), (f"Stale {address:06o}", [PLACE] * MOST_IN_VAIN))
            self.is_so((model.keys[-1], self.recorded()), ("\r", record_of(WORDS[:self.RECORDED])))
            peer.machine.stack = START - 0o100
            given = self.load(peer, "a.lda --fast --record a.record --recheck")
            self.is_so((given.status, given.err, self.recorded()), (0, "", WHOLE))

    def test_no_verified_word_is_pushed_over(self):
        """Below the image, behind it, and over words that are not verified yet: the load goes on and starts the program."""
        for stack in (START, PLACE + 2 * ONE_STRETCH + 4, START + 2 * self.RECORDED + 4):
            model, peer, given = self.trapped(stack)
            self.went_as(model, peer, given)
            self.is_so((model.end, peer.machine.starts), ("Started", [PLACE] * MOST_IN_VAIN + [START]))
            self.is_so(self.recorded(), WHOLE)

    def test_no_word_is_verified(self):
        """There is none to look at behind the stubs, and before them the highest alone."""
        model, peer, given = self.trapped(START + 4, recorded=0)
        self.went_as(model, peer, given)
        self.is_so((model.end, model.keys.count("Z")), ("Started", 1 + 2 * MOST_IN_VAIN + 1))


class Losses(SmallLoads):
    """Every single lost character is survived; here some, of each part and at each border. Behind the start's key or its echo nobody
    knows whether the program runs."""

    def loses(self, numbers):
        def story(_, lost):
            it = Load(self, f"{lost}", lost=[lost])
            if lost < ALL - 2:
                it.comes_to_its_end()
                # Where the stub's own start or its echo is lost, nothing is exchanged, and all is typed.
                self.is_so(PLACE in it.machine.starts, lost != STARTED - 2)
                self.is_so(any(nibble in it.machine.typed for nibble in "`abcdefghijklmno"), lost not in (STARTED - 2, STARTED - 1))
                return
            given = it.lives()
            self.is_so((given.status, given.out[-14:], self.recorded(it.record)), (6, "end Uncertain\n", WHOLE))
            self.is_so(it.machine.starts.count(START), lost - (ALL - 2))
        self.each(story, numbers)

    def test_while_the_stub_is_typed(self):
        self.loses(spread(0, STARTED, 14))

    def test_in_the_exchange(self):
        self.loses(spread(STARTED, EXCHANGED, 14))

    def test_at_the_borders_of_chunks(self):
        """The first two keys of one, which nothing is answered before, and the first answer; its last key, the last two answers, and the
        first key of the next; and of the last chunk the first key, the last one and the last answer."""
        first = STARTED + PASSED * 5
        behind = first + PASSED
        rest = 4 * (2 * GAIN % CHUNK)
        self.loses([first, first + 1, first + 2, behind - 3, behind - 2, behind - 1, behind, EXCHANGED - rest, EXCHANGED - 3, EXCHANGED - 1])

    def test_in_the_text_of_the_halt(self):
        self.loses(spread(EXCHANGED, HALTED, 5))

    def test_in_the_last_part(self):
        self.loses(spread(HALTED, ALL, 14))

    def test_each_part_has_a_patience_of_its_own(self):
        """One mishap is survived while the stub is typed, and one behind it. Where none is survived there, all is typed."""
        for patience, lost, stubs, spent in ((1, (100, HALTED + 400), [PLACE], 2), (0, (100,), [], 0)):
            it = Load(self, f"{patience}", lost=lost)
            given = it.lives(f"--fast --patience {patience}")
            self.is_so((given.status, given.out.split(" ", 2)[2]), (0, f"spent {spent} verified {len(WORDS)} of {len(WORDS)}\nend Started\n"))
            self.is_so((it.machine.starts, self.recorded(it.record)), ([*stubs, START], WHOLE))

    def test_a_console_that_answers_nothing(self):
        """The look at the highest word gives up, and nothing comes behind it."""
        peer = self.console_at(DeafConsole())
        given = self.load(peer, "a.lda --fast --patience 2")
        self.ends(given, 5, f"sent 3 spent 2 verified 0 of {len(WORDS)}\nend GaveUp\n")
        self.is_so(peer.machine.typed, "Z" * 3)


class Kills(SmallLoads):
    """Loads that are killed and begun again with the same record, with the option and without it."""

    def is_survived(self, numbers):
        """A load that is killed there, and one that comes to its end, by turns with the option and without it."""
        def story(number, killed_at):
            it = Load(self, f"{killed_at}")
            self.is_so(it.lives(killed_at=killed_at).status, -9)
            it.comes_to_its_end("--fast" if number % 2 else "")
            # The first brought in a stub if the machine had its start.
            self.is_so(PLACE in it.machine.starts, killed_at >= STARTED - 2 or number % 2 == 1)
        self.each(story, numbers)

    def test_while_the_stub_is_typed(self):
        self.is_survived(spread(0, STARTED, 8))

    def test_in_the_exchange(self):
        self.is_survived([*spread(STARTED, EXCHANGED, 7), STARTED + 2, STARTED + PASSED - 3, STARTED + PASSED - 1, STARTED + PASSED])

    def test_in_the_last_part(self):
        self.is_survived([*spread(EXCHANGED, HALTED, 4), *spread(HALTED, ALL - 2, 6)])

    def test_at_the_start(self):
        """Before the machine has its key, and before its echo: no later load types it again."""
        def story(number, killed_at):
            it = Load(self, f"{killed_at}")
            it.lives(killed_at=killed_at)
            self.is_so(it.machine.starts, [PLACE, START])
            typed = it.machine.typed
            given = it.lives("--fast" if number else "")
            self.is_so((given.status, given.out), (6, f"sent 0 spent 0 verified {len(WORDS)} of {len(WORDS)}\nend MaybeStarted\n"))
            self.is_so((it.machine.typed, self.recorded(it.record)), (typed, WHOLE))
        self.each(story, [ALL - 2, ALL - 1])

    def test_lives_in_a_row(self):
        """Each killed in another part than the one before: a stub that waits is halted by whoever comes next."""
        fast, plain = "--fast", ""
        rows = (
            ((fast, STARTED + 200), (fast, 30), (plain, 100), (fast, STARTED - 1)),
            ((fast, STARTED - 1), (fast, STARTED - 1), (plain, 200), (fast, 4)),
            ((fast, STARTED + 40), (plain, 5), (fast, 6), (plain, 7), (fast, 8)),
            ((fast, EXCHANGED - 1), (fast, HALTED - EXCHANGED), (plain, 300)),
        )
        def story(number, kills):
            it = Load(self, f"{number}")
            for options, killed_at in kills:
                it.lives(options, killed_at)
            it.comes_to_its_end()
            self.assertIn(PLACE, it.machine.starts)
        self.each(story, rows)

    def test_a_look_at_a_machine_on_which_a_stub_waits(self):
        """It halts the stub and changes nothing; the load then goes on."""
        it = Load(self, "a")
        it.lives(killed_at=STARTED + PASSED * 3 + 5)
        words = list(it.machine.words)
        given = self.ldaodt(["verify", "a.lda", it.peer.name, "--quiet", str(self.quiet)])
        it.peer.settle()
        differ = sum(words[address // 2] != value for address, _, value in WORDS)
        self.is_so((given.status, given.err), (1, ""))
        self.assertTrue(given.out.endswith(f" looked {len(WORDS)} of {len(WORDS)} differ {differ}\nend Differs\n"), given.out[-200:])
        self.is_so(list(it.machine.words), words)
        it.comes_to_its_end()

    def test_a_whole_record_and_each_word_looked_at_again(self):
        """The stub lies in words that the old record has: it is begun anew before the first key that may store."""
        def story(_, killed_at):
            it = Load(self, f"{killed_at}")
            self.is_so(it.lives("--fast --no-start").status, 0)
            self.is_so(kept_in(self.path(it.record)), ([tuple(word) for word in WORDS], False))
            self.is_so(it.machine.starts, [PLACE])
            it.lives("--fast --recheck", killed_at)
            it.comes_to_its_end("--fast" if killed_at % 2 else "")
        # The look at the highest word, and the sounding, which stands: 1 + 4 + 25 characters each, before the stub's first word.
        self.each(story, [1, 31, 61, 100, STARTED - 37 - 2, STARTED + 300])


class Power(SmallLoads):
    """The machine loses its power, and the host is gone, too: what comes then looks at each word again."""

    def test_power_is_lost(self):
        def story(number, killed_at):
            it = Load(self, f"{killed_at}")
            it.lives(killed_at=killed_at, loses_power=True)
            it.comes_to_its_end("--recheck --fast" if number % 3 else "--recheck")
            self.is_so(PLACE in it.machine.starts, killed_at >= STARTED - 2 or number % 3 > 0)
        self.each(story, [100, STARTED - 1, STARTED, STARTED + 500, EXCHANGED, HALTED + 100, ALL - 10])

    def test_power_is_lost_while_the_host_goes_on(self):
        """In the exchange. As of every load, what was verified before is believed and gone; nothing starts but stubs and the program."""
        peer = WatchedPeer(FastConsole(IMAGE))
        self.addCleanup(peer.close)
        peer.address = peer.name
        peer.machine.at = {STARTED + PASSED * 3: peer.machine.lose_power}
        given = self.load(peer)
        self.is_so((given.status, given.out[-33:]), (0, f" verified {len(WORDS)} of {len(WORDS)}\nend Started\n"))
        wanted = memory_with(IMAGE, 4096)
        wanted[START // 2:START // 2 + FILLED * 3] = [BACKGROUND] * FILLED * 3
        self.is_so(list(peer.machine.words), wanted)


class Lines(SmallLoads):
    """A line that breaks, and the load that comes after it."""

    def test_a_line_that_breaks(self):
        for close_after, verified in ((100, 0), (STARTED + PASSED * 3, FILLED * 3), (STARTED + PASSED * 3 + 40, FILLED * 3), (HALTED + 200, None)):
            peer = self.console_at(FastConsole(IMAGE), close_after=close_after)
            given = self.load(peer, "a.lda --fast --record a.record")
            self.is_so((given.status, given.out.split("\n")[1:], given.err), (4, ["end LineFailed", ""], line_failed("closed")))
            kept, _ = kept_in(self.path("a.record"))
            self.is_so(f" verified {len(kept)} of {len(WORDS)}\n" in given.out, True)
            self.is_so(len(kept) if verified is not None else len(kept) > GAIN, verified if verified is not None else True)
            self.is_right(peer.machine)
            peer.close_after = None
            self.goes_on(peer)
            self.put("a.record", b"")


class Records(SmallLoads):
    """A disk that becomes full, and a second load with the same record."""

    def test_a_disk_that_becomes_full(self):
        """Behind the header; and in the exchange, in which a chunk's words are kept before the next chunk is sent."""
        for size in (9, 9 + 6 + 7 * 3, 9 + 119 * 5, 9 + 119 * 5 + 50):
            peer = self.console_at(FastConsole(IMAGE))
            with self.subTest(size):
                given = self.load(peer, "a.lda --fast --record a.record", file_size=size)
                self.is_so((given.status, given.out.split("\n")[1:], given.err), (4, ["end KeepFailed", ""], fault("cannot write a.record", errno.EFBIG)))
                self.is_so((peer.machine.starts, len(self.recorded())), ([PLACE], size))
                sent, verified = int(given.out.split()[1]), int(given.out.split()[5])
                kept, _ = kept_in(self.path("a.record"))
                self.assertTrue(len(kept) < verified <= len(kept) + FILLED, (given.out, len(kept)))
                self.assertTrue(len(peer.machine.typed) < sent <= len(peer.machine.typed) + AHEAD, given.out)
                self.is_right(peer.machine)
                self.goes_on(peer)
            self.put("a.record", b"")

    def test_a_disk_that_is_full(self):
        """Nothing is typed but the look at the highest word."""
        peer = self.console_at(FastConsole(IMAGE))
        self.ends(self.load(peer, "a.lda --fast --record a.record", file_size=0), 4, "", fault("cannot write a.record", errno.EFBIG))
        peer.settle()
        self.is_so(peer.machine.typed, f"Z{WORDS[-1].address:06o}/\r")

    def test_a_second_load(self):
        """It says that the record is in use, and has no connection, whatever the first is at."""
        self.quiet = max(self.quiet, 1000)
        peer = WatchedPeer(FastConsole(IMAGE))
        self.addCleanup(peer.close)
        peer.address, given = peer.name, []
        second = lambda: given.append(self.ldaodt(["load", "a.lda", peer.name, "--fast", "--record", "a.record"]))
        peer.machine.at = {number: second for number in (0, STARTED - 1, STARTED, STARTED + 40, HALTED, ALL - 1)}
        model = Model(WORDS, [BACKGROUND] * 4096).fast()
        self.went_as(model, peer, self.load(peer, "a.lda --fast --record a.record"))
        self.is_so(given, [Answer(4, "", "ldaodt: record in use: a.record\n")] * 6)
        self.is_so((peer.connections, self.recorded()), (1, WHOLE))


if __name__ == "__main__":
    unittest.main()
