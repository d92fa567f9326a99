"""The stub's words, executed: in the processor of tools/pdp11.py behind ODT, and in SIMH's PDP-11, where that is installed. What they
answer, where they halt, and what is in memory afterwards."""
import random
import unittest

import cases  # finds tools/
import lsi11
import pdp11
import simh
from stub_listing import CHUNK, HALTED, LINES, STOP, answered, behind, chunks, stub_words, typed

TOP = 0o160000

# What each word of memory holds before, and each byte of it.
BACKGROUND, BACKGROUND_BYTE = 0o125252, 0o252

PLACE = 0o157000
LARGE = [(0o1000, 0o1400), (0o1777, 0o2000), (0o3001, 0o3516)]
BEHIND = PLACE + 2 * len(stub_words(PLACE, LARGE))

# The stub's place, its stretches, and whether characters come with a parity bit.
FILLED = (
    (PLACE, LARGE, False, "three stretches with odd borders, one of a single byte"),
    (PLACE, LARGE, True, "the same with an even parity in bit 7"),
    (0o4000, LARGE, False, "the stub at another place"),
    (0o100000, LARGE, False, "and at one whose addresses have the sign"),
    (0, [(0o1000, 0o1021)], False, "at the beginning of memory"),
    (PLACE, [], False, "no stretch: it halts at once"),
    (PLACE, [(0o1000, 0o1001)], False, "a stretch of one byte, at an even address"),
    (PLACE, [(0o1001, 0o1002), (0o1002, 0o1003), (0o1003, 0o1004)], False, "and three at odd and even ones, one behind the other"),
    (PLACE, [(0o1077, 0o1101)], False, "a chunk ends between its two bytes"),
    (PLACE, [(0o1100, 0o1200)], False, "a whole chunk"),
    (PLACE, [(0, 0o20)], False, "the first bytes of memory"),
    (PLACE, [(PLACE - 3, PLACE), (BEHIND, BEHIND + 3), (TOP - 3, TOP)], False, "right before and behind the stub, and at the end of memory"),
)

# The pace at which no character is lost, in instructions, however it falls. From one look at the receiver to the next are 8 instructions
# where nothing is to be done, 15 behind a high nibble, 18 behind a low one, 16 with a low nibble that is answered, and 21 with a high
# one. A character that comes right behind a look waits for that long at most, and is fetched two instructions behind the next.
PACE = 21 + 2

NIBBLES = range(0o140, 0o160)
ILLEGAL = [character for character in range(0o200) if character not in NIBBLES]


def data_of(stretches, seed=69):
    """What is sent for stretches, by addresses: each byte value in turn, then bytes by chance."""
    chance = random.Random(seed)
    addresses = [at for first, end in stretches for at in range(first, end)]
    return {at: number if number < 256 else chance.randrange(256) for number, at in enumerate(addresses)}


def with_parity(text):
    return bytes(ord(it) | 0o200 * (ord(it).bit_count() % 2) for it in text)


def memory_with(words, place, data):
    """Memory as it has to be: the words at their place and these bytes over the background."""
    memory = bytearray([BACKGROUND_BYTE]) * TOP
    memory[place:place + 2 * len(words)] = b"".join(word.to_bytes(2, "little") for word in words)
    for address, byte in data.items():
        memory[address] = byte
    return memory


class BehindOdt:
    """The stub behind ODT, in the processor of tools/pdp11.py."""

    def __init__(self, pace):
        self.machine = lsi11.RunningMachine(character_time=pace)
        self.machine.words[:] = [BACKGROUND] * (TOP // 2)
        self.heard = ""

    def put(self, place, words):
        for number, word in enumerate(words):
            self.typed(f"{place + 2 * number:06o}/{word:06o}\r")

    def typed(self, keys):
        return "".join(self.machine.take(key) for key in keys)

    def start(self, place):
        self.heard = self.typed(f"{place:06o}G").removeprefix(f"{place:06o}G")

    def talk(self, characters, _count=None):
        """Sends characters, and hears what comes of them; returns all since the start."""
        self.heard += self.typed(characters.decode("latin-1"))
        while self.machine.is_busy:
            self.heard += self.machine.go_on()
        return self.heard

    def halted(self, address):
        """All that was heard, without the text of a halt there; none where it has not halted so."""
        text = f"\r\n{address:06o}\r\n@"
        return self.heard.removesuffix(text) if self.heard.endswith(text) else None

    def memory(self, first=0, end=TOP):
        """The bytes of words, from an even address on."""
        return b"".join(word.to_bytes(2, "little") for word in self.machine.words[first // 2:end // 2])

    def close(self):
        """There is nothing to be ended."""


class InSimh:
    """The stub in SIMH, which has no ODT."""

    def __init__(self, pace):
        self.simh, self.done, self.before = simh.Simh(pace), None, ""
        self.simh.do(f"deposit 0-{TOP - 2:o} {BACKGROUND:o}")

    def put(self, place, words):
        self.simh.do(*(f"deposit {place + 2 * number:o} {word:o}" for number, word in enumerate(words)))

    def start(self, place):
        self.before, self.said = self.simh.shown(), self.simh.place()
        self.done = self.simh.begin(f"go {place:o}")

    def talk(self, characters, count=0):
        """Sends characters, and hears so many in all since the start, which it returns."""
        self.simh.send(characters)
        return self.simh.hear(len(self.before) + count)[len(self.before):]

    def halted(self, address):
        self.simh.wait(self.done)
        has_halted = f"\nHALT instruction, PC: {address:06o}" in self.simh.said_since(self.said)
        return self.simh.shown()[len(self.before):] if has_halted else None

    def memory(self, first=0, end=TOP):
        """The bytes of words, from an even address on."""
        words = simh.words_in(self.simh.do(f"examine -o {first:o}-{end - 2:o}"))
        return b"".join(words[address].to_bytes(2, "little") for address in range(first, end, 2))

    def close(self):
        self.simh.close()


class Trials:
    """What is tried in each of the two."""

    def station(self, pace=PACE):
        made = self.kind(pace)
        self.addCleanup(made.close)
        return made

    def exchange(self, it, place, stretches, data, parity=False, sent=""):
        """Starts a stub that is there, sends these chunks, each when the one before was answered, and then characters."""
        it.start(place)
        wanted = ""
        for first, end in chunks(stretches):
            chunk = bytes(data[at] for at in range(first, end))
            wanted += answered(chunk)
            heard = it.talk(with_parity(typed(chunk)) if parity else typed(chunk).encode(), len(wanted))
            self.assertEqual(heard[:len(wanted)], wanted)
        it.talk(sent.encode("latin-1") if isinstance(sent, str) else sent, len(wanted))
        return wanted

    def test_stretches_are_filled_and_answered(self):
        for place, stretches, parity, reason in FILLED:
            with self.subTest(reason):
                it = self.station()
                words, data = stub_words(place, stretches), data_of(stretches)
                it.put(place, words)
                wanted = self.exchange(it, place, stretches, data, parity)
                self.assertEqual(it.halted(place + HALTED), wanted)
                self.assertTrue(it.memory() == memory_with(words, place, data), "memory")

    def halts_at(self, sent, fills):
        """Each illegal character, with and without bit 7, behind these; only so many bytes are filled, and answered before it halts."""
        stretch = [(0o1000, 0o1020)]
        it, words = self.station(), stub_words(PLACE, stretch)
        it.put(PLACE, words)
        for character in [*ILLEGAL, *(character | 0o200 for character in ILLEGAL)]:
            data = {0o1000 + number: (character + number) & 255 for number in range(fills)}
            front, wanted = typed(bytes(data.values())) + sent, answered(bytes(data.values()))
            it.start(PLACE)
            it.talk(front.encode() + bytes([character]), len(wanted))
            self.assertEqual(it.halted(PLACE + HALTED), wanted, f"{character:o}")
            self.assertEqual(it.memory(0o1000, 0o1000 + 2 * -(-fills // 2)), bytes(data.values()), f"{character:o}")
        self.assertTrue(it.memory() == memory_with(words, PLACE, data), "memory")

    def test_each_illegal_character_as_the_first(self):
        self.halts_at("", 0)

    def test_each_illegal_character_behind_ten_bytes(self):
        self.halts_at("", 10)

    def test_each_illegal_character_behind_a_high_nibble(self):
        self.halts_at("h", 2)

    def test_an_illegal_character_behind_a_chunk(self):
        """What was answered stays, and the next chunk is not begun."""
        for character in "Z@":
            it, words, data = self.station(), stub_words(PLACE, LARGE), data_of(LARGE)
            it.put(PLACE, words)
            wanted = self.exchange(it, PLACE, [(0o1000, 0o1060)], data, sent=character)
            self.assertEqual(it.halted(PLACE + HALTED), wanted)
            self.assertTrue(it.memory() == memory_with(words, PLACE, {at: data[at] for at in range(0o1000, 0o1060)}), "memory")

    def paced(self, pace):
        """What a stub answers to a chunk that comes at a pace."""
        data = bytes(range(CHUNK))
        it = self.station(pace)
        it.put(PLACE, stub_words(PLACE, [(0o1000, 0o1000 + CHUNK)]))
        it.start(PLACE)
        return it, answered(data), typed(data).encode()

    def test_the_pace_at_which_none_is_lost(self):
        it, wanted, sent = self.paced(PACE)
        it.talk(sent, len(wanted))
        self.assertEqual(it.halted(PLACE + HALTED), wanted)


class InTheProcessor(Trials, unittest.TestCase):
    kind = BehindOdt

    def test_no_interrupt_comes_between(self):
        it = self.station()
        it.put(PLACE, stub_words(PLACE, LARGE))
        it.start(PLACE)
        self.assertEqual(it.machine.computer.processor.upper, 0o340)

    def test_a_pace_at_which_some_are_lost(self):
        """Two characters take 33 instructions."""
        it, wanted, sent = self.paced(16)
        it.talk(sent)
        self.assertGreater(it.machine.computer.line.overrun, 0)
        self.assertLess(len(it.heard), len(wanted))
        it.talk(b"Z")
        self.assertEqual(it.halted(PLACE + HALTED), it.heard.partition("\r")[0])

    def test_no_character_is_lost_however_it_falls(self):
        """At the pace and slower, while the transmitter is ready after other times, as the clocks of a line's ends differ."""
        chance, data = random.Random(86), bytes(range(256))
        for number in range(20):
            it = self.station(chance.randrange(PACE - 8, 60))
            it.put(PLACE, stub_words(PLACE, [(0o1000, 0o1400)]))
            it.start(PLACE)
            computer = it.machine.computer
            for character in typed(data).encode():
                computer.arrive(character)
                it.heard += computer.run(PACE + chance.randrange(number + 1)).decode()
            it.talk(b"")
            self.assertEqual((it.heard[:512], computer.line.overrun), (answered(data), 0))

    def test_one_that_comes_too_early(self):
        """Behind the look before a high nibble is answered one comes, and a second so many instructions later."""
        for pace, overrun in ((PACE, 0), (PACE - 1, 1)):
            it = self.station()
            it.put(PLACE, stub_words(PLACE, [(0o1000, 0o1400)]))
            it.start(PLACE)
            it.talk(b"a")
            computer = it.machine.computer
            computer.arrive(ord("b"))
            while computer.processor.registers[pdp11.PC] != PLACE + behind("tstb @#177560") or computer.processor.registers[0] != 0o1001:
                computer.execute()
            for character in b"cd":
                computer.arrive(character)
                computer.run(pace)
            self.assertEqual(computer.line.overrun, overrun)

    def test_characters_that_come_behind_a_stretch(self):
        """They are not fetched before all of it is answered: the last of them is the next stretch's first nibble, the others are lost."""
        it, data = self.station(), bytes(range(0o20))
        it.put(PLACE, stub_words(PLACE, [(0o1000, 0o1020), (0o1020, 0o1021)]))
        it.start(PLACE)
        it.talk(typed(data).encode() + b"bZZa")
        it.talk(b"c")
        self.assertEqual(it.halted(PLACE + HALTED), answered(data + b"\x13"))
        self.assertEqual(it.machine.computer.line.overrun, 3)

    def test_a_halted_machine_takes_what_the_receiver_holds(self):
        """It is ODT's next key: here a digit, and then a slash that finds a number."""
        it, wanted, sent = self.paced(PACE)
        it.talk(sent + b"10")
        it.talk(b"/")
        self.assertEqual(it.heard, f"{wanted}\r\n{PLACE + HALTED:06o}\r\n@0/{BACKGROUND:06o} ")

    def test_a_byte_for_memory_that_is_not_there(self):
        """It would trap through 000004, but SP leads to no stack: the machine halts behind the instruction, as an LSI-11 does."""
        it = self.station()
        it.machine.words[:] = [0] * 4096
        it.put(0o10000, stub_words(0o10000, [(0o17777, 0o20001)]))
        self.exchange(it, 0o10000, [(0o17777, 0o20000)], {0o17777: 0o101})
        it.talk(b"aa")
        self.assertEqual(it.halted(0o10000 + behind("movb r3,(r0)+")), answered(b"\x41"))

    def test_the_halt_switch(self):
        """The machine halts before the stub has done anything."""
        it = self.station()
        it.machine.has_halt_switch_on = True
        it.put(PLACE, stub_words(PLACE, LARGE))
        it.start(PLACE)
        self.assertEqual(it.halted(PLACE), "")


class InSimhs(Trials, unittest.TestCase):
    kind = InSimh

    def setUp(self):
        simh.ask_for(self)

    def test_a_pace_at_which_some_are_lost(self):
        it, wanted, sent = self.paced(16)
        it.talk(sent)
        self.assertLess(len(it.simh.hear_more(0.5)), len(it.before) + len(wanted))

    def test_the_words_are_those_of_the_instructions(self):
        """SIMH's own assembler makes the same words of the listing."""
        it, at, names = self.station().simh, PLACE, {"table": PLACE + HALTED}
        for words, label, _ in LINES:
            names.update({label: at} if label else {})
            at += 2 * len(words)
        at, told = PLACE, []
        for words, _, instruction in LINES:
            for name, address in names.items():
                instruction = instruction.replace(f" {name}", f" {address:o}").replace(f"#{name}", f"#{address:o}")
            told.append(f"deposit -m {at:o} {instruction}")
            at += 2 * len(words)
        held = simh.words_in(it.do(*told, f"examine -o {PLACE:o}-{PLACE + STOP:o}"))
        self.assertEqual([held[PLACE + 2 * number] for number in range(len(held))], stub_words(PLACE, [])[:-1])


if __name__ == "__main__":
    unittest.main()
