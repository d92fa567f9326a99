"""`ldaodt load --fast` over lines that lose nothing: what is typed, what is then in memory, what is reported and recorded; where no stub
serves; and how many characters pass. The model of fast_cases.py says each key."""
import os
import unittest
from concurrent.futures import ThreadPoolExecutor

from cases import LONG_QUIET, RunningConsole
from fast_cases import (BACKGROUND, GREETING, GREETING_TEXT, LEAST_GAIN, LEAST_STUB, ONE_STRETCH, START, FastCase, FastConsole, Model, bytes_at,
                        image_of, memory_with, record_of, stretches_of, words_of)
from programs import WAITING, placed
from stub_listing import CHUNK

THOUSAND = image_of(1000)

# What is shown behind a program that halts at 001024.
HALTED_TEXT = "\r\n001026\r\n@"


class TalkativeConsole(RunningConsole):
    """At a HALT it prints more than an address, and eight digits of that."""

    def halted(self):
        return "\r\nHALT 00" + super().halted().removeprefix("\r\n")


class Served(FastCase):
    """Loads of some 1,000 words by stubs."""

    def setUp(self):
        super().setUp()
        self.put_tape("a.lda", THOUSAND)

    def model(self, image=THOUSAND, memory=None, words=4096, **named):
        return Model(words_of(image), list(memory or [BACKGROUND] * words), **named)

    def test_a_load(self):
        """At a port and at a device. The program runs. An answer among so many that is late is no mishap: the quiet time is long."""
        for line in self.lines(lambda: FastConsole(THOUSAND)):
            model = self.model().fast()
            self.went_as(model, line, self.load(line, quiet=LONG_QUIET))
            self.is_so(list(line.machine.words), memory_with(THOUSAND, 4096))
            self.is_so(line.machine.run_on(), "G" + GREETING_TEXT + HALTED_TEXT)
            self.is_so((model.stubs, model.end), ([START + 2 * (1000 - ONE_STRETCH)], "Started"))
        self.is_so(os.listdir(self.room), ["a.lda"])

    def test_a_tape_of_many_stretches(self):
        """Twenty of a hundred words each, and behind them one in which the stub lies."""
        image = image_of(100)
        for number in range(1, 21):
            image.update(image_of(100 + 50 * (number == 20), START + 0o1000 * number, ()))
        self.put_tape("a.lda", image)
        peer = self.console_at(FastConsole(image, words=8192))
        model = self.model(image, words=8192).fast()
        self.went_as(model, peer, self.load(peer))
        self.is_so((len(model.stubs), len(stretches_of(words_of(image)))), (1, 21))

    def test_a_longer_text_at_a_halt(self):
        """It does no harm where the stub halts: the same is typed as at any other console."""
        peers = [self.console_at(it) for it in (RunningConsole(), TalkativeConsole())]
        plain, given = (self.load(it) for it in peers)
        self.is_so((given, peers[1].machine.typed, len(peers[1].machine.starts)), (plain, peers[0].machine.typed, 2))
        self.is_so(given.out.split(" ", 4)[4], "verified 1000 of 1000\nend Started\n")

    def test_a_record(self):
        """It has every word, and the mark; another load types nothing."""
        peer = self.console_at(FastConsole(THOUSAND))
        model = self.model().fast()
        self.went_as(model, peer, self.load(peer, "a.lda --fast --record a.record"))
        self.is_so(self.recorded(), record_of(words_of(THOUSAND), mark=True))
        for option in ("", " --recheck"):
            given = self.load(peer, "a.lda --fast --record a.record" + option)
            self.ends(given, 6, "sent 0 spent 0 verified 1000 of 1000\nend MaybeStarted\n")
        self.is_so((peer.machine.typed, peer.connections), (model.keys, 1))

    def test_it_goes_on_behind_a_record(self):
        """Eight of the words that it has are looked at, and the tape's highest, and the others believed: a stub fills those behind
        them. Half of the first chunk is among these."""
        for verified in (1, 300, 300 + CHUNK // 4, 1000 - ONE_STRETCH - LEAST_GAIN):
            self.put("a.record", record_of(words_of(THOUSAND)[:verified]).encode())
            places = {it * (verified - 1) // 7 for it in range(8)}
            memory = [BACKGROUND] * 4096
            for place in places:
                memory[START // 2 + place] = words_of(THOUSAND)[place].value
            peer = self.console_at(FastConsole(THOUSAND))
            peer.machine.words.set_all(memory)
            model = self.model(memory=memory, verified=verified).fast()
            self.went_as(model, peer, self.load(peer, "a.lda --fast --record a.record"))
            self.is_so((len(model.stubs), self.recorded()), (1, record_of(words_of(THOUSAND), mark=True)))
            believed = [peer.machine.words[START // 2 + it] for it in range(verified) if it not in places]
            self.is_so(set(believed) - {BACKGROUND}, set())

    def test_recheck(self):
        """Nothing of the record is believed: a machine that lost its memory gets all of it."""
        self.put("a.record", record_of(words_of(THOUSAND)[:700]).encode())
        peer = self.console_at(FastConsole(THOUSAND))
        model = self.model().fast()
        self.went_as(model, peer, self.load(peer, "a.lda --fast --record a.record --recheck"))
        self.is_so((len(model.stubs), self.recorded()), (1, record_of(words_of(THOUSAND), mark=True)))
        self.is_so(list(peer.machine.words), memory_with(THOUSAND, 4096))

    def test_no_start(self):
        """A later load with the record looks at eight words and types the start alone, and brings in no stub."""
        peer = self.console_at(FastConsole(THOUSAND))
        model = self.model(start=None).fast()
        self.went_as(model, peer, self.load(peer, "a.lda --fast --no-start --record a.record"))
        self.is_so((model.end, self.recorded()), ("Loaded", record_of(words_of(THOUSAND))))
        for words in ("a.lda --fast --no-start --record a.record", "a.lda --fast --record a.record"):
            given = self.load(peer, words)
        self.ends(given, 0, "sent 73 spent 0 verified 1000 of 1000\nend Started\n")
        looks = self.model(verified=1000).looking_first().keys
        self.is_so((peer.machine.typed, peer.connections), (model.keys + looks + "Z001000G", 2))
        self.is_so(self.recorded(), record_of(words_of(THOUSAND), mark=True))

    def test_another_start(self):
        """Of what the tape has, and of what was in memory before: here both halt at once."""
        for start in (0o1024, 0o6000):
            memory = [BACKGROUND] * 4096
            memory[0o6000 // 2] = 0
            peer = self.console_at(FastConsole(THOUSAND, start=start))
            peer.machine.words.set_all(memory)
            model = self.model(memory=memory, start=start).fast()
            self.went_as(model, peer, self.load(peer, f"a.lda --fast --start {start:o}"))
            self.is_so(model.keys[-7:], f"{start:06o}G")
            self.is_so(peer.machine.run_on(), f"G\r\n{start + 2:06o}\r\n@")

    def test_listening(self):
        """What the program prints, and nothing that was answered before, follows the report."""
        peer = self.console_at(FastConsole(THOUSAND))
        given = self.load(peer, "a.lda --fast --listen 1")
        self.ends(given, 0, self.model().fast().report() + GREETING_TEXT + HALTED_TEXT)

    def test_each_style(self):
        """Of consoles that are there at the same time."""
        image = image_of(400)
        self.put_tape("a.lda", image)
        peers = [self.console_at(FastConsole(image, style=style)) for style in range(8)]
        with ThreadPoolExecutor(4) as pool:
            for style, (peer, given) in enumerate(zip(peers, pool.map(self.load, peers))):
                with self.subTest(style):
                    self.went_as(self.model(image, style=style).fast(), peer, given)
                    self.is_so(list(peer.machine.words), memory_with(image, 4096))

    def test_a_program_that_is_loaded_already(self):
        """Each sounding stands; in the window the stub's words replace the image's, and are replaced again."""
        peer = self.console_at(FastConsole(THOUSAND))
        peer.machine.words.set_all(memory_with(THOUSAND, 4096))
        model = self.model(memory=memory_with(THOUSAND, 4096)).fast()
        self.went_as(model, peer, self.load(peer))
        self.is_so(list(peer.machine.words), memory_with(THOUSAND, 4096))


class Images(FastCase):
    """Tapes of other forms."""

    def test_several_tapes(self):
        """They are one image of three stretches, of which the last has the window. Of what lies on the same bytes the last counts."""
        pieces = [image_of(words, first) for first, words in ((0o2000, 150), (0o4000, 170), (0o6000, 90))]
        over = bytes_at(placed(WAITING, 0o4000))
        names = ["a.lda", "b.lda", "c.lda", "d.lda"]
        for name, image in zip(names, [*pieces, over]):
            self.put_tape(name, image, 0o4000 if name == "d.lda" else 1)
        image = {at: byte for one in [*pieces, over] for at, byte in one.items()}
        peer = self.console_at(FastConsole(image, start=0o4000))
        model = Model(words_of(image), [BACKGROUND] * 4096, start=0o4000).fast()
        self.is_so(model.stubs, [0o6000 + 2 * (90 - LEAST_STUB - 2 * 3)])
        given = self.ldaodt(["load", names[0], peer.address, *names[1:], "--fast", "--quiet", str(self.quiet)])
        peer.settle()
        self.went_as(model, peer, given)
        self.is_so(list(peer.machine.words), memory_with(image, 4096))

    def test_half_words(self):
        """At odd borders of stretches, and words of which the tape has one byte alone, before the window and behind it. The other
        bytes of these words stay what they were."""
        image = image_of(600)
        for missing in (0o1100, 0o1203, 0o1204, 0o1205, 0o1777, 0o2000):
            del image[missing]
        image.update({0o4001: 0o101, 0o4011: 0o102, 0o4020: 0o103})
        self.put_tape("a.lda", image)
        peer = self.console_at(FastConsole(image))
        model = Model(words_of(image), [BACKGROUND] * 4096).fast()
        self.went_as(model, peer, self.load(peer, "a.lda --fast --record a.record"))
        self.is_so(list(peer.machine.words), memory_with(image, 4096))
        self.is_so((len(model.stubs), self.recorded()), (1, record_of(words_of(image), mark=True)))

    def test_the_last_words_of_memory(self):
        """The stub lies there."""
        start = 0o160000 - 1000
        image = image_of(500, start, WAITING)
        self.put_tape("a.lda", image, start)
        peer = self.console_at(FastConsole(image, start=start, words=28672))
        model = Model(words_of(image), [BACKGROUND] * 28672, start=start).fast()
        self.went_as(model, peer, self.load(peer))
        self.is_so(model.stubs, [0o160000 - 2 * ONE_STRETCH])
        self.is_so(list(peer.machine.words), memory_with(image, 28672))

    def test_the_first_words_of_memory(self):
        image = image_of(400, 0, WAITING)
        self.put_tape("a.lda", image, start=0)
        peer = self.console_at(FastConsole(image, start=0))
        model = Model(words_of(image), [BACKGROUND] * 4096, start=0).fast()
        self.went_as(model, peer, self.load(peer))
        self.is_so((len(model.stubs), list(peer.machine.words)), (1, memory_with(image, 4096)))

    def test_as_few_words_as_a_stub_serves(self):
        """256 before the window; with one less all is typed."""
        for words, stubs in ((ONE_STRETCH + LEAST_GAIN, 1), (ONE_STRETCH + LEAST_GAIN - 1, 0)):
            image = image_of(words)
            self.put_tape("a.lda", image)
            peer = self.console_at(FastConsole(image))
            model = Model(words_of(image), [BACKGROUND] * 4096).fast()
            self.went_as(model, peer, self.load(peer))
            self.is_so((len(model.stubs), list(peer.machine.words)), (stubs, memory_with(image, 4096)))


class NotServed(FastCase):
    """Where no stub serves, the load is an ordinary one behind a look at the tape's highest word, and a person at a terminal is told
    why."""

    def is_ordinary(self, image, why):
        """Loads an image without the option and with it, each with standard error in a file and at a terminal."""
        self.put_tape("a.lda", image)
        fast, ordinary = (Model(words_of(image), [BACKGROUND] * 4096) for _ in range(2))
        look = f"Z{max(image) & ~1:06o}/\r"
        self.is_so((fast.fast().keys, fast.why), (look + ordinary.ordinary().keys, why))
        for option, model in (("", ordinary), (" --fast", fast)):
            peer = self.console_at(FastConsole(image))
            self.went_as(model, peer, self.load(peer, "a.lda" + option))
            (self.assertIn if option else self.assertNotIn)(why, self.told(image, option))

    def told(self, image, option, words=4096):
        """What a load of a.lda shows at a terminal."""
        peer = self.console_at(FastConsole(image, words=words))
        _, told = self.at_a_terminal(lambda terminal: self.load(peer, "a.lda" + option, stderr=terminal))
        return told

    def test_too_few_words(self):
        self.is_ordinary(image_of(100), "too few words")

    def test_words_that_the_record_has(self):
        """No stub verified them: it is told why none serves."""
        image = image_of(300)
        self.put_tape("a.lda", image)
        self.put("a.record", record_of(words_of(image)[:100]).encode())
        peer = self.console_at(FastConsole(image))
        peer.machine.words.set_all(memory_with(image, 4096))
        given, told = self.at_a_terminal(lambda terminal: self.load(peer, "a.lda --fast --record a.record", stderr=terminal))
        self.is_so(given.status, 0)
        self.assertIn("\r100 of 300 by the record\r\n--fast did not serve: too few words\r\n", told.replace("\x1b[K", ""))

    def test_too_few_words_before_the_window(self):
        """There are enough words, but behind the last at which a stub could lie."""
        image = image_of(ONE_STRETCH + 50)
        image.update(bytes_at({0o4000 + 4 * number: number for number in range(150)}))
        self.is_ordinary(image, "too few words")

    def test_half_words_everywhere(self):
        image = {START + 2 * number: number & 255 for number in range(300)}
        image.update(bytes_at({START + 2 * number: word for number, word in enumerate(GREETING)}))
        self.is_ordinary(image, "no room for the stub in this tape")

    def test_stretches_that_are_too_short(self):
        """Each has 60 words."""
        image = {at: byte for at, byte in image_of(300).items() if (at - START) // 2 % 61 != 60}
        self.is_ordinary(image, "no room for the stub in this tape")

    def test_memory_that_ends_inside_the_image(self):
        """A look at the highest word finds that out, and the load ends there, with nothing typed that stores; without the option it is
        typed up to memory's end. Memory ends behind 300 words, inside the stub, or before the last word alone."""
        image = image_of(400)
        self.put_tape("a.lda", image)
        last = START + 2 * 399
        for there in (300, 400 - ONE_STRETCH + 30, 399):
            words = START // 2 + there
            for option, lacking in (("", 2 * words), (" --fast", last)):
                with self.subTest((there, option)):
                    peer = self.console_at(FastConsole(image, words=words))
                    model = Model(words_of(image), [BACKGROUND] * words)
                    self.went_as(model.fast() if option else model.ordinary(), peer, self.load(peer, "a.lda" + option))
                    self.is_so((model.end, model.stubs), (f"NoWord {lacking:06o}", []))
                    told = self.told(image, option, words)
                    unfit = f"no word at {lacking:06o}, and the tape goes up to {last:06o}: 'ldaodt probe LINE' says where memory ends\r\n"
                    self.assertIn(unfit, told)
                    self.assertNotIn("did not serve", told)

    def test_a_stub_that_serves_is_not_told_of(self):
        image = image_of(400)
        self.put_tape("a.lda", image)
        told = self.told(image, " --fast")
        for why in ("too few words", "no room", "did not serve", "did not start"):
            self.assertNotIn(why, told)
        self.assertIn("stub", told)

    def test_nothing_to_load(self):
        """There is no connection."""
        self.put_tapes("no-word.lda")
        peer = self.console_at(FastConsole(THOUSAND))
        self.ends(self.load(peer, "no-word.lda --fast"), 0, "sent 0 spent 0 verified 0 of 0\nend Loaded\n")
        self.is_so((peer.machine.typed, peer.connections), ("", 0))


class Worth(FastCase):
    """How many characters pass in both directions together."""

    def test_4096_words(self):
        self.passes_in(4096, START, 41_000, 253_971)


if __name__ == "__main__":
    unittest.main()
