"""What the tests of `ldaodt load --fast` share: images, a machine on which stubs run, and a model of such a load.

The model says each key that is typed over a line that loses nothing, and counts the characters that the console answers. It is
written from docs/CONSOLE.md and from what a fast load does: it looks at the highest word, looks for the window, types the stub there and soundings before it,
starts it, sends the bytes, and again where that broke off, until there are too few words or three stubs in a row verified nothing;
behind one that verified nothing it sends a byte at a time. The rest is an ordinary load. The stub's words are those of
stub_listing.py."""
import io
from collections import namedtuple

from cases import Case, Keeping
from lsi11 import RunningMachine
from odt_peer import Peer
from outside import bytes_of, kept_in, tape_of
from paced_line import PacedMachine
from programs import WAITING
from stub_listing import AHEAD, CODE, chunks, stub_words, typed

# What a word of memory holds before, and so each byte of it.
BACKGROUND, BACKGROUND_BYTE = 0o125252, 0o252

# The words of a stub of no stretch, to which each stretch adds two; and of one.
LEAST_STUB = len(CODE) + 1
ONE_STRETCH = LEAST_STUB + 2

# Why there is no other stub behind one that was not seen to start.
NOT_STARTED = "the stub did not start"

# With fewer words to be gained no stub is brought in; of so many words one is sounded; so many stubs may verify nothing.
LEAST_GAIN, SOUNDED, MOST_IN_VAIN = 256, 4096, 3

# A program that prints a line and halts. It uses no stack and no memory but its own.
GREETING_TEXT = "IT RUNS\r\n"
GREETING = (
    0o012700, 0o001026,            # MOV #1026,R0
    0o112001,                      # MOVB (R0)+,R1
    0o001406,                      # BEQ 1024
    0o105737, 0o177564,            # TSTB @#177564
    0o100375,                      # BPL .-4
    0o110137, 0o177566,            # MOVB R1,@#177566
    0o000770,                      # BR 1004
    0o000000,                      # HALT, at 001024
    *(low | high << 8 for low, high in zip(*[iter(f"{GREETING_TEXT}\0".encode())] * 2)),
)
START = 0o1000

Word = namedtuple("Word", "address mask value")


def image_of(words, first=START, program=GREETING):
    """An image of so many whole words: the program, and words that are told apart."""
    values = [*program, *(0o177777 - 2 * number for number in range(words))][:words]
    return bytes_at({first + 2 * number: value for number, value in enumerate(values)})


def bytes_at(words):
    """The image of words by their addresses."""
    return {address + high: value >> 8 * high & 255 for address, value in words.items() for high in (0, 1)}


def tape(image, start=START):
    """A tape of an image, in blocks of at most 64 bytes."""
    blocks, places = [], sorted(image)
    for address in places:
        if not blocks or address != blocks[-1][0] + len(blocks[-1][1]) or len(blocks[-1][1]) == 64:
            blocks.append((address, b""))
        blocks[-1] = (blocks[-1][0], blocks[-1][1] + bytes([image[address]]))
    return tape_of(blocks, start)


def words_of(image):
    """The words of an image in the order of their addresses, each with the mask of its bytes."""
    found = []
    for address in sorted({at & ~1 for at in image}):
        low, high = image.get(address), image.get(address + 1)
        mask = 0o377 * (low is not None) | 0o177400 * (high is not None)
        found.append(Word(address, mask, (low or 0) | (high or 0) << 8))
    return found


def memory_with(image, words):
    """The words of a memory of so many, the image laid over the background."""
    memory = [BACKGROUND] * words
    for address, mask, value in words_of(image):
        memory[address // 2] = BACKGROUND & ~mask | value
    return memory


class StuckWords(list):
    """Words of which some have bits that can't be changed: by the word's address, which bits, and what they are."""

    def __init__(self, words, stuck):
        super().__init__(words)
        self.stuck = {address // 2: (bits, value) for address, (bits, value) in stuck.items()}
        self.set_all(words)

    def __setitem__(self, number, value):
        bits, held = self.stuck.get(number, (0, 0))
        super().__setitem__(number, value & ~bits | held)

    def set_all(self, words):
        for number, word in enumerate(words):
            self[number] = word


# ---------------------------------------------------------------- the model


def whole(words):
    """Whether these are whole words one behind another."""
    return all(it.mask == 0o177777 and it.address == words[0].address + 2 * number for number, it in enumerate(words))


def stretches_of(words):
    """The stretches of the bytes of words: the first address, and the one behind the last."""
    found = []
    for address, mask, _ in words:
        first, end = address + (mask == 0o177400), address + 2 - (mask == 0o377)
        if found and found[-1][1] == first:
            first = found.pop()[0]
        found.append((first, end))
    return found


def planned(words, verified):
    """The number of the word at which a stub for those behind the verified ones lies, and its stretches; none where no stub can lie."""
    for window in range(len(words) - LEAST_STUB, verified, -1):
        if whole(words[window:window + LEAST_STUB]):
            stretches = stretches_of(words[verified:window])
            taken = words[window:window + LEAST_STUB + 2 * len(stretches)]
            if len(taken) == LEAST_STUB + 2 * len(stretches) and whole(taken):
                return window, stretches
    return None


def ahead(heard):
    """How many characters of a chunk the host sends by the time that it has heard so many: both ways at once."""
    return heard + AHEAD


def bytewise(heard):
    """The same one way at a time: a byte's two once those of the last are answered."""
    return heard - heard % 2 + 2


class Model:
    """A load over a line that loses nothing: its keys, how many characters are answered, and how it ends.

    `words` are those of the image, `memory` the machine's, a list that is changed; a start of none starts nothing. The first stubs,
    so many, come to nothing, and halt at once: at the start of each these words are pushed."""

    def __init__(self, words, memory, start=START, style=0, verified=0, halting=0, pushed=None):
        self.words, self.memory, self.verified, self.halting, self.pushed = words, memory, verified, halting, pushed or {}
        self.space, self.second_return, self.echo = style & 1, style >> 1 & 1, style >> 2
        self.kept, self.answered, self.start, self.end = io.StringIO(), 0, start, None
        # The addresses at which a stub was started, and why there was no other.
        self.stubs, self.why = [], None
        # How many characters have passed where each part ends: a stub's start, its exchange, the text of its halt, and all of it.
        self.borders = []

    @property
    def keys(self):
        return self.kept.getvalue()

    def report(self):
        return f"sent {len(self.keys)} spent 0 verified {self.verified} of {len(self.words)}\nend {self.end}\n"

    def says(self, keys, answered):
        self.kept.write(keys)
        self.answered += answered

    def ends_part(self):
        self.borders.append(self.kept.tell() + self.answered)

    def prompt(self):
        """How long a new line and a prompt are."""
        return 3 + self.second_return

    def looking_first(self, highest=False):
        """Looks before at words that count as verified: at each seventh of the way from the first to the last, or at all; and at the
        highest word, where it is asked for and not all count."""
        count = self.verified
        beyond = self.words[-1:] if highest and count < len(self.words) else []
        if count or beyond:
            self.says("Z", 1 + self.prompt() + self.echo)
        for place in range(count) if count <= 8 else [it * (count - 1) // 7 for it in range(8)]:
            self.look(self.words[place].address)
            self.says("\r", self.prompt())
            self.believe(self.words[place])
        self.verified *= not self.end
        for word in beyond:
            lacking = self.answers(word.address)
            self.end = self.end or lacking
        return self

    def answers(self, address):
        """Looks whether memory answers at an address; returns the end where it does not, or none."""
        if address // 2 >= len(self.memory):
            self.says(f"{address:06o}/", 8 + self.prompt())
            return f"NoWord {address:06o}"
        self.look(address)
        self.says("\r", self.prompt())
        return None

    def believe(self, word):
        """The first of these words that does not stand is the end."""
        if self.memory[word.address // 2] & word.mask != word.value:
            self.end = self.end or f"Stale {word.address:06o}"

    def ordinary(self):
        """Loads the rest by ODT, and starts."""
        self.end = self.visit_all(self.words[self.verified:], counted=True) or ("Loaded" if self.start is None else "Started")
        if self.end == "Started":
            self.says(f"{self.start:06o}G", 7)
        self.ends_part()
        return self

    def fast(self):
        """The same with stubs before, and in front of all a look at the highest word, behind those at the record's."""
        in_vain = 0
        self.looking_first(highest=True)
        while in_vain < MOST_IN_VAIN and not self.why and not self.end:
            before = self.verified
            self.why = self.bring_in(bytewise if in_vain else ahead)
            if self.why in (None, NOT_STARTED):
                in_vain = in_vain + 1 if self.verified == before else 0
        if in_vain and not self.end:
            self.looking_first()
        if self.end:
            self.ends_part()
            return self
        return self.ordinary()

    def visit_all(self, words, counted=False):
        """Visits words behind a new prompt; returns why not all, or none."""
        self.says("Z", 1 + self.prompt() + self.echo)
        for word in words:
            if end := self.visit(*word):
                return end
            self.verified += counted
        return None

    def visit(self, address, mask, value):
        """Looks at a word, deposits it where it differs, and looks again; returns why it can't stand, or none."""
        if address // 2 >= len(self.memory):
            self.says(f"{address:06o}/", 8 + self.prompt())
            return f"NoWord {address:06o}"
        self.look(address)
        found = self.memory[address // 2]
        if found & mask != value:
            self.memory[address // 2] = found & ~mask | value
            self.says(f"{found & ~mask | value:06o}\r", 6 + self.prompt())
            self.look(address)
            if self.memory[address // 2] & mask != value:
                return f"WontHold {address:06o}"
        self.says("\r", self.prompt())
        return None

    def look(self, address):
        self.says(f"{address:06o}/", 14 + self.space)

    def bring_in(self, sent_at):
        """Brings in a stub and exchanges with it, some characters ahead; returns why not, or none."""
        if len(self.words) - self.verified < LEAST_GAIN:
            return "too few words"
        plan = planned(self.words, self.verified)
        if not plan:
            return "no room for the stub in this tape"
        window, stretches = plan
        if window - self.verified < LEAST_GAIN:
            return "too few words"
        place = self.words[window].address
        between = range(self.verified, window)
        sounded = [self.words[at] for at in between if (at - self.verified) % SOUNDED == SOUNDED - 1 or at == window - 1]
        stub = [Word(place + 2 * number, 0o177777, word) for number, word in enumerate(stub_words(place, stretches))]
        if end := self.visit_all([*sounded, *stub]):
            self.end = end if end.startswith("NoWord") else None
            return self.end or NOT_STARTED
        self.says(f"{place:06o}G", 7)
        self.stubs.append(place)
        self.ends_part()
        self.exchange(stretches, sent_at)
        self.ends_part()
        return None

    def exchange(self, stretches, sent_at):
        """Sends chunk after chunk, until one is answered otherwise; the words of those before are verified."""
        if len(self.stubs) <= self.halting:
            # The halt is heard, and the Z that follows is ODT's.
            for address, word in self.pushed.items():
                self.memory[address // 2] = word
            self.says("Z", self.halt() + 1 + self.prompt() + self.echo)
            return
        data = {at: byte for word in self.words for at, byte in self.told(word)}
        for first, end in chunks(stretches):
            sent, is_right = self.fill(first, end, data, sent_at)
            self.says(typed(bytes(data[at] for at in range(first, end)))[:sent], sent - sent % 2)
            if not is_right:
                self.breaks_off(end == stretches[-1][1] and sent == 2 * (end - first))
                return
            while self.words[self.verified].address + (self.words[self.verified].mask >= 0o400) < end:
                self.verified += 1
        self.ends_part()
        self.says("", self.halt())

    def fill(self, first, end, data, sent_at):
        """Fills a chunk as far as it is sent where an answer is wrong. Returns how many characters that is, and whether none was."""
        sent, is_right = 2 * (end - first), True
        for number, at in enumerate(range(first, end)):
            if number < sent // 2:
                self.put(at, data[at])
                if wrong := self.byte(at) ^ data[at]:
                    sent, is_right = min(sent, sent_at(2 * number + (wrong < 0o20))), False
        return sent, is_right

    def breaks_off(self, has_halted):
        """Hears until silence, and types a Z: it halts the stub, or, where that has halted behind its last byte, is ODT's."""
        self.says("Z", self.halt() + (1 + self.prompt() + self.echo) * has_halted)

    def halt(self):
        """How long the text of a halt is: a new line, the address, and the prompt."""
        return 2 + self.second_return + 6 + self.prompt()

    def told(self, word):
        """The bytes of a word that the image has."""
        for high in (0, 1):
            if word.mask >> 8 * high & 1:
                yield word.address + high, word.value >> 8 * high & 255

    def byte(self, at):
        return self.memory[at // 2] >> 8 * (at % 2) & 255

    def put(self, at, byte):
        word = self.memory[at // 2]
        self.memory[at // 2] = word & 0o377 | byte << 8 if at % 2 else word & 0o177400 | byte


# ---------------------------------------------------------------- the machine


class FastConsole(Keeping, RunningMachine):
    """ODT over a machine on which stubs run, and then the program; it knows the image, and where that is started.

    The line's characters are counted, keys and answers together, in the order in which they pass: those with the numbers of `lost`
    are lost, and before one with a number of `at` something is done (where it is an answer's, by a WatchedPeer)."""

    def __init__(self, image, start=START, words=4096, style=0, stuck=None, lost=()):
        super().__init__(words=words, style=style)
        self.words = StuckWords([BACKGROUND] * words, stuck or {})
        self.image, self.start, self.start_keys = image, start, f"{start:06o}G"
        self.lost, self.at = lost, {}
        # Where what was started is neither a stub nor the program; what was answered from the echo of the program's start on.
        self.strays, self.shown = [], ""

    def passed(self):
        """How many characters have passed."""
        return self.kept.tell() + self.answered

    def take(self, key):
        number = self.passed()
        if action := self.at.pop(number, None):
            action()
        if number in self.lost:
            self.kept.write(key)
            return ""
        return self.without_lost(number + 1, super().take(key))

    def go_on(self):
        return self.without_lost(self.passed(), super().go_on())

    def without_lost(self, number, answer):
        """What passes of an answer whose first character has this number."""
        if self.starts[-1:] == [self.start]:
            self.shown += answer
        return "".join(it for place, it in enumerate(answer, number) if place not in self.lost)

    def started(self):
        if self.starts[-1] != self.start and not self.is_stub_at(self.starts[-1]):
            self.strays.append(self.starts[-1])
        return super().started()

    def is_stub_at(self, place):
        """Whether the words there are a stub that lies in the image, and fills bytes of the image, but none of its own."""
        first, stretches = place // 2 + len(CODE), []
        while self.words[first] and len(stretches) < len(self.image):
            stretches.append((self.words[first + 1], self.words[first]))
            first += 2
        words = stub_words(place, stretches)
        own = range(place, place + 2 * len(words))
        filled = [at for one in stretches for at in range(*one)]
        return (self.words[place // 2:first + 1] == words and all(at in self.image for at in [*own, *filled])
                and not any(at in own for at in filled))

    def lose_power(self):
        """All memory is lost, and ODT begins anew."""
        self.words.set_all([BACKGROUND] * len(self.words))
        self.computer.is_running = False
        self.to_prompt()

    def run_on(self):
        """Lets the program go on until it halts or waits; returns what was answered from the echo of its start on."""
        while self.is_busy:
            self.go_on()
        return self.shown


class TrappingConsole(FastConsole):
    """A machine at which a stub's first instruction traps to a halt, which pushes two words: an interrupt came, or so."""

    def __init__(self, image, stack, **named):
        super().__init__(image, **named)
        self.stack = stack

    def started(self):
        traps = self.starts[-1] != self.start
        self.has_halt_switch_on = traps
        shown = super().started()
        for address, word in pushed_at(self.stack).items() if traps else ():
            self.words[address // 2] = word
        return shown


def pushed_at(stack):
    """What is pushed there, a status word and an address."""
    return {stack - 2: 0o000340, stack - 4: 0o000006}


class PacedConsole(PacedMachine, FastConsole):
    """Such a machine for a line in simulated time."""


class WatchedPeer(Peer):
    """Such a machine behind a port, where what is to be done before a character is done before an answer's, too."""

    def say(self, text, send):
        at, first = self.machine.at, self.machine.passed() - len(text)
        for number in sorted(it for it in at if first <= it < first + len(text)):
            super().say(text[:number - first], send)
            text, first = text[number - first:], number
            at.pop(number)()
        return super().say(text, send)


# ---------------------------------------------------------------- a small load

# The stub takes so many words, and lies in the others.
GAIN = 300
IMAGE = image_of(GAIN + ONE_STRETCH)
WORDS = words_of(IMAGE)
PLACE = START + 2 * GAIN

# How many characters have passed where its parts end: the stub's start, the exchange, the text of the halt, and all.
STARTED, EXCHANGED, HALTED, ALL = Model(WORDS, [BACKGROUND] * 4096).fast().borders

# ---------------------------------------------------------------- the tests


def record_of(words, mark=False):
    """The record of version 2 of words that were kept one after another, as docs/RECORD.md has it."""
    lines, run = ["LDAODT 2"], []
    for address, mask, value in words:
        if mask != 0o177777:
            lines.append(f"H {address:06o} {mask:06o} {value:06o}")
            run = []
        elif run and address == run[-1] + 2 and len(run) < 16:
            lines[-1] += f" {value:06o}"
            run.append(address)
        else:
            lines.append(f"{address:06o} {value:06o}")
            run = [address]
    # The end of a run comes with what follows it.
    return "\n".join(lines) + ("" if run and not mark else "\n") + "G\n" * mark


WHOLE = record_of(WORDS, mark=True)


def wrong_with(machine, record):
    """What is wrong with a machine and a record, whatever a load has done that was stopped anywhere; none where nothing is.

    Each word of the record stands, each byte outside the image is the one before, and what was started before the program was a stub.
    The program's start was typed once at most, last of all, with the mark in the record and the whole image in memory."""
    words, mark = kept_in(record)
    for address, mask, value in words:
        if machine.word(address) & mask != value:
            return f"the record has {address:06o} {mask:06o} {value:06o}, and memory {machine.word(address):06o}"
    memory = bytes_at({2 * number: word for number, word in enumerate(machine.words)})
    for at, byte in memory.items():
        if at not in machine.image and byte != BACKGROUND_BYTE:
            return f"outside the image {at:06o} holds {byte:03o}"
    if machine.strays:
        return f"at {machine.strays} neither a stub nor the program was started"
    _, start, behind = machine.typed.partition(machine.start_keys)
    if behind:
        return f"behind the start {behind!r} was typed"
    if start and not mark:
        return "the start was typed, and the record has no mark"
    if (start or mark) and any(memory[at] != byte for at, byte in machine.image.items()):
        return "the start was typed, or was about to be, and memory has not the whole image"
    return None


class FastCase(Case):
    """A test of loads with stubs."""

    usual = "a.lda --fast"

    def put_tape(self, name, image, start=START):
        self.put(name, tape(image, start))

    def recorded(self, name="a.record"):
        return bytes_of(self.path(name)).decode()

    def went_as(self, model, line, given, err=""):
        """Asserts that a load over a line that loses nothing was that of the model: report, keys, answers, memory, and which
        programs were started."""
        machine = line.machine
        self.is_so(machine.typed, model.keys)
        self.ends(given, 0 if model.end in ("Started", "Loaded") else 5, model.report(), err)
        self.is_so(machine.starts, model.stubs + [model.start] * (model.end == "Started"))
        self.is_so((machine.strays, list(machine.words)), ([], list(model.memory)))

    def passes_in(self, words, start, most, without):
        """Loads so many words from an address on: at most so many characters pass, and without the option so many would."""
        image = image_of(words, start, WAITING)
        self.put_tape("a.lda", image, start)
        machine = FastConsole(image, start=start, words=28672)
        peer = self.console_at(machine, at_once=True)
        model = Model(words_of(image), [BACKGROUND] * 28672, start=start).fast()
        self.went_as(model, peer, self.load(peer))
        # The program waits: nothing comes behind the echo of its start.
        self.is_so(machine.passed(), len(model.keys) + model.answered)
        self.assertLessEqual(machine.passed(), most)
        ordinary = Model(words_of(image), [BACKGROUND] * 28672, start=start).ordinary()
        self.is_so(len(ordinary.keys) + ordinary.answered, without)

    def is_right(self, machine, record="a.record"):
        """Asserts of a machine and a record what has to be so wherever a load was stopped."""
        if wrong := wrong_with(machine, self.path(record)):
            self.fail(wrong)

    def were_started_once(self):
        super().were_started_once()
        for machine in Keeping.made:
            if isinstance(machine, FastConsole):
                self.is_so(machine.strays, [])
