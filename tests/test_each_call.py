"""Each call that a run makes for a file, a stream, a device or a line fails in turn, once, and would then go on: what the run ends with,
and what it leaves. Judged by rules, whatever the call is: a record is never anything but what it was or a front of what it is to be,
and a tape comes whole or not at all; the start goes out only behind its mark; what failed is not asked again, and nothing is typed
behind it; it is told on standard error, as what it is, with its status; and without what a run needs it has not ended well.

How little a call may move is tried in test_system_calls.py, want of descriptors and of memory in test_descriptors.py and test_memory.py.
"""
import collections
import errno
import os
import unittest

from cases import LONG_QUIET, Case, Console, timeless
import odt_peer
from commands import AT_A_MACHINE, COMMANDS
from outside import FIRST, HINTS, LINE_FAILED, LOST_DIGIT, NO_TERMINAL, bytes_of, tape_of
import traced

OLD, CURRENT, MARKED = b"LDAODT 1\n001000 177777 011064\n", b"LDAODT 2\n001000 011064\n", b"LDAODT 2\n001000 011064\nG\n"
HELD = {0o1000: 0o011064}

# More than is read at once of a tape, a script, words, keys and a record.
LARGE = [(0o1000 + 2 * place, 0o12345 + place) for place in range(6000)]
FILES = {
    "late.lda": bytes(8190) + bytes_of(FIRST),
    "large.lda": tape_of([(0o1000, b"".join(value.to_bytes(2, "little") for _, value in LARGE))], 0o1000),
    "large.script": b"# nothing\n" * 2000 + b"clean\n",
    "large.record": "".join(["LDAODT 1\n", *(f"{address:06o} 177777 {value:06o}\n" for address, value in LARGE), "G\n"]).encode(),
    "large.words": b"1000/" + b"11064 " * 3000 + b"\n",
    "large.keys": b"001000/011064\r" * 800,
}

# How a run is made: its words, the file on its standard input, what lies there before it, as bytes or as the name that a link leads to, the
# status and the end that it has where nothing fails, and, where it keeps a record, that record's name.
Way = collections.namedtuple("Way", "words keys before status end record", defaults=("/dev/null", {}, 0, "", None))

# What came of a run: its answer, its machine, what lies there behind it, and its calls, the one that failed among them.
Came = collections.namedtuple("Came", "given machine left calls failed")

# What a call may fail with, by its name. Not with what tells a run something else than that it failed: that a file is not there or is,
# that there are no locks, no links, or too few descriptors.
ERRORS = {
    "openat": (errno.EACCES, errno.EIO),
    "write": (errno.ENOSPC, errno.EIO),
    "sendto": (errno.EPIPE, errno.EIO, errno.EINTR),
    "recvfrom": (errno.ECONNRESET, errno.EIO),
    "connect": (errno.ECONNREFUSED, errno.ETIMEDOUT),
    "statx": (errno.EIO, errno.EACCES),
    "fsync": (errno.EIO, errno.ENOSPC),
    "rename": (errno.EIO, errno.ENOSPC),
}

# Without what these do a run has not done what it is for.
MOVES_BYTES = ("read", "write", "recvfrom", "sendto")
IS_NEEDED = (*MOVES_BYTES, "connect", "fsync", "fdatasync", "ftruncate")
BY_TWO_NAMES = ("link", "rename", "renameat", "renameat2")

# A run, or a part of one, first listens whether the line is silent. A port whose machine answers a key at once, and a whole answer, is silent
# where no key went out since it was heard last: nobody has to wait for that.
HEARS, KEY = ("recvfrom", "line"), ("sendto", "line")

NOT_OURS = ("/etc", "/lib", "/usr", "/opt", "/proc", "/sys", "anon_inode:")
IN_DOUBT = "ldaodt: the start may have gone out: look at the machine first"


class EachCall(Case):
    """The calls of a run that nothing troubles are counted; then it is done once for each of them, or for some of many that are alike."""

    # What its machine holds.
    memory = {}

    # Nothing is lost and each answer comes, so that a long quiet time costs nothing at a port, and no answer is late.
    quiet = LONG_QUIET

    def setUp(self):
        super().setUp()
        if not traced.is_possible():
            self.skipTest("no process can be traced here")

    def named(self, call, line):
        """A call's name and what it is for, as whoever gave the words knows it; None where that is nothing of a run's own."""
        if call.name is None:
            return None
        if call.name in ("open", "openat", "statx", "unlink") and (name := call.opened() or call.looked_at() or call.name == "unlink"):
            path = call.name if name is True else name
        elif call.name in BY_TWO_NAMES or call.name == "socket":
            path = call.name
        elif call.arguments[0] <= 2:
            path = f"stream {call.arguments[0]}"
        else:
            try:
                path = call.path()
            except OSError:
                return None
        if path.startswith(NOT_OURS):
            return None
        is_line = path.startswith("socket") or line is not None and path == line.address
        return call.name, "line" if is_line else os.path.basename(path)

    def one(self, way, machine=None, fails=None):
        """Does a run of which the nth call of a name for something fails; returns what came of it."""
        self.lay_out(way)
        line = machine and machine()
        calls, failed, last = [], [], HEARS

        def before(call):
            nonlocal last
            named = self.named(call, line)
            if named is None:
                return None
            calls.append(named)
            if fails and not failed and fails[:2] == (named, calls.count(named)):
                failed.append(len(calls) - 1)
                return call.fails(fails[2])
            is_silent = named == last == HEARS
            last = named if named in (HEARS, KEY) else last
            return call.fails(errno.EAGAIN) if is_silent else None

        words = self.words_at(line, way.words) if line else way.words.split()
        try:
            with open(self.path(way.keys), "rb") as keys:
                given = traced.run(words, before, seconds=300, cwd=self.room, stdin=keys)
        finally:
            if line:
                line.settle()
                line.close()
        return Came(given._replace(out=timeless(given.out)), line and line.machine, self.there(), calls, *(failed or [None]))

    def lay_out(self, way):
        """Puts the files there that lie there before a run, and no others."""
        for name in os.listdir(self.room):
            os.remove(self.path(name))
        self.put_tapes("first.lda")
        for name, text in way.before.items():
            if isinstance(text, bytes):
                self.put(name, text)
            else:
                {"link": os.symlink, "name": os.link}[text[0]](text[1] if text[0] == "link" else self.path(text[1]), self.path(name))

    def there(self):
        return {name: bytes_of(self.path(name)) for name in os.listdir(self.room) if os.path.exists(self.path(name))}

    def chosen(self, calls):
        """Which calls fail, and with which error: of those that are alike the first two, one in the middle, and the last."""
        counts = collections.Counter(calls)
        for place, (named, count) in enumerate(counts.items()):
            for number in sorted({1, min(2, count), (count + 1) // 2, count}):
                errors = ERRORS.get(named[0], (errno.EIO,))
                yield named, number, errors[(place + number) % len(errors)]

    def each(self, way, machine=None):
        """Tries a way with each call failing."""
        self.lay_out(way)
        before, whole = self.there(), self.one(way, machine)
        self.is_so((whole.given.status, whole.given.err, way.end in whole.given.out), (way.status, "", True))
        count, rows = 0, list(self.chosen(whole.calls))
        for fails in rows:
            came = self.one(way, machine, fails)
            if came.failed is not None:
                count += 1
                with self.subTest(way.words, fails=fails):
                    self.judge(way, fails, before, whole, came)
        # At a device the number of reads depends on how quick each side is.
        self.assertGreater(count, len(rows) * 3 // 4)

    def interrupted(self, way, machine=None):
        """Tries a way with each read of its line interrupted once, as one that was held is, and each write to a device: it is made again, and
        nobody sees that. A key that was to go to a port is not sent again."""
        whole = self.one(way, machine)
        for named, number, _ in self.chosen([it for it in whole.calls if it in (HEARS, ("read", "line"), ("write", "line"))]):
            came = self.one(way, machine, (named, number, errno.EINTR))
            with self.subTest(way.words, interrupted=named, number=number):
                self.is_so((came.given, came.left), (whole.given, whole.left))
                if came.failed is not None:
                    self.assertEqual(came.calls[came.failed + 1], named)

    def judge(self, way, fails, before, whole, came):
        """Asserts the rules."""
        (call, thing), _, error = fails
        behind = came.calls[came.failed + 1:]
        is_as_whole = came.given == whole.given
        if not is_as_whole:
            self.is_told(way, fails, came)
            self.is_so([it for it in behind if it in (KEY, ("write", "line"))], [])
        elif (call, thing) != ("write", "stream 2"):
            self.assertNotIn(call, IS_NEEDED)
            self.is_so({name: text for name, text in came.left.items() if not name.endswith(".part")}, whole.left)
        if call in MOVES_BYTES and thing != "stream 2":
            self.assertNotIn((call, thing), behind)
        for name in {*before, *whole.left, *came.left}:
            self.is_left_right(way, *(it.get(name) for it in (before, whole.left, came.left)), name)
            # What was not there is a tape that was saved or made; without its output a run has made it all the same.
            if name not in before and not way.record and not is_as_whole and thing != "stream 1":
                self.is_so((name, name.endswith(".part") or name not in came.left), (name, True))
        if came.machine:
            self.is_the_machine_right(way, whole, came)

    def is_told(self, way, fails, came):
        """A fault is one line that names what failed, and one that says why; its status is 4."""
        (call, thing), _, error = fails
        self.is_so(came.given.status, 4)
        what, *more = came.given.err.removesuffix("\n").split("\n")
        if thing == "stream 2":
            return self.fail("what standard error takes decides nothing")
        if thing == "line":
            self.assertRegex(what, "^ldaodt: (line failed|cannot connect to [^ ]+)$")
        elif thing in ("stream 0", "stream 1"):
            self.is_so(what, f"ldaodt: cannot {'read standard input' if thing == 'stream 0' else 'write output'}")
        else:
            named = [it for it in way.words.split() if it in what.split(" ")]
            verbs = ("read",) if call == "read" else ("write",) if call in IS_NEEDED else ("read", "write")
            self.is_so(what in (f"ldaodt: cannot {verb} {it}" for verb in verbs for it in named), True)
            if thing in way.words.split():
                self.is_so(named, [thing])
        if IN_DOUBT in more:
            more.remove(IN_DOUBT)
            self.is_so(came.given.out.endswith("end LineFailed\n"), True)
        direction = LINE_FAILED["send" if call in ("sendto", "write") else "receive"]
        said = os.strerror(error) + (HINTS.get(error, "") if "connect" in what else "")
        reasons = (said, direction if "line" in what else said, NO_TERMINAL if call == "ioctl" else said)
        self.assertTrue(len(more) < 2 and {*more} <= {f"ldaodt: {it}" for it in reasons}, more)
        if call in IS_NEEDED and thing != "stream 1":
            self.is_so(len(more), 1)

    def is_left_right(self, way, before, whole, left, name):
        """What a file is behind a run that failed: a tape as it was or whole, a record as it was or a front of the whole one."""
        if name in (way.record, "b.record") and way.record:
            self.is_so(left == before or left is not None and whole.startswith(left), True)
        elif name.endswith(".part"):
            return
        elif before is None and whole is not None:
            self.is_so(left in (None, whole), True)
        else:
            self.is_so((name, left), (name, before))

    def is_the_machine_right(self, way, whole, came):
        """The start went out only behind the mark, and where it may have gone out that is said; memory is as it was, but for words of the tape,
        or for the one that is named."""
        if came.machine.starts:
            self.is_so(came.machine.starts, whole.machine.starts)
            if way.record:
                self.is_so(came.left[way.record], MARKED)
            self.assertTrue(came.given.status == 0 or IN_DOUBT in came.given.err or came.calls[came.failed][1] == "stream 1", came.given)
        if "now look at it" not in came.given.out + came.given.err:
            fresh = Console(memory=self.memory)
            differ = {2 * number for number, (now, old) in enumerate(zip(came.machine.words, fresh.words)) if now != old}
            self.is_so(differ <= ({0o1000} if way.words.startswith("load") else set()), True)


def records():
    """How a record stands before a load that makes of it the whole one: not there, empty, old, current; behind a link, with two names; a link
    that leads nowhere."""
    for text in (None, b"", OLD, CURRENT):
        yield {} if text is None else {"a.record": text}
    yield {"b.record": CURRENT, "a.record": ("link", "b.record")}
    yield {"b.record": CURRENT, "a.record": ("name", "b.record")}
    yield {"a.record": ("link", "b.record")}


def addressed(line):
    line.address = line.name
    return line


class Machines(EachCall):
    """Runs at a console, which answers at once."""

    memory = HELD

    def console(self):
        return addressed(odt_peer.Peer(Console(memory=self.memory), at_once=True))

    def test_loads_with_a_record(self):
        for memory in (HELD, {}):
            self.memory = memory
            for before in records():
                if memory or not before.get("a.record"):
                    with self.subTest(before, memory=memory):
                        self.each(Way("load first.lda LINE --record a.record", before=before, end="end Started\n", record="a.record"), self.console)

    def test_each_command(self):
        for command in AT_A_MACHINE:
            self.each(Way(command.line(), end=f"end {command.end or 'Probed'}\n"), self.console)

    def test_a_load_and_a_save_that_are_interrupted(self):
        for words, record in (("load first.lda LINE --record a.record", "a.record"), ("save new.lda LINE 1000 1000", None)):
            self.interrupted(Way(words, record=record), self.console)


class Devices(EachCall):
    """Runs at a device. There each silence is waited for, so that only the calls that are about it fail."""

    memory, quiet = HELD, 500

    def chosen(self, calls):
        return super().chosen([it for it in calls if it[1] == "line"])

    def test_a_look_that_is_interrupted(self):
        self.interrupted(Way("verify first.lda LINE"), lambda: addressed(odt_peer.Device(Console(memory=self.memory))))

    def test_a_load_and_a_look(self):
        for words, end, record in (("load first.lda LINE --record a.record", "end Started\n", "a.record"), ("verify first.lda LINE", "end Same\n", None)):
            self.each(Way(words, end=end, record=record), lambda: addressed(odt_peer.Device(Console(memory=self.memory))))


class Alone(EachCall):
    """Runs that need no machine. What is read stands in more than one piece, of which each may fail."""

    def test_each_command(self):
        with open(LOST_DIGIT, "rb") as script:
            files = {"a.script": script.read()}
        for command in COMMANDS:
            if command not in AT_A_MACHINE:
                self.each(Way(command.line(), "keys", {**files, "keys": command.keys or b"\n"}))

    def test_much_that_is_read(self):
        for words, keys, status in (("check first.lda late.lda", "/dev/null", 0), ("", "late.lda", 0), ("type", "large.keys", 0), ("make new.lda", "large.words", 0),
                                    ("rehearse first.lda large.script", "/dev/null", 0)):
            self.each(Way(words, keys, {name: FILES[name] for name in (*words.split(), keys) if name in FILES}, status))

    def test_a_long_record(self):
        """Its mark stands at its end: nothing is connected to."""
        before = {name: FILES[name] for name in ("large.lda", "large.record")}
        self.each(Way("load large.lda LINE --record large.record", before=before, status=6, end="end MaybeStarted\n"), lambda: addressed(odt_peer.Peer(Console())))


if __name__ == "__main__":
    unittest.main()
