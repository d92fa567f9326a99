"""What the program asks of the system, call by call: what may happen between two calls, what a call may answer, and in which
order they come. No contract says that of a system's own files, sockets and devices, which tell nothing of what they hold.
"""
import collections
import errno
import os
import stat
import unittest

from cases import Case, Console
import odt_peer
from outside import NO_OUTPUT, Answer, bytes_of, fault, tape_of
import traced

VERIFIED, MARKED = "LDAODT 2\n001000 011064\n", "LDAODT 2\n001000 011064\nG\n"
STARTED = "sent 30 spent 0 verified 1 of 1\nend Started\n"
STOOD = "sent 17 spent 0 verified 1 of 1\nend Started\n"
# What is typed of looks at the word of a record.
LOOKED = "Z001000/\r"
# A memory that holds it.
HELD = {0o1000: 0o011064}
NO_RECORD = fault("cannot write a.record")

WRITES, SYNCS, RENAMES = ("write", "sendto"), ("fsync", "fdatasync"), ("rename", "renameat", "renameat2")

# A record that is replaced, and one behind a link, each with the names of the files that it is written to.
WAYS = (("a.record", ("a.record", "a.record.ldaodt-new")), ("a.link", ("b.record",)))

# The time limit of a socket's reads and that its keys wait for nothing, as a call's level and option; and how a device is made
# to answer at once, as a call and what it is asked for.
TIME_LIMITS, NO_DELAY = ((1, 20), (1, 66)), (6, 1)
NO_WAITING = (("ioctl", 0x5421), ("fcntl", 4))


class Calls(Case):
    """Loads of first.lda, of which each call is told."""

    def setUp(self):
        super().setUp()
        if not traced.is_possible():
            self.skipTest("no process can be traced here")
        self.put_tapes("first.lda")

    def ask(self, line, words, before):
        """Runs the program at a line, with its calls told to `before`."""
        given = traced.run(self.words_at(line, words), before, cwd=self.room)
        line.settle()
        return given

    def load(self, line, before, more="--record a.record"):
        return self.ask(line, f"load first.lda LINE {more}", before)


class Between(Calls):
    """Somebody does something right before a call. Nobody else's file is read for the record, replaced or removed."""

    def meddling(self, name):
        """Right before the first call of a name somebody renames new.record to a.record, where it is there."""
        def before(call):
            if call.name == name and os.path.exists(self.path("new.record")):
                os.rename(self.path("new.record"), self.path("a.record"))
        return before

    def test_a_record_that_is_replaced_before_it_is_held(self):
        """The load looks at the name again, finds another file there, and begins again."""
        line = self.console_at(Console(memory={0o1000: 0o011064}))
        self.put("a.record", b"LDAODT 2\n")
        self.put("new.record", VERIFIED.encode())
        self.ends(self.load(line, self.meddling("flock")), 0, STOOD)
        self.holds({"a.record": MARKED})

    def test_a_record_that_is_replaced_while_it_connects(self):
        """It is no longer the file that the load holds, so that the load begins no record."""
        for text in ("", VERIFIED):
            line = self.console_at(Console(memory=HELD))
            self.put("a.record", text.encode())
            self.put("new.record", b"hello")
            self.ends(self.load(line, self.meddling("connect")), 4, "", NO_RECORD)
            self.holds({"a.record": "hello"})
            self.is_so(line.machine.typed, LOOKED if text else "")

    def test_a_record_that_is_removed_while_it_connects(self):
        """What was written to a file without a name would be lost with it, also where this load made it, or behind a link."""
        for text, name in ((None, "a.record"), ("", "a.record"), (VERIFIED, "a.record"), (VERIFIED, "b.record")):
            line = self.console_at(Console(memory=HELD))
            if text is not None:
                self.put(name, text.encode())
            if name != "a.record":
                os.symlink(name, self.path("a.record"))

            def before(call):
                if call.name == "connect" and os.path.exists(self.path(name)):
                    os.remove(self.path(name))

            with self.subTest(text=text, name=name):
                self.ends(self.load(line, before), 4, "", NO_RECORD)
                self.assertFalse(os.path.exists(self.path(name)))
                self.is_so(line.machine.typed, LOOKED if text else "")
        os.remove(self.path("a.record"))

    def test_a_record_that_is_removed_before_it_is_opened(self):
        """The load makes one in its place, and takes that away again where nobody listens."""
        line = self.console_at(Console())
        line.address, ours = self.taken_port(), line.address
        self.put("a.record", VERIFIED.encode())
        left = ["a.record"]

        def before(call):
            if call.opened() in left:
                os.remove(self.path(left.pop()))

        self.ends(self.load(line, before), 4, "", fault(f"cannot connect to {line.address}", errno.ECONNREFUSED))
        self.is_so(left, [])
        self.holds({})
        line.address = ours

    def test_a_record_in_whose_place_a_pipe_comes(self):
        """Nobody may ever write to it, so that whoever read it would wait without end."""
        line = self.console_at(Console())
        self.put("a.record", VERIFIED.encode())

        def before(call):
            if call.opened() == "a.record" and not stat.S_ISFIFO(os.stat(self.path("a.record")).st_mode):
                os.remove(self.path("a.record"))
                os.mkfifo(self.path("a.record"))

        self.ends(self.load(line, before), 4, "", fault("cannot read a.record"))
        self.is_so(line.machine.typed, "")
        os.remove(self.path("a.record"))

    def led_elsewhere(self, name, behind, place):
        """Behind a call of this name, another name leads to a file of which what is told differs in the byte at a place."""
        told = []

        def before(call):
            told.append(call.name)
            return call.finds_another_file(place) if behind in told and call.looked_at() == name else None
        return before

    # each byte of a file's number, and of its file system's
    PLACES = (*range(traced.INODE, traced.INODE + 8), *range(traced.DEVICE, traced.DEVICE + 8))

    def test_a_record_that_is_led_to_another_file(self):
        """Each file system numbers its files by itself. It is another file, so that the load begins no record."""
        for place in self.PLACES:
            with self.subTest(place):
                line = self.console_at(Console(memory=HELD))
                self.put("a.record", VERIFIED.encode())
                self.ends(self.load(line, self.led_elsewhere("a.record", "connect", place)), 4, "", NO_RECORD)
                self.is_so((bytes_of(self.path("a.record")).decode(), line.machine.typed), (VERIFIED, LOOKED))

    def test_a_tape_in_whose_place_another_file_stands(self):
        """Where it comes once room was taken, nothing is typed; what a save has written comes to no name. That file is not taken
        away."""
        for place in self.PLACES:
            for behind, keys in (("fsync", 0), ("ftruncate", 17)):
                with self.subTest(place, behind=behind):
                    line = self.console_at(Console())
                    given = self.ask(line, "save a.lda LINE 1000 1000", self.led_elsewhere("a.lda.part", behind, place))
                    self.ends(given, 4, "", fault("cannot write a.lda"))
                    self.is_so((len(line.machine.typed), sorted(os.listdir(self.room))), (keys, ["a.lda.part", "first.lda"]))
                    os.remove(self.path("a.lda.part"))

    def test_a_link_in_the_place_of_a_tape_that_was_written(self):
        """It leads to the tape, and would itself come to the tape's name. Where it comes once room was taken, nothing is typed."""
        for behind, keys in (("fsync", 0), ("ftruncate", 17)):
            def before(call, behind=behind):
                if call.name == behind and call.file() == "a.lda.part":
                    os.rename(self.path("a.lda.part"), self.path("b.lda"))
                    os.symlink("b.lda", self.path("a.lda.part"))

            line = self.console_at(Console())
            self.ends(self.ask(line, "save a.lda LINE 1000 1000", before), 4, "", fault("cannot write a.lda"))
            self.assertFalse(os.path.lexists(self.path("a.lda")))
            self.is_so((len(line.machine.typed), os.readlink(self.path("a.lda.part"))), (keys, "b.lda"))
            os.remove(self.path("a.lda.part"))

    def test_a_record_that_somebody_makes_behind_a_link(self):
        """The link led nowhere a moment ago. What is there now is the record, and is read."""
        line = self.console_at(Console(memory={0o1000: 0o011064}))
        os.symlink("b.record", self.path("a.record"))

        def before(call):
            is_making = call.opened() == "a.record" and call.arguments[call.name == "openat" and 2 or 1] & (os.O_CREAT | os.O_EXCL) == os.O_CREAT
            if is_making:
                self.put("b.record", VERIFIED.encode())

        self.ends(self.load(line, before), 0, STOOD)
        self.is_so((os.readlink(self.path("a.record")), bytes_of(self.path("b.record")).decode()), ("b.record", MARKED))

    def test_another_file_in_the_place_of_one_that_was_made(self):
        """Nobody listens, and the load takes the FILE away that it made, but not somebody else's."""
        line = self.console_at(Console())
        ours, line.address = line.address, self.taken_port()
        for text, left in ((b"hello", {"a.record": "hello"}), (None, {})):
            if text:
                self.put("new.record", text)
            words = ["load", "first.lda", line.address, "--record", "a.record"]
            given = traced.run(words, self.meddling("connect"), cwd=self.room)
            self.ends(given, 4, "", fault(f"cannot connect to {line.address}", errno.ECONNREFUSED))
            self.holds(left)
            for name in left:
                os.remove(self.path(name))
        line.address = ours


class Answers(Calls):
    """Calls that are answered otherwise than a quick local system does."""

    def test_a_file_system_that_knows_no_locks(self):
        """Nothing is held there, and a load and a save go on."""
        for error in (errno.ENOLCK, errno.EOPNOTSUPP, errno.ENOSYS):
            unlocked = lambda call, error=error: call.fails(error) if call.name == "flock" else None
            with self.subTest(errno.errorcode[error]):
                self.ends(self.load(self.console_at(Console()), unlocked), 0, STARTED)
                self.holds({"a.record": MARKED})
                os.remove(self.path("a.record"))
                given = self.ask(self.console_at(Console()), "save a.lda LINE 1000 1000", unlocked)
                self.ends(given, 0, "sent 17 spent 0 read 1 of 1\nend Saved\n")
                self.is_so(bytes_of(self.path("a.lda")), tape_of([(0o1000, b"\0\0")]))
                os.remove(self.path("a.lda"))

    def test_writes_that_take_one_byte(self):
        """What is written is written whole all the same: a record that is replaced, one behind a link, which is written in
        place and was longer, a report and a tape."""
        def before(call):
            if call.name == "write":
                call.takes(1)

        for name in ("a.record", "b.record"):
            line = self.console_at(Console(memory={0o1000: 0o011064}))
            self.put("a.record", b"")
            self.put("b.record", VERIFIED.encode())
            os.path.lexists(self.path("a.link")) or os.symlink("b.record", self.path("a.link"))
            record = {"a.record": "a.record", "b.record": "a.link"}[name]
            self.ends(self.load(line, before, f"--record {record}"), 0, STOOD if name == "b.record" else STARTED.replace("30", "16"))
            self.is_so(bytes_of(self.path(name)).decode(), MARKED)
        given = self.ask(self.console_at(Console(memory={0o1000: 0o011064})), "save a.lda LINE 1000 1000", before)
        self.ends(given, 0, "sent 17 spent 0 read 1 of 1\nend Saved\n")
        self.is_so(bytes_of(self.path("a.lda")), tape_of([(0o1000, b"\x34\x12")]))

    def test_a_read_that_is_interrupted_again_and_again(self):
        """As that of a run which is held and let go. It is made again, up to 4,095 times, each time for what may still come."""
        for times in (1, 5, 4095):
            left = [times]

            def before(call, left=left):
                if call.name == "recvfrom" and call.file().startswith("socket:") and left[0]:
                    left[0] -= 1
                    return call.fails(errno.EINTR)

            with self.subTest(times):
                self.ends(self.load(self.console_at(Console()), before, ""), 0, STARTED)
                self.is_so(left, [0])

    def test_a_tape_that_no_second_name_can_be_given(self):
        """Not by its file system, or not any more: it is renamed, where its name is still free. Where that can't be told it is not taken."""
        for error in (errno.EPERM, errno.EOPNOTSUPP, errno.EMLINK):
            for looks_fail in (False, True):
                linked = []

                def before(call, error=error, looks_fail=looks_fail, linked=linked):
                    if call.name == "link":
                        linked.append(call.name)
                        return call.fails(error)
                    return call.fails(errno.EACCES) if looks_fail and linked and call.looked_at() == "a.lda" else None

                with self.subTest(errno.errorcode[error], looks_fail=looks_fail):
                    given = self.ask(self.console_at(Console(memory=HELD)), "save a.lda LINE 1000 1000", before)
                    text, name = tape_of([(0o1000, b"\x34\x12")]), "a.lda.part" if looks_fail else "a.lda"
                    self.is_so((len(linked), given.status, given.err.split("\n")[0]), (1, *((4, "ldaodt: cannot write a.lda") if looks_fail else (0, ""))))
                    self.is_so([it for it in sorted(os.listdir(self.room)) if it.startswith("a.")], [name])
                    self.is_so(bytes_of(self.path(name)), text)
                    os.remove(self.path(name))

    def test_a_name_that_can_not_be_looked_for(self):
        """There may be a file: no tape is made for it, and nothing is typed."""
        line = self.console_at(Console())
        given = self.ask(line, "save a.lda LINE 1000 1000", lambda call: call.fails(errno.EACCES) if call.looked_at() == "a.lda" else None)
        self.ends(given, 4, "", fault("cannot write a.lda", errno.EACCES))
        self.holds({})
        self.is_so((line.connections, line.machine.typed), (0, ""))

    def test_a_new_record_that_somebody_holds(self):
        """Another load has just made it: it is left alone, and the record is written where it is."""
        self.put("a.record", VERIFIED.encode())
        number, made = os.stat(self.path("a.record")).st_ino, []

        def before(call):
            if call.name == "flock" and call.file() == "a.record.ldaodt-new":
                made.append(os.stat(self.path("a.record.ldaodt-new")).st_ino)
                return call.fails(errno.EWOULDBLOCK)

        self.ends(self.load(self.console_at(Console(memory=HELD)), before), 0, STOOD)
        self.is_so((os.stat(self.path("a.record")).st_ino, len(made), bytes_of(self.path("a.record")).decode()), (number, 1, MARKED))

    def test_a_record_that_is_another_file_at_each_look(self):
        """Eight times it is opened anew; then somebody else is at work with it."""
        held = []

        def before(call):
            if call.name == "flock":
                held.append(call.file())
            elif held and call.looked_at() == "a.record":
                return call.finds_another_file(traced.INODE)

        self.put("a.record", VERIFIED.encode())
        line = self.console_at(Console(memory=HELD))
        self.ends(self.load(line, before), 4, "", "ldaodt: record in use: a.record\n")
        self.holds({"a.record": VERIFIED})
        self.is_so((held, line.connections), (["a.record"] * 8, 0))

    def test_a_record_that_can_not_be_gone_back_in(self):
        """Behind a link it would be written over: what is written behind it instead would be a part of it."""
        line = self.console_at(Console(memory=HELD))
        self.put("b.record", VERIFIED.encode())
        os.symlink("b.record", self.path("a.record"))
        given = self.load(line, lambda call: call.fails(errno.EIO) if call.name == "lseek" and call.file() == "b.record" else None)
        self.ends(given, 4, "", fault("cannot write a.record", errno.EIO))
        self.is_so((bytes_of(self.path("b.record")).decode(), line.machine.typed), (VERIFIED, LOOKED))

    def test_a_read_that_is_interrupted_has_no_reason(self):
        """Of each kind of input: it is told that it could not be read, and not that a call was interrupted, which nobody could mend."""
        self.put("a.record", VERIFIED.encode())
        self.put("a.script", b"clean\n")
        self.put("a.words", b"1000/1\n")
        line = self.console_at(Console())
        for name, words in (("first.lda", "check first.lda"), ("a.script", "rehearse first.lda a.script"), ("a.words", "make b.lda a.words"),
                            ("a.record", f"load first.lda {line.address} --record a.record")):
            interrupted = lambda call, name=name: call.fails(errno.EINTR) if call.name == "read" and call.file() == name else None
            with self.subTest(words):
                self.ends(traced.run(words.split(), interrupted, cwd=self.room), 4, "", fault(f"cannot read {name}"))
        line.settle()
        self.is_so(line.machine.typed, "")

    def test_a_terminal_that_takes_the_front_of_a_line(self):
        """And no more: though the end of a line was given, it did not come, and the program ends the line, for the shell's prompt to begin one."""
        taken = []

        def before(call):
            if call.name == "write" and call.arguments[0] == 1:
                taken.append(call)
                return call.takes(1) if len(taken) == 1 else call.fails(errno.EIO)
            return None

        given, shown = self.at_a_terminal(lambda it: traced.run(["check", "first.lda"], before, cwd=self.room, stdout=it, stderr=it))
        self.is_so((given.status, shown), (4, f"b{NO_OUTPUT}\n".replace("\n", "\r\n")))

    def test_what_was_made_in_vain_and_can_not_be_removed(self):
        """A full disk takes no byte of a record or of a tape, or nobody listens: that is told, and not why what was made for it stays."""
        nobody = self.taken_port()
        for words, text, why, stays in (
            ("load first.lda LINE --record a.record", "cannot write a.record", errno.ENOSPC, ["a.record", "a.record.ldaodt-new"]),
            ("save a.lda LINE 1000 1000", "cannot write a.lda", errno.ENOSPC, ["a.lda.part"]),
            (f"load first.lda {nobody} --record a.record", f"cannot connect to {nobody}", errno.ECONNREFUSED, ["a.record"]),
        ):
            def before(call, stays=stays):
                if call.name == "unlink":
                    return call.fails(errno.EROFS)
                return call.fails(errno.ENOSPC) if call.name == "write" and call.file() in stays else None

            with self.subTest(words):
                given = self.ask(self.console_at(Console()), words, before)
                self.holds(dict.fromkeys(stays, ""))
                for name in stays:
                    os.remove(self.path(name))
                self.ends(given, 4, "", fault(text, why))

    def test_a_system_without_a_descriptor(self):
        """The process has too many files open, or the whole system has: the tape that is open is read and closed, and the next is
        tried once more. Behind another error it is not."""
        self.put_tapes("two-words.lda")
        good = self.ldaodt("check first.lda two-words.lda")
        bad = lambda error: Answer(4, "", fault("cannot read two-words.lda", error))
        self.is_so(good.status, 0)
        for error, fails, tries, wanted in ((errno.EMFILE, 1, 2, good), (errno.ENFILE, 1, 2, good), *((error, 2, 2, bad(error)) for error in (errno.EMFILE, errno.ENFILE)),
                                            (errno.EACCES, 1, 1, bad(errno.EACCES))):
            asked = []

            def before(call, error=error, fails=fails, asked=asked):
                if call.opened() != "two-words.lda":
                    return None
                asked.append(call.name)
                return call.fails(error) if len(asked) <= fails else None

            with self.subTest(errno.errorcode[error], fails=fails):
                given = traced.run(["check", "first.lda", "two-words.lda"], before, cwd=self.room)
                self.is_so((given, len(asked)), (wanted, tries))

    def test_a_line_that_takes_no_time_limit(self):
        """A socket whose reads can't be limited, and a device that can't be made to answer at once: a load could wait at them
        for ever, and does not begin."""
        unlimited = lambda call: call.fails(errno.EINVAL) if call.name == "setsockopt" and tuple(call.arguments[1:3]) in TIME_LIMITS else None
        waiting = lambda call: call.fails(errno.EIO) if (call.name, call.arguments[1]) in NO_WAITING else None
        for line, before, why in ((self.console_at(Console()), unlimited, errno.EINVAL), (self.device_at(Console()), waiting, errno.EIO)):
            self.ends(self.load(line, before), 4, "", fault(f"cannot connect to {line.address}", why))
            self.holds({})
            self.is_so(line.machine.typed, "")


class Steps(Calls):
    """A record that is written where it is, behind a link, is looked at behind every call: each word that it says then is in
    memory."""

    MEMORY = {0o1000: 0o011064, 0o1002: 0, 0o1004: 0o777}

    def words_said(self):
        """The words that the record says, as far as their values are whole."""
        said = {}
        for line in bytes_of(self.path("b.record")).decode().split("\n")[1:]:
            address, *values = line.split(" ")
            said.update((int(address, 8) + 2 * place, int(value, 8)) for place, value in enumerate(values) if len(value) == 6)
        return said

    def load_over(self, text, before=lambda call: None):
        """Loads three words, of which two stand, with this record; returns the answer and the line."""
        line = self.console_at(Console(memory=self.MEMORY))
        self.put("three-words.lda", tape_of([(0o1000, b"\x34\x12\0\0\0\0")], 0o1000))
        self.put("b.record", text.encode())
        os.path.lexists(self.path("a.record")) or os.symlink("b.record", self.path("a.record"))
        untrue = []

        def looked_at(call):
            untrue.extend((call.name, it) for it, value in self.words_said().items() if line.machine.word(it) != value)
            return before(call)

        given = self.ask(line, "load three-words.lda LINE --record a.record", looked_at)
        self.is_so(untrue, [])
        return given, line

    def test_a_record_that_is_a_front_of_the_new_one_or_begins_with_it(self):
        for text in ("", "LDAODT", "LDAODT 2\n", "LDAODT 2\n001000 011064\n0010", "LDAODT 2\n001000 011064 00", "LDAODT 2\n001000 011064 000000\n"):
            with self.subTest(text):
                given, line = self.load_over(text)
                self.is_so((given.status, given.err, line.machine.starts), (0, "", [0o1000]))
                self.is_so(bytes_of(self.path("b.record")).decode(), "LDAODT 2\n001000 011064 000000 000000\nG\n")

    def test_a_record_of_which_a_byte_would_be_another_one(self):
        """It is as good as any. Written over it would say a third word, up to the cut: it stays as it is, and nothing is typed."""
        text, calls = "LDAODT 2\n001000 011064\n001002 000000\n", []
        given, line = self.load_over(text, lambda call: calls.append(call.name))
        self.ends(given, 4, "", NO_RECORD)
        self.is_so((bytes_of(self.path("b.record")).decode(), line.machine.typed, line.connections), (text, "", 0))
        self.is_so([it for it in calls if it in ("connect", "ftruncate", *SYNCS, *RENAMES)], [])


class Orders(Calls):
    """Which calls come, how often, and in which order."""

    def test_what_is_kept_is_on_the_disk_before_the_next_key(self):
        """The header, each word, and the mark, which is there before `G`; and the new record's name."""
        for record, names in WAYS:
            self.put("b.record", b"")
            os.path.lexists(self.path("a.link")) or os.symlink("b.record", self.path("a.link"))
            before, early, unsynced = self.is_synced(names)
            line = self.console_at(Console())
            self.ends(self.load(line, before, f"--record {record}"), 0, STARTED)
            self.is_so((early, unsynced), ([], set()))

    def ways_in_place(self):
        """A record that is written where it is: the name that a load has it by, that of its file, and that of the folder which this is in."""
        here = os.path.basename(self.room)
        os.mkdir(self.path("elsewhere"))
        os.symlink("elsewhere/b.record", self.path("a.link"))
        self.put("c.record", b"")
        os.link(self.path("c.record"), self.path("c.other"))
        os.mkdir(self.path("d.record.ldaodt-new"))
        return ("a.link", "elsewhere/b.record", "elsewhere"), ("c.record", "c.record", here), ("d.record", "d.record", here)

    def test_that_a_record_stands_in_its_folder_is_on_the_disk(self):
        """Before anything is written to it, also where it was there before: whoever made it, or renamed it there, may have died before
        that was, and a power cut would take it away, mark and all."""
        for record, file, folder in self.ways_in_place():
            for text, ended in (("", STARTED.replace("30", "16")), (VERIFIED, STOOD)):
                told = []

                def before(call):
                    if call.name in SYNCS and call.file() == folder:
                        told.append("folder")
                    elif call.name in WRITES and call.file() == os.path.basename(file):
                        told.append("written")

                self.put(file, text.encode())
                with self.subTest(record, text=text):
                    self.ends(self.load(self.console_at(Console(memory=HELD)), before, f"--record {record}"), 0, ended)
                    self.is_so((told[:2], bytes_of(self.path(file)).decode()), (["folder", "written"], MARKED))

    def test_a_folder_that_can_not_be_brought_to_the_disk(self):
        """Where that is tried and fails, nothing is written; a folder that may not be opened is passed over."""
        for record, file, folder in self.ways_in_place():
            place = os.path.realpath(os.path.dirname(self.path(file)))
            refused = Answer(4, "", fault(f"cannot write {record}", errno.EACCES))
            for fails, wanted, left in ((lambda call: call.name in SYNCS and call.file() == folder, refused, (VERIFIED, LOOKED)),
                                        (lambda call: call.opened() == place, Answer(0, STOOD, ""), (MARKED, LOOKED + "Z001000G"))):
                line = self.console_at(Console(memory=HELD))
                self.put(file, VERIFIED.encode())
                with self.subTest(record, left=left):
                    given = self.load(line, lambda call: call.fails(errno.EACCES) if fails(call) else None, f"--record {record}")
                    self.is_so((given, bytes_of(self.path(file)).decode(), line.machine.typed), (wanted, *left))

    def test_a_record_that_can_not_be_brought_to_the_disk(self):
        """The load ends there, and the key that was due is not sent: the first of all, the CR behind a word, and `G`."""
        for record, names in WAYS:
            for number, keys in ((1, 0), (2, 22), (3, 29)):
                self.put("b.record", b"")
                os.path.lexists(self.path("a.link")) or os.symlink("b.record", self.path("a.link"))
                synced = []

                def before(call):
                    if call.name == "fdatasync" and call.file() in names:
                        synced.append(call.name)
                        if len(synced) == number:
                            return call.fails(errno.EIO)

                with self.subTest(record, number=number):
                    line = self.console_at(Console())
                    report = f"sent {keys + 1} spent 0 verified 1 of 1\nend KeepFailed\n" if keys else ""
                    self.ends(self.load(line, before, f"--record {record}"), 4, report, fault(f"cannot write {record}", errno.EIO))
                    self.is_so((len(line.machine.typed), len(synced)), (keys, number))
                if os.path.exists(self.path("a.record")):
                    os.remove(self.path("a.record"))

    def is_synced(self, names):
        """What to do before each call to find what is not yet on the disk, of files of these names, where a key goes out, and at
        the end."""
        unsynced, early, folder = set(), [], os.path.basename(self.room)

        def before(call):
            if call.name in WRITES and call.file().startswith("socket:"):
                early.extend(unsynced)
            elif call.name in WRITES and call.file() in names:
                unsynced.add("record")
            elif call.name in SYNCS and call.file() in names:
                unsynced.discard("record")
            elif call.name in RENAMES:
                unsynced.add("name")
            elif call.name in SYNCS and call.file() == folder:
                unsynced.discard("name")
        return before, early, unsynced

    def test_so_it_is_far_behind_in_a_record(self):
        """Of words behind so many others, of which eight are looked at. Two are left, and stand."""
        words = [(address, 0o177777 - address) for address in range(0o1000, 0o60000, 2)]
        for count in (80, 1200, len(words)):
            texts = [f"{address:06o}" + "".join(f" {value:06o}" for _, value in words[first:first + 16][:count - 2 - first])
                     for first, (address, _) in list(enumerate(words[:count - 2]))[::16]]
            blocks = [(words[first][0], b"".join(value.to_bytes(2, "little") for _, value in words[first:min(first + 28, count)]))
                      for first in range(0, count, 28)]
            self.put("long.lda", tape_of(blocks, 0o1000))
            for record, names in WAYS:
                self.put("a.record", ("LDAODT 2\n" + "\n".join(texts)).encode())
                self.put("b.record", bytes_of(self.path("a.record")))
                os.path.lexists(self.path("a.link")) or os.symlink("b.record", self.path("a.link"))
                before, early, unsynced = self.is_synced(names)
                line = self.console_at(Console(memory=dict(words)))
                with self.subTest(record, count=count):
                    given = self.ask(line, f"load long.lda LINE --record {record}", before)
                    self.ends(given, 0, f"sent 89 spent 0 verified {count} of {count}\nend Started\n")
                    self.is_so((early, unsynced), ([], set()))

    def test_permissions_come_before_what_is_written(self):
        """Nobody whom the old record was kept from may read the new one, not for a moment."""
        self.put("a.record", VERIFIED.encode())
        os.chmod(self.path("a.record"), 0o600)
        told = []

        def before(call):
            if call.name in ("fchmod", *WRITES) and call.file() == "a.record.ldaodt-new":
                told.append(stat.S_IMODE(call.arguments[1]) if call.name == "fchmod" else "written")

        self.ends(self.load(self.console_at(Console(memory=HELD)), before), 0, STOOD)
        self.is_so((told[0], set(told[1:])), (0o600, {"written"}))

    def test_the_console_is_reached_once(self):
        """A device is opened once, since some adapters reset the machine where it is closed; a port is dialled once, also where
        nobody listens."""
        found = []
        device = self.device_at(Console())
        self.ends(self.load(device, lambda call: found.append(call.opened()), ""), 0, STARTED)
        self.is_so(found.count(device.address), 1)
        port = self.console_at(Console())
        ours, nobody = port.address, self.taken_port()
        for address, status in ((ours, 0), (nobody, 4)):
            found.clear()
            given = traced.run(["load", "first.lda", address, "--quiet", str(self.quiet)], lambda call: found.append(call.name), cwd=self.room)
            self.is_so((given.status, found.count("connect")), (status, 1))

    def test_much_is_read_at_once(self):
        """Of a tape as much as there is room for, and the rest of a block of 57,344 bytes whole; what a console has answered to a key with one
        read."""
        self.put("full.lda", tape_of([(0, b"\x55" * 57344)]))
        counts = collections.Counter()

        def before(call):
            if call.name in ("read", "recvfrom"):
                counts["line" if call.file().startswith("socket:") else call.file()] += 1

        given = traced.run(["load", "full.lda", "127.0.0.1:1"], before, cwd=self.room)
        self.is_so((given.status, 0 < counts["full.lda"] <= 3), (4, True))
        line = self.until_the_end(odt_peer.Peer(Console(), at_once=True))
        self.ends(self.load(line, before, ""), 0, STARTED)
        self.assertLessEqual(counts["line"], 1 + 30)

    def test_a_key_is_a_packet_of_its_own(self):
        """The socket is told so before the first key."""
        told = []

        def before(call):
            if call.name == "setsockopt" and tuple(call.arguments[1:3]) == NO_DELAY:
                told.append("no delay" if call.option() else "delay")
            elif call.name in WRITES and call.file().startswith("socket:"):
                told.append("key")

        self.ends(self.load(self.console_at(Console()), before, ""), 0, STARTED)
        self.is_so(told, ["no delay", *["key"] * 30])


if __name__ == "__main__":
    unittest.main()
