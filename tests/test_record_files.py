"""Which files are a record, from outside: nothing but a record is replaced, nothing that is protected is written, and what
can be no record is refused at once. And what a load makes for its record, and takes away again.
"""
import errno
import os
import re
import shutil
import socket
import stat
import tempfile
import unittest

from cases import Case, Console
from outside import PROGRAM, Answer, bytes_of, fault, run, tape_of

MARKED = "LDAODT 2\n001000 011064\nG\n"
VERIFIED = "LDAODT 2\n001000 011064\n"
STARTED = "sent 30 spent 0 verified 1 of 1\nend Started\n"
NO_RECORD = "ldaodt: record refused: NotARecord\n"

# Nobody in particular, for a program that root may not help.
SOMEBODY = 65534


def as_somebody():
    """Gives root's rights up, where the tests are run with them."""
    if os.geteuid() == 0:
        os.setgroups([])
        os.setgid(SOMEBODY)
        os.setuid(SOMEBODY)


class Files(Case):
    """A load has first.lda in its folder."""

    def setUp(self):
        super().setUp()
        self.put_tapes("first.lda", "no-word.lda", "two-words.lda", "bad-sum.lda")
        self.peer = self.console_at(Console())

    def load(self, record, tape="first.lda", more="", seconds=20, **named):
        """Loads with a record, within some seconds."""
        words = ["load", tape, self.peer.address, *more.split(), "--quiet", str(self.quiet), "--record", record]
        given = run(words, cwd=self.room, seconds=seconds, **named)
        self.peer.settle()
        return given

    def is_untouched(self, path, before):
        """Asserts that a file is the one that it was, with what it held and when it was written."""
        now = os.lstat(self.path(path))
        self.is_so((now.st_ino, now.st_mode, now.st_size, now.st_mtime_ns), (before.st_ino, before.st_mode, before.st_size, before.st_mtime_ns))

    def was_nothing_typed(self, connections=0):
        self.is_so((self.peer.machine.typed, self.peer.connections), ("", connections))


class NoRecords(Files):
    """What stands at FILE can't be a record."""

    def test_notes_and_binaries(self):
        """A file without a line end that no record begins with is somebody's: it stays, whether the machine is there."""
        texts = (b"hello", b"G", b"L DAODT 2", b"LDAODT2", b"LDAODT 3", b"LDAODT 22", b"LDAODT 2 ", b"LDAODT 2\r", b"ldaodt 2",
                 b"\0", b"\xff\0", b"\x7fELF\2\1\1\0", b" LDAODT 2", b"LDAODT\0", b"x" * 5000)
        for text in texts:
            with self.subTest(text[:20]):
                self.put("a.record", text)
                before = os.lstat(self.path("a.record"))
                self.ends(self.load("a.record"), 3, "", NO_RECORD)
                self.is_untouched("a.record", before)
                self.is_so(bytes_of(self.path("a.record")), text)
        self.was_nothing_typed()
        self.is_so([it for it in os.listdir(self.room) if "ldaodt-new" in it], [])

    def test_each_front_of_a_header_is_an_empty_record(self):
        for header in (b"LDAODT 1", b"LDAODT 2"):
            for length in range(len(header) + 1):
                with self.subTest(header[:length]):
                    self.put("a.record", header[:length])
                    self.peer.machine = Console()
                    self.ends(self.load("a.record"), 0, STARTED)
                    self.holds({"a.record": MARKED})

    def test_a_tape_as_its_own_record(self):
        """By each name, with the tape in each place, and before anything else is looked at."""
        os.symlink("first.lda", self.path("a.link"))
        os.symlink(".", self.path("folder"))
        os.link(self.path("first.lda"), self.path("hard.lda"))
        before = os.lstat(self.path("first.lda"))
        for record in ("first.lda", "./first.lda", self.path("first.lda"), "a.link", "folder/first.lda", "hard.lda"):
            for tape, more in (("first.lda", ""), ("./first.lda", ""), ("two-words.lda", "first.lda"), ("two-words.lda", "no-word.lda hard.lda")):
                with self.subTest(record, tape=tape, more=more):
                    self.ends(self.load(record, tape, more), 3, "", NO_RECORD)
                    self.is_untouched("first.lda", before)
        self.assertTrue(os.path.islink(self.path("a.link")))
        self.was_nothing_typed()

    def test_another_tape_as_record(self):
        """It has no line end, or a first line that is no header."""
        for name in ("two-words.lda", "no-word.lda", "bad-sum.lda"):
            before = os.lstat(self.path(name))
            self.ends(self.load(name), 3, "", NO_RECORD)
            self.is_untouched(name, before)
        self.was_nothing_typed()

    def test_folders(self):
        os.mkdir(self.path("folder"))
        os.symlink("folder", self.path("a.link"))
        for name in (".", "folder", "folder/", "a.link", "/"):
            self.ends(self.load(name), 4, "", fault(f"cannot read {name}"))
        self.is_so(os.listdir(self.path("folder")), [])
        self.was_nothing_typed()

    def test_pipes(self):
        """Nobody writes to the pipe, so that whoever opened it to read would wait without end; and where somebody has, what
        was written is not read."""
        os.mkfifo(self.path("pipe"))
        os.symlink("pipe", self.path("a.link"))
        for name in ("pipe", "a.link"):
            self.ends(self.load(name), 4, "", fault(f"cannot read {name}"))
        ours = os.open(self.path("pipe"), os.O_RDWR | os.O_NONBLOCK)
        self.addCleanup(os.close, ours)
        os.write(ours, b"LDAODT 2\n")
        self.ends(self.load("pipe"), 4, "", fault("cannot read pipe"))
        self.is_so(os.read(ours, 100), b"LDAODT 2\n")
        self.assertTrue(stat.S_ISFIFO(os.lstat(self.path("pipe")).st_mode))
        self.was_nothing_typed()

    def test_sockets_and_odd_links(self):
        with socket.socket(socket.AF_UNIX) as it:
            os.symlink(self.room, shorter := f"/tmp/{os.path.basename(self.room)}.short")
            self.addCleanup(os.remove, shorter)
            it.bind(f"{shorter}/socket")
            os.symlink("round", self.path("round"))
            reasons = {"socket": None, "round": errno.ELOOP, "first.lda/a.record": errno.ENOTDIR, "x" * 300: errno.ENAMETOOLONG}
            for name, why in reasons.items():
                self.ends(self.load(name), 4, "", fault(f"cannot read {name}", why))
        self.was_nothing_typed()

    def test_a_folder_that_is_not_there(self):
        """The record can't be made, which is seen before there is a connection; so with a link that leads there."""
        os.symlink("no-such/a.record", self.path("a.link"))
        for name in ("no-such/a.record", "a.link"):
            self.ends(self.load(name), 4, "", fault(f"cannot write {name}", errno.ENOENT))
        self.was_nothing_typed()
        self.is_so(sorted(os.listdir(self.room)), sorted(["a.link", "bad-sum.lda", "first.lda", "no-word.lda", "two-words.lda"]))


class Protected(Files):
    """A record that whoever loads may not write."""

    def setUp(self):
        super().setUp()
        os.chmod(self.room, 0o777)
        # Somebody may have no way to the repository.
        folder = tempfile.mkdtemp(prefix="outside-")
        self.addCleanup(shutil.rmtree, folder)
        os.chmod(folder, 0o755)
        self.program = shutil.copy(PROGRAM, folder)

    def load(self, record, **named):
        return super().load(record, setup=as_somebody, executable=self.program, **named)

    def protect(self, text, mode=0o444):
        """A record that may not be written. Where the tests are root's it is root's, too."""
        if os.path.exists(self.path("a.record")):
            os.remove(self.path("a.record"))
        self.put("a.record", text.encode())
        os.chmod(self.path("a.record"), mode)
        return os.lstat(self.path("a.record"))

    def test_a_life_that_goes_on(self):
        """In a folder that may be written, where the record could be replaced."""
        for text in ("", VERIFIED, "LDAODT 2\n", "LDAODT 1\n001000 177777 011064\n"):
            before = self.protect(text)
            self.ends(self.load("a.record"), 4, "", fault("cannot write a.record", errno.EACCES))
            self.is_untouched("a.record", before)
        before = self.protect(VERIFIED)
        self.ends(self.load("a.record", more="--recheck"), 4, "", fault("cannot write a.record", errno.EACCES))
        self.is_untouched("a.record", before)
        self.holds({"a.record": VERIFIED})
        self.was_nothing_typed()

    def test_behind_a_link(self):
        before = self.protect(VERIFIED)
        os.symlink("a.record", self.path("a.link"))
        self.ends(self.load("a.link"), 4, "", fault("cannot write a.link", errno.EACCES))
        self.is_untouched("a.record", before)
        self.was_nothing_typed()

    def test_a_life_that_is_over(self):
        """Nothing has to be written, and it says so as ever."""
        before = self.protect(MARKED)
        for more in ("", "--recheck"):
            self.ends(self.load("a.record", more=more), 6, "sent 0 spent 0 verified 1 of 1\nend MaybeStarted\n")
        self.is_untouched("a.record", before)
        before = self.protect(VERIFIED)
        self.ends(self.load("a.record", more="no-word.lda"), 0, "sent 0 spent 0 verified 1 of 1\nend Loaded\n")
        self.is_untouched("a.record", before)
        self.was_nothing_typed()

    def test_a_file_that_may_not_be_read(self):
        before = self.protect(VERIFIED, 0)
        self.ends(self.load("a.record"), 4, "", fault("cannot read a.record", errno.EACCES))
        self.is_untouched("a.record", before)
        self.was_nothing_typed()

    def test_a_folder_that_may_not_be_written(self):
        """A record that is there is written in place, and one that is not can't be made."""
        os.mkdir(self.path("shut"))
        self.put("shut/a.record", b"")
        os.chmod(self.path("shut/a.record"), 0o666)
        os.chmod(self.path("shut"), 0o555)
        before = os.lstat(self.path("shut/a.record"))
        self.ends(self.load("shut/a.record"), 0, STARTED)
        self.is_so(bytes_of(self.path("shut/a.record")).decode(), MARKED)
        self.is_so(os.lstat(self.path("shut/a.record")).st_ino, before.st_ino)
        self.ends(self.load("shut/b.record"), 4, "", fault("cannot write shut/b.record", errno.EACCES))
        self.is_so(os.listdir(self.path("shut")), ["a.record"])
        os.chmod(self.path("shut"), 0o755)


class OutOfReach(Files):
    """Records that a rename would not reach: they are written in place, and only where no byte becomes another one."""

    ROW = b"\1\0\2\0\3\0"

    # the words of ROW are 1, 2 and 3; of these records none begins with the text that a load of it writes, nor is its beginning
    OTHERS = (b"LDAODT 2\n001000 000001\n001002 000002\n", b"LDAODT 2\n001000 000001\n001002 000002 000003\n",
              b"LDAODT 2\n001000 000001 000002\n001004 000003", b"LDAODT 1\n001000 177777 000001\n001002 177777 000002\n",
              b"LDAODT 1\n001000 177777 000001", b"LDAODT 1\n", b"LDAODT 1")

    def setUp(self):
        super().setUp()
        self.put("row.lda", tape_of(((0o1000, self.ROW),), 0o1000))
        self.peer.machine = Console(memory={0o1000: 1, 0o1002: 2, 0o1004: 3})

    def by_a_link(self, text):
        self.put("b.record", text)
        os.symlink("b.record", self.path("a.record"))

    def by_a_second_name(self, text):
        self.put("b.record", text)
        os.link(self.path("b.record"), self.path("a.record"))

    def refuses(self, text, more=""):
        """Asserts that a load makes no connection, and that the record is byte for byte what it was."""
        before = os.lstat(self.path("b.record"))
        self.ends(self.load("a.record", tape="row.lda", more=more), 4, "", fault("cannot write a.record"))
        self.is_untouched("b.record", before)
        self.is_so(bytes_of(self.path("b.record")), text)
        self.was_nothing_typed(connections=0)
        self.is_so([it for it in os.listdir(self.room) if "ldaodt-new" in it], [])

    def test_a_text_that_is_not_written_over(self):
        """It is refused before there is a connection. By one name it is replaced."""
        for put in (self.by_a_link, self.by_a_second_name):
            for text in self.OTHERS:
                with self.subTest(put.__name__, text=text):
                    put(text)
                    self.refuses(text)
                    os.remove(self.path("a.record"))
        self.put("a.record", self.OTHERS[0])
        self.ends(self.load("a.record", tape="row.lda"), 0, "sent 33 spent 0 verified 3 of 3\nend Started\n")
        self.is_so(bytes_of(self.path("a.record")), b"LDAODT 2\n001000 000001 000002 000003\nG\n")

    def test_where_only_trying_shows_it(self):
        """No file can be made beside it: it is refused behind the looks, and before any other key."""
        os.mkdir(self.path("a.record.ldaodt-new"))
        for number, text in enumerate(self.OTHERS, 1):
            with self.subTest(text=text):
                self.put("a.record", text)
                before = os.lstat(self.path("a.record"))
                self.ends(self.load("a.record", tape="row.lda"), 4, "", fault("cannot write a.record"))
                self.is_untouched("a.record", before)
                self.is_so(bytes_of(self.path("a.record")), text)
                self.assertIsNone(re.search(r"/[0-7]|[^0-7/\rZ]", self.peer.machine.typed))
                self.is_so(self.peer.connections, number)

    def test_with_recheck(self):
        """No word is taken: what is written then is the header, which every record of version 2 begins with."""
        self.by_a_link(self.OTHERS[3])
        self.refuses(self.OTHERS[3], more="--recheck")
        self.put("b.record", self.OTHERS[0])
        self.ends(self.load("a.record", tape="row.lda", more="--recheck"), 0, "sent 32 spent 0 verified 3 of 3\nend Started\n")
        self.is_so(bytes_of(self.path("b.record")), b"LDAODT 2\n001000 000001 000002 000003\nG\n")

    def test_a_text_that_is_written_over(self):
        """Of what stands there and of what is written, one is a front of the other. A word that stands takes as many keys whether the
        record has it or not, but for one `Z`."""
        for put in (self.by_a_link, self.by_a_second_name):
            for text, sent in ((b"", 32), (b"LDAODT", 32), (b"LDAODT 2\n", 32), (b"LDAODT 2\n001000 0000", 32), (b"LDAODT 2\n001000 000001", 33),
                               (b"LDAODT 2\n001000 000001 0000", 33), (b"LDAODT 2\n001000 000001 000002\n", 33), (b"LDAODT 2\n001000 000001 000002 000003\n", 33)):
                with self.subTest(put.__name__, text=text):
                    put(text)
                    before = os.lstat(self.path("b.record"))
                    self.peer.machine = Console(memory={0o1000: 1, 0o1002: 2, 0o1004: 3})
                    self.ends(self.load("a.record", tape="row.lda"), 0, f"sent {sent} spent 0 verified 3 of 3\nend Started\n")
                    self.is_so(bytes_of(self.path("b.record")), b"LDAODT 2\n001000 000001 000002 000003\nG\n")
                    self.is_so(os.lstat(self.path("b.record")).st_ino, before.st_ino)
                    os.remove(self.path("a.record"))

    def test_a_life_that_is_over(self):
        """Nothing has to be written, and it says so as ever."""
        text = b"LDAODT 1\n001000 177777 000001\n001002 177777 000002\n001004 177777 000003\nG\n"
        for put in (self.by_a_link, self.by_a_second_name):
            put(text)
            before = os.lstat(self.path("b.record"))
            self.ends(self.load("a.record", tape="row.lda"), 6, "sent 0 spent 0 verified 3 of 3\nend MaybeStarted\n")
            self.is_untouched("b.record", before)
            self.was_nothing_typed(connections=0)
            os.remove(self.path("a.record"))


class Made(Files):
    """What a load makes, and takes away where it came to nothing."""

    def to_nobody(self, record, **named):
        """A load of a machine that is not there: the port is taken, so that nobody else can have it, and not listened at."""
        with socket.socket() as taken:
            taken.bind(("127.0.0.1", 0))
            address = f"127.0.0.1:{taken.getsockname()[1]}"
            self.peer.address, ours = address, self.peer.address
            given = self.load(record, **named)
            self.peer.address = ours
        self.is_so(given, Answer(4, "", fault(f"cannot connect to {address}", errno.ECONNREFUSED)))

    def test_no_connection(self):
        self.to_nobody("a.record")
        self.holds({})
        for text in ("", "LDAODT 2", VERIFIED):
            self.put("a.record", text.encode())
            before = os.lstat(self.path("a.record"))
            self.to_nobody("a.record")
            self.is_untouched("a.record", before)
        self.holds({"a.record": VERIFIED})

    def test_no_connection_behind_a_link(self):
        """The link stays, and nothing but an empty record stands behind it."""
        os.symlink("b.record", self.path("a.record"))
        self.to_nobody("a.record")
        self.is_so(os.readlink(self.path("a.record")), "b.record")
        self.is_so(bytes_of(self.path("b.record")), b"")
        self.is_so([it for it in os.listdir(self.room) if "ldaodt-new" in it], [])

    def test_nothing_to_do(self):
        self.ends(self.load("a.record", "no-word.lda"), 0, "sent 0 spent 0 verified 0 of 0\nend Loaded\n")
        self.holds({})

    def test_a_tape_that_is_refused(self):
        self.ends(self.load("a.record", "bad-sum.lda"), 3, "", "ldaodt: tape refused at 9: BadSum\n")
        self.ends(self.load("a.record", "no-such.lda"), 4, "", fault("cannot read no-such.lda", errno.ENOENT))
        self.holds({})

    def test_a_link_that_leads_nowhere(self):
        """The record is made where the link leads."""
        os.symlink("b.record", self.path("a.record"))
        self.ends(self.load("a.record"), 0, STARTED)
        self.is_so(os.readlink(self.path("a.record")), "b.record")
        self.is_so(bytes_of(self.path("b.record")).decode(), MARKED)

    def test_a_full_disk_before_the_record_is_begun(self):
        """A record that was made for this load is gone, or is empty; one that stood is as it was."""
        given = self.load("a.record", file_size=0)
        self.ends(given, 4, "", fault("cannot write a.record", errno.EFBIG))
        self.assertIn(bytes_of(self.path("a.record")), (b"",))
        self.is_so(self.peer.machine.typed, "")
        self.put("a.record", VERIFIED.encode())
        before = os.lstat(self.path("a.record"))
        self.peer.machine = Console(memory={0o1000: 0o011064})
        self.ends(self.load("a.record", file_size=0), 4, "", fault("cannot write a.record", errno.EFBIG))
        self.is_untouched("a.record", before)
        self.is_so(self.peer.machine.typed, "Z001000/\r")

    def test_permissions_stay(self):
        self.put("a.record", b"")
        os.chmod(self.path("a.record"), 0o640)
        self.ends(self.load("a.record"), 0, STARTED)
        self.is_so(stat.S_IMODE(os.stat(self.path("a.record")).st_mode), 0o640)

    def test_two_hard_names(self):
        """A rename would leave the old record under the other name: it is written in place."""
        self.put("a.record", b"")
        os.link(self.path("a.record"), self.path("b.record"))
        self.ends(self.load("a.record"), 0, STARTED)
        self.holds({"a.record": MARKED, "b.record": MARKED})
        self.is_so(os.stat(self.path("a.record")).st_ino, os.stat(self.path("b.record")).st_ino)
        self.ends(self.load("b.record"), 6, "sent 0 spent 0 verified 1 of 1\nend MaybeStarted\n")

    def test_what_a_dead_load_left(self):
        """It is replaced, whatever stands in it, also where that is longer than the new record."""
        for text in (b"", b"cut short", MARKED.encode(), MARKED.encode() + b"LDAODT 2\n" * 9):
            self.put("a.record", VERIFIED.encode())
            self.put("a.record.ldaodt-new", text)
            self.peer.machine = Console(memory={0o1000: 0o011064})
            self.ends(self.load("a.record"), 0, "sent 17 spent 0 verified 1 of 1\nend Started\n")
            self.holds({"a.record": MARKED})

    def test_long_names(self):
        """The new record's name is longer by eleven characters. Where no name is so long, the record is written in place."""
        folder = "/".join(["d" * 200] * 3)
        os.makedirs(self.path(folder))
        for name, is_in_place in ((folder + "/a.record", False), ("r" * 244, False), ("r" * 245, True), ("r" * 255, True)):
            with self.subTest(name[:9], length=len(name)):
                self.put(name, b"")
                before = os.lstat(self.path(name))
                self.peer.machine = Console()
                self.ends(self.load(name), 0, STARTED)
                self.is_so(bytes_of(self.path(name)).decode(), MARKED)
                self.is_so(os.lstat(self.path(name)).st_ino == before.st_ino, is_in_place)

    def is_written_in_place(self):
        """A load keeps an empty record in the file that it has, and not in a new one."""
        self.put("a.record", b"")
        before = os.lstat(self.path("a.record"))
        self.ends(self.load("a.record"), 0, STARTED)
        self.is_so(bytes_of(self.path("a.record")).decode(), MARKED)
        self.is_so(os.lstat(self.path("a.record")).st_ino, before.st_ino)

    def test_a_folder_in_the_new_files_place(self):
        """The record is written in place then."""
        os.mkdir(self.path("a.record.ldaodt-new"))
        self.is_written_in_place()
        os.rmdir(self.path("a.record.ldaodt-new"))

    def test_a_link_in_the_new_files_place(self):
        """It is somebody's, wherever it leads: the record is written in place."""
        self.put("b.file", b"hello")
        for target in ("b.file", "no-such"):
            os.symlink(target, self.path("a.record.ldaodt-new"))
            self.peer.machine = Console()
            self.is_written_in_place()
            self.is_so(os.readlink(self.path("a.record.ldaodt-new")), target)
            os.remove(self.path("a.record.ldaodt-new"))
        self.is_so(bytes_of(self.path("b.file")), b"hello")

    def test_a_pipe_in_the_new_files_place(self):
        """It is not opened, since nobody may ever write to it: the record is written in place."""
        os.mkfifo(self.path("a.record.ldaodt-new"))
        self.is_written_in_place()
        self.assertTrue(stat.S_ISFIFO(os.lstat(self.path("a.record.ldaodt-new")).st_mode))


if __name__ == "__main__":
    unittest.main()
