"""The table of a disk's calls (`crates/disk_law/specs/Disk.antt`), as far as a process sees what they do: against the system's
own files, and against the disk of the walk over shared records (`record_model.py`).

What a crash may leave no process sees, and a sync changes nothing that is seen.
"""
import os
import random
import re
import tempfile
import unittest

import record_model
from outside import TOP

TABLE = f"{TOP}/crates/disk_law/specs/Disk.antt"
NAMES = (record_model.FILE, record_model.NEW, record_model.SECOND)


class Table:
    """The rows, of what is seen: which file a name leads to, and what a file holds."""

    def __init__(self):
        self.leads, self.holds = {}, {}

    def made(self, name, number):
        self.leads[name], self.holds[number] = number, b""

    def linked(self, name, to):
        self.leads[to] = self.leads[name]

    def renamed(self, name, to):
        self.leads[to] = self.leads.pop(name)

    def removed(self, name):
        del self.leads[name]

    def cut(self, number, length):
        self.holds[number] = self.holds[number][:length]

    def written(self, number, at, text):
        was = self.holds[number]
        self.holds[number] = was[:at] + text + was[at + len(text):]

    def value(self):
        """What each name's file holds, and which names share one."""
        return {name: (self.holds[number], sorted(n for n in self.leads if self.leads[n] == number)) for name, number in self.leads.items()}


class System:
    """The same calls of the system, in a folder of their own."""

    def __init__(self, folder):
        self.folder, self.files = folder, {}

    def path(self, name):
        return os.path.join(self.folder, name)

    def made(self, name, number):
        self.files[number] = os.open(self.path(name), os.O_RDWR | os.O_CREAT | os.O_EXCL)

    def linked(self, name, to):
        os.link(self.path(name), self.path(to))

    def renamed(self, name, to):
        os.rename(self.path(name), self.path(to))

    def removed(self, name):
        os.remove(self.path(name))

    def cut(self, number, length):
        os.ftruncate(self.files[number], length)

    def written(self, number, at, text):
        os.pwrite(self.files[number], text, at)

    def folder_synced(self):
        folder = os.open(self.folder, os.O_RDONLY)
        os.fsync(folder)
        os.close(folder)

    def file_synced(self, number):
        os.fsync(self.files[number])

    def value(self):
        names = os.listdir(self.folder)
        inodes = {name: os.stat(self.path(name)).st_ino for name in names}
        return {name: (self.text(name), sorted(n for n in names if inodes[n] == inodes[name])) for name in names}

    def text(self, name):
        with open(self.path(name), "rb") as file:
            return file.read()

    def close(self):
        for file in self.files.values():
            os.close(file)


def calls_on(table, chance):
    """A call that may come next, with what it is given. A rename between two names of one file does nothing, and a load has none."""
    free = [name for name in NAMES if name not in table.leads]
    used = list(table.leads)
    calls = [("made", name, len(table.holds)) for name in free]
    calls += [("linked", name, to) for name in used for to in free]
    calls += [("renamed", name, to) for name in used for to in NAMES if table.leads.get(to) != table.leads[name]]
    calls += [("removed", name) for name in used]
    for number, text in table.holds.items():
        calls += [("file_synced", number), ("cut", number, chance.randint(0, len(text)))]
        calls.append(("written", number, chance.randint(0, len(text)), chance.randbytes(chance.randint(1, 9))))
    return chance.choice(calls + [("folder_synced",)])


class DiskTable(unittest.TestCase):
    """Some hundred calls in a row, by chance."""

    def test_each_row_is_here(self):
        """A row that is added to the table is to be compared, too."""
        with open(TABLE, encoding="utf-8") as file:
            text = file.read()
        rows = set(re.findall(r"^after kind d \((?:Asked i \(Did|Written|Synced).*= (\w+)", text, re.MULTILINE))
        self.assertEqual(rows, {"made", "linked", "renamed", "removed", "folder_synced", "cut", "file_synced", "written"})

    def test_the_system_does_what_the_table_says(self):
        for seed in range(20):
            with self.subTest(seed=seed), tempfile.TemporaryDirectory() as folder:
                chance, table, system = random.Random(seed), Table(), System(folder)
                self.addCleanup(system.close)
                for _ in range(100):
                    call, *of = calls_on(table, chance)
                    getattr(system, call)(*of)
                    if not call.endswith("_synced"):
                        getattr(table, call)(*of)
                    self.assertEqual(system.value(), table.value(), (call, of))

    def test_the_walk_has_the_same_disk(self):
        """Of what the walk knows: names, and which of them share a file."""
        shared = {"made": "make", "renamed": "rename", "removed": "remove"}
        for seed in range(20):
            with self.subTest(seed=seed):
                chance, table = random.Random(seed), Table()
                disk = record_model.Disk({}, (), (), 0)
                for _ in range(100):
                    call, *of = calls_on(table, chance)
                    if call in shared:
                        getattr(table, call)(*of)
                        disk.call(0, record_model.PLAIN, shared[call], *(of[:1] if call == "made" else of))
                        self.assertEqual(disk.names, table.leads, (call, of))


if __name__ == "__main__":
    unittest.main()
