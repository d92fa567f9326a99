#!/usr/bin/env python3
"""Loads that share a record, in every order in which their system calls can come.

    tests/record_model.py [--large] [SEQUENCE..]        without a SEQUENCE: all of them

A load is the sequence of calls by which `ldaodt load` takes its record, holds it, begins it anew and goes on to the
start (docs/RECORD.md, "One load at a time"); a word of the tape, the mark and the start stand for the rest of its life. A
call is one step. Each load may die before any step, as many of them as a case allows, and its connection may fail. From
each state of FILE every order of the steps is walked, and after each step this has to hold:

    two       no two loads go on from the record at once
    not-held  while a load goes on, from the record's beginning on, its name of FILE leads to the record that it writes
              and holds
    lost      no mark goes: neither overwritten, nor replaced, nor removed
    removed   no load takes a record with a word away because its own life came to nothing
    touched   no load removes, renames or replaces a file that another holds
    twice     the program is started once at most

and at the end:

    nobody    where none died and no connection failed, a load has started the program
    left      where none died, no new file lies beside FILE that was not there before

RIGHT is the program's sequence. Each of the others differs in one thing, and shows that the walk sees it: what it finds
there is listed in SEQUENCES. The walk knows nothing of a person who moves or removes FILE.
"""
import collections
import dataclasses
import functools
import sys

FILE, NEW = "FILE", "FILE.ldaodt-new"
SECOND, SECOND_NEW = "SECOND", "SECOND.ldaodt-new"

EMPTY, WORD, MARKED = (0, False), (1, False), (1, True)
ATTEMPTS = 8


# ---------------------------------------------------------------- the ways to a record

@dataclasses.dataclass(frozen=True)
class Way:
    """How a load comes to its record. Another path to the same name in the same folder is no other way."""
    name: str = FILE
    new: str = NEW
    # a link to FILE: the calls follow it, but for the one that makes a file
    is_link: bool = False
    # whether files can be made beside FILE
    has_room: bool = True


PLAIN = Way()
LINK = Way(is_link=True)
HARD = Way(name=SECOND, new=SECOND_NEW)
SHUT = Way(has_room=False)


@dataclasses.dataclass(frozen=True)
class Sequence:
    """In which order the calls of a load come, and which of them are left out."""
    # FILE is made where it is absent; else such a load holds nothing
    makes_file: bool = True
    # FILE is looked at again once it is held
    looks_again: bool = True
    # .. and once more before the rename
    looks_before_rename: bool = True
    # when the new file is taken: before the rename, after it, or never
    holds_new: str = "before"
    # until when the old file is held: the end, the rename, or until right before that
    holds_old: str = "end"
    # a FILE with a second hard name is written in place
    minds_second_name: bool = True
    # a FILE that this load made goes while it is held, or after it was let go
    removes_made: str = "held"
    # .. only where nothing stood in it when it was read
    removes_made_only_empty: bool = True
    # .. also where a link leads to it, and so another load may have made it
    removes_behind_link: bool = False


# ---------------------------------------------------------------- a load: it yields calls, and is sent their answers

class Over(Exception):
    """A load is over."""


def held(of, way):
    """Takes the record: answers the file that is held, and whether this load made it; none where none is held."""
    for _ in range(ATTEMPTS):
        made = False
        file = yield "stat", way.name
        if file is not None:
            file = yield "open", way.name
        elif not of.makes_file:
            return None, False
        elif way.is_link:
            file, made = (yield "open or make", way.name), of.removes_behind_link
        else:
            file = yield "make", way.name
            made = file is not None
        if file is None:
            continue
        if not (yield "hold", file):
            raise Over
        if not of.looks_again or (yield "stat", way.name) == file:
            return file, made
        yield "let go", file
    raise Over


def new_file(of, way):
    """Makes the new file, and takes it; none where that can't be."""
    new = yield "make", way.new
    if new is None:
        stale = yield "open", way.new
        if stale is None or not (yield "hold", stale):
            return None
        yield "remove", way.new
        yield "let go", stale
        new = yield "make", way.new
    if new is not None and of.holds_new == "before" and not (yield "hold", new):
        return None
    return new


def renamed(of, way, file, text):
    """Begins the record in a new file; none where none can be made."""
    new = yield from new_file(of, way)
    if new is None:
        return None
    yield "write", new, text
    if of.looks_before_rename and (yield "stat", way.name) != file:
        yield "remove", way.new
        raise Over
    if of.holds_old == "until right before the rename" and file is not None:
        yield "let go", file
    if (yield "rename", way.new, way.name) is None:
        raise Over
    yield "note", "begun", new
    if of.holds_new == "after":
        yield "hold", new
    if of.holds_old == "rename" and file is not None:
        yield "let go", file
    return new


def in_place(way, file, text):
    """Begins the record where it stands: through the file that is held."""
    if file is None:
        file = yield "open or make", way.name
    yield "note", "begun", file
    yield "write", file, EMPTY
    yield "write", file, text
    return file


def life(of, way):
    """A load, from its first look at FILE to its end."""
    file, made = yield from held(of, way)
    text = (yield "read", file) if file is not None else EMPTY
    is_tidy = made and (text == EMPTY or not of.removes_made_only_empty)
    if text[1]:
        if is_tidy:
            yield "remove", way.name
        raise Over
    yield "note", "goes on", None
    if not (yield "connect",):
        if is_tidy and of.removes_made == "released":
            yield "let go", file
        if is_tidy:
            yield "remove", way.name
        raise Over
    record = None
    has_two = of.minds_second_name and file is not None and (yield "has a second name", file)
    if way.has_room and not way.is_link and not has_two:
        record = yield from renamed(of, way, file, text)
    if record is None:
        record = yield from in_place(way, file, text)
    if text == EMPTY:
        yield "write", record, WORD
    yield "write", record, MARKED
    yield "start",


def begun_in(new, text, way):
    """A record begun in a new file and renamed over FILE, the rest of the words, and the start."""
    yield "write", new, text
    if (yield "rename", way.new, way.name) is None:
        raise Over
    yield "note", "begun", new
    if text == EMPTY:
        yield "write", new, WORD
    yield "write", new, MARKED
    yield "start",


def without_a_lock(_, way):
    """A load that takes nothing: FILE is read, and replaced by a new file."""
    file = yield "open", way.name
    text = (yield "read", file) if file is not None else EMPTY
    if text[1]:
        raise Over
    yield "note", "goes on", None
    new = yield "make", way.new
    if new is None:
        yield "remove", way.new
        new = yield "make", way.new
    if new is None:
        raise Over
    yield from begun_in(new, text, way)


def new_file_first(_, way):
    """A load that takes the new file before it looks at FILE, and removes one that nobody holds."""
    for _ in range(3):
        new = yield "make", way.new
        if new is None:
            stale = yield "open", way.new
            if stale is None:
                continue
            if not (yield "hold", stale):
                raise Over
            if (yield "stat", way.new) == stale:
                yield "remove", way.new
            yield "let go", stale
            continue
        if not (yield "hold", new):
            raise Over
        if (yield "stat", way.new) == new:
            break
        yield "let go", new
    else:
        raise Over
    file = yield "open", way.name
    text = (yield "read", file) if file is not None else EMPTY
    if text[1]:
        yield "remove", way.new
        raise Over
    yield "note", "goes on", None
    yield from begun_in(new, text, way)


# ---------------------------------------------------------------- the file system

class Broken(Exception):
    """A call did what no load may do."""


class Disk:
    """Names, what the files hold, and which load holds each file. A file without a name lives on."""

    def __init__(self, names, texts, holders, starts):
        self.names, self.texts, self.holders, self.starts = dict(names), list(texts), list(holders), starts

    def value(self):
        return tuple(sorted(self.names.items())), tuple(self.texts), tuple(self.holders), self.starts

    def new(self, name):
        self.texts.append(EMPTY)
        self.holders.append(None)
        self.names[name] = len(self.texts) - 1
        return self.names[name]

    def is_anothers(self, file, load):
        return file is not None and self.holders[file] not in (None, load)

    def let_go(self, load):
        """What a load that is over held is free."""
        self.holders = [None if holder == load else holder for holder in self.holders]

    def call(self, load, way, what, *of):
        """Does a call of a load, and answers it."""
        if what in ("stat", "open"):
            return self.names.get(of[0])
        if what == "make":
            is_refused = of[0] in self.names or way.is_link or (of[0] == way.new and not way.has_room)
            return None if is_refused else self.new(of[0])
        if what == "open or make":
            return self.names[of[0]] if of[0] in self.names else self.new(of[0])
        if what == "hold":
            if self.is_anothers(of[0], load):
                return False
            self.holders[of[0]] = load
            return True
        if what == "let go":
            if self.holders[of[0]] == load:
                self.holders[of[0]] = None
            return None
        if what == "read":
            return self.texts[of[0]]
        if what == "write":
            if self.texts[of[0]][1] and not of[1][1]:
                raise Broken("lost")
            self.texts[of[0]] = of[1]
            return None
        if what == "has a second name":
            return list(self.names.values()).count(of[0]) > 1
        if what == "remove":
            return self.remove(load, *of)
        if what == "rename":
            return self.rename(load, *of)
        if what == "start":
            self.starts += 1
            return None
        raise ValueError(what)

    def remove(self, load, name):
        file = self.names.pop(name, None)
        if self.is_anothers(file, load):
            raise Broken("touched")
        if file is not None and name in (FILE, SECOND):
            if self.texts[file][1]:
                raise Broken("lost")
            if self.texts[file][0]:
                raise Broken("removed")

    def rename(self, load, new, name):
        file, old = self.names.pop(new, None), self.names.get(name)
        if file is None:
            return None
        if self.is_anothers(file, load) or self.is_anothers(old, load):
            raise Broken("touched")
        if old is not None and self.texts[old][1] and not self.texts[file][1]:
            raise Broken("lost")
        self.names[name] = file
        return file


# ---------------------------------------------------------------- the walk

# A load that is not over: the answers to its calls so far, whether it goes on, and the record that it has begun.
Running = collections.namedtuple("Running", "answers goes_on record")
ENDED, DIED = "ended", "died"

# What can happen: how FILE and the new file stand at the beginning, the way of each load, how many of them may die,
# and whether connections may fail.
Case = collections.namedtuple("Case", "begins ways deaths fails")

BEGINNINGS = {
    "absent": ({}, ()),
    "empty": ({FILE: 0}, (EMPTY,)),
    "word": ({FILE: 0}, (WORD,)),
    "marked": ({FILE: 0}, (MARKED,)),
    "stale": ({NEW: 0}, (WORD,)),
    "empty, stale": ({FILE: 0, NEW: 1}, (EMPTY, WORD)),
}


@functools.lru_cache(None)
def after(sequence, way, answers):
    """What a load does that got these answers: whether it goes on, the record that it has begun, and its next call,
    none where it is over."""
    load, goes_on, record, call = sequence(way), False, None, None
    sent = iter((None, *answers))
    try:
        call = load.send(next(sent))
        while True:
            if call[0] == "note":
                goes_on, record = True, call[2]
                call = load.send(None)
                continue
            answer = next(sent, load)
            if answer is load:
                return goes_on, record, call
            call = load.send(answer)
    except (Over, StopIteration):
        return goes_on, record, None


class Walk:
    """All orders of one case."""

    def __init__(self, sequence, case):
        self.sequence, self.case, self.found = sequence, case, {}
        names, texts = BEGINNINGS[case.begins]
        self.names = {**names, **({SECOND: 0} if HARD in case.ways and FILE in names else {})}
        first = Disk(self.names, texts, [None] * len(texts), 0).value(), (Running((), False, None),) * len(case.ways), case.deaths, False
        self.came_from = {first: None}
        self.states = collections.deque([first])

    def run(self):
        """Walks; answers how many states there are. What was found stands in `found`, each with a shortest way to it."""
        while self.states:
            state = self.states.popleft()
            _, loads, deaths, failed = state
            live = [number for number, load in enumerate(loads) if isinstance(load, Running)]
            for number in live:
                self.step(state, number)
                if deaths:
                    self.dies(state, number)
            if not live:
                self.ends(state)
        return len(self.came_from)

    def step(self, state, number):
        disk, loads, deaths, failed = state
        way, load = self.case.ways[number], loads[number]
        _, _, call = after(self.sequence, way, load.answers)
        if call is None:
            return self.leaves(state, number, ENDED, "ends")
        if call[0] == "connect":
            self.goes_to(state, number, disk, True, "connected", failed)
            if self.case.fails:
                self.goes_to(state, number, disk, False, "not connected", True)
            return None
        now = Disk(*disk)
        try:
            answer = now.call(number, way, *call)
        except Broken as broken:
            return self.finds(str(broken), state, f"{number}: {' '.join(map(str, call))}")
        if now.starts > 1:
            self.finds("twice", state, f"{number}: start")
        return self.goes_to(state, number, now.value(), answer, " ".join(map(str, call)), failed)

    def goes_to(self, state, number, disk, answer, told, failed):
        """A load got an answer."""
        _, loads, deaths, _ = state
        answers = loads[number].answers + (answer,)
        goes_on, record, call = after(self.sequence, self.case.ways[number], answers)
        if call is None:
            return self.leaves((disk, loads, deaths, failed), number, ENDED, told, state)
        load = Running(answers, goes_on, record)
        return self.put((disk, loads[:number] + (load,) + loads[number + 1:], deaths, failed), state, f"{number}: {told} = {answer}")

    def dies(self, state, number):
        disk, loads, deaths, failed = state
        self.leaves((disk, loads, deaths - 1, failed), number, DIED, "dies", state)

    def leaves(self, state, number, how, told, before=None):
        """A load is over, and holds nothing any more."""
        disk, loads, deaths, failed = state
        now = Disk(*disk)
        now.let_go(number)
        self.put((now.value(), loads[:number] + (how,) + loads[number + 1:], deaths, failed), before or state, f"{number}: {told}, {how}")

    def put(self, state, before, told):
        if state not in self.came_from:
            self.came_from[state] = before, told
            self.states.append(state)
            self.looks_at(state)

    def looks_at(self, state):
        """What has to hold after each step."""
        (names, _, holders, _), loads, _, _ = state
        names = dict(names)
        going = [(number, load) for number, load in enumerate(loads) if isinstance(load, Running) and load.goes_on]
        if len(going) > 1:
            self.finds("two", state)
        for number, load in going:
            if load.record is not None and (names.get(self.case.ways[number].name) != load.record or holders[load.record] != number):
                self.finds("not-held", state)

    def ends(self, state):
        """What has to hold where all loads are over."""
        (names, _, _, starts), loads, _, failed = state
        if DIED in loads:
            return
        if not failed and not starts and self.case.begins != "marked":
            self.finds("nobody", state)
        if any(name in (NEW, SECOND_NEW) and self.names.get(name) != file for name, file in names):
            self.finds("left", state)

    def finds(self, what, state, told=None):
        if what in self.found:
            return
        steps = [told] if told else []
        while self.came_from[state]:
            state, step = self.came_from[state]
            steps.append(step)
        self.found[what] = self.case, list(reversed(steps))


# ---------------------------------------------------------------- the sequences and the cases

RIGHT = Sequence()


def variant(**changed):
    return functools.partial(life, dataclasses.replace(RIGHT, **changed))


# Each sequence, and what is found of it in the small cases.
SEQUENCES = {
    "right": (variant(), ""),
    "no lock": (functools.partial(without_a_lock, None), "lost nobody not-held twice two"),
    "not looked at again": (variant(looks_again=False), "lost not-held removed twice"),
    "not looked at again, nor before the rename": (variant(looks_again=False, looks_before_rename=False), "lost not-held removed twice"),
    "an absent file is not made": (variant(makes_file=False), "lost not-held touched twice two"),
    "the new file is not held": (variant(holds_new="never"), "lost not-held twice two"),
    "the new file is held after the rename": (variant(holds_new="after"), "lost not-held twice two"),
    "the old file is let go before the rename": (variant(holds_old="until right before the rename"), "lost touched two"),
    "a second name is not minded": (variant(minds_second_name=False), "twice"),
    "a second name is not minded, the old file is let go after the rename": (variant(holds_old="rename", minds_second_name=False), "twice two"),
    "a made file goes after it was let go": (variant(removes_made="released"), "lost removed touched two"),
    "a made file goes whatever stands in it": (variant(removes_made_only_empty=False), "lost removed"),
    "a file behind a link goes whatever stands in it": (variant(removes_behind_link=True, removes_made_only_empty=False), "lost removed"),
    "the new file is taken first": (functools.partial(new_file_first, None), "lost nobody touched twice two"),
}


def small_cases():
    """Two loads in each way from each state, of which one may die, and connections that fail."""
    for begins in BEGINNINGS:
        for ways in ((PLAIN, PLAIN), (PLAIN, LINK), (PLAIN, SHUT), (PLAIN, HARD)):
            if HARD in ways and begins not in ("empty", "word"):
                continue
            yield Case(begins, ways, 1, True)


def three_cases():
    """Three loads by one name, of which none dies."""
    return [Case(begins, (PLAIN,) * 3, 0, False) for begins in BEGINNINGS]


def large_cases():
    """Two loads of which both may die, and three, of which one may. Half a minute and more for a sequence."""
    for begins in BEGINNINGS:
        for second in (PLAIN, LINK, SHUT, HARD):
            if second is HARD and begins not in ("empty", "word", "marked", "empty, stale"):
                continue
            yield Case(begins, (PLAIN, second), 2, True)
            yield Case(begins, (second, second), 2, True)
            yield Case(begins, (PLAIN, PLAIN, second), 0, True)
            yield Case(begins, (PLAIN, PLAIN, second), 1, False)


def walk_all(sequence, cases):
    """What is found of a sequence in all these cases, each once, and how many states there are."""
    found, states = {}, 0
    for case in cases:
        walk = Walk(sequence, case)
        states += walk.run()
        for what, shown in walk.found.items():
            found.setdefault(what, shown)
    return found, states


def is_as_wanted(found, wanted, is_large=False):
    """Whether there was found what SEQUENCES tells; in the large cases it may be more."""
    wanted = set(wanted.split())
    return wanted <= set(found) and bool(wanted) == bool(found) if is_large else wanted == set(found)


def main(words):
    cases = list(large_cases() if "--large" in words else small_cases())
    names = [word for word in words if word != "--large"] or list(SEQUENCES)
    wrong = False
    for name in names:
        sequence, wanted = SEQUENCES[name]
        found, states = walk_all(sequence, cases)
        print(f"{name}: {' '.join(sorted(found)) or 'nothing is found'} ({states} states)", flush=True)
        for what, (case, steps) in sorted(found.items()):
            ways = ", ".join(next(k for k, v in globals().items() if v is way) for way in case.ways)
            print(f"    {what}: FILE {case.begins}; loads {ways}\n        " + "\n        ".join(steps))
        wrong |= not is_as_wanted(found, wanted, "--large" in words)
    return 1 if wrong else 0


if __name__ == "__main__":
    sys.exit(main(sys.argv[1:]))
