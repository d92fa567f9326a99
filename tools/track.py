"""A machine that is recorded through one life, and machines that go the same way again without being computed.

A machine is an automaton: at a state a key leads to one answer and one state. A track has the steps of a life: what the machine was like
before each, the key, or none where it went on by itself, and the answer. A machine on a track answers as that says, as long as its keys
are the track's. At another key it becomes the machine that it is there, and is computed, until it comes to a prompt at which it is what it
was at one of the track's. So it answers at each key what a machine answers, and only sooner."""
import contextlib
import pickle
from typing import NamedTuple

import odt_peer
from lsi11 import RunningMachine

class Step(NamedTuple):
    """What the machine was like before, and whether something was to be expected of it without a key; the key, if there was one; the answer;
    where something was started."""
    state: bytes
    is_busy: bool
    key: str | None
    answer: str
    starts: list

    @property
    def size(self):
        """How many characters pass."""
        return bool(self.key) + len(self.answer)


class Track(NamedTuple):
    """The steps, of which the last one is none; and at which the machine was at a prompt, by what it was like there."""
    steps: list
    prompts: dict


# How long a key is waited for that the track has next while the machine would go on without one, in seconds.
KEY_TIME = 0.02


class TrackMachine(RunningMachine):
    """A machine whose state can be kept and taken up."""

    STATE = ("words", "computer", "mode", "number", "digits", "open_at")

    def state(self):
        return pickle.dumps([getattr(self, name) for name in self.STATE])

    def take_up(self, state):
        for name, value in zip(self.STATE, pickle.loads(state)):
            setattr(self, name, value)

    def likeness(self):
        """All that decides what it does from a prompt on. Times are counted from now."""
        computer, line = self.computer, self.computer.line
        halves = [(it.is_ready, it.may_interrupt, it.wants) for it in (line.receiver, line.transmitter)]
        return (tuple(self.words), self.number, self.digits, self.open_at, tuple(computer.processor.registers), computer.processor.status,
                *halves, line.received, line.leaving, max(0, computer.free_at - computer.time))


class RecordedMachine(TrackMachine):
    """A machine whose steps are kept."""

    def __init__(self, *named, **more):
        super().__init__(*named, **more)
        self.steps, self.prompts = [], {}

    def take(self, key):
        return self.kept_step(key, lambda: super(RecordedMachine, self).take(key))

    def go_on(self):
        return self.kept_step(None, super().go_on)

    def kept_step(self, key, compute):
        state, is_busy, starts = self.state(), self.is_busy, len(self.starts)
        if self.mode == "prompt":
            # Of several at which it is the same, as before a Z and behind it, the last one goes on.
            self.prompts[self.likeness()] = len(self.steps)
        answer = compute()
        self.steps.append(Step(state, is_busy, key, answer, self.starts[starts:]))
        return answer

    def track(self):
        return Track([*self.steps, Step(self.state(), self.is_busy, "", "", [])], self.prompts)


class FollowingMachine(TrackMachine):
    """A machine on a track, or off it."""

    # The number of the next step; none off the track.
    place = None

    def follow(self, track):
        self.track, self.place = track, 0

    @property
    def next(self):
        return None if self.place is None else self.track.steps[self.place]

    @property
    def is_busy(self):
        return self.next.is_busy if self.next else super().is_busy

    @property
    def key_is_due(self):
        """Whether the track has a key next."""
        return bool(self.next and self.next.key)

    def take(self, key):
        return self.goes(key, lambda: super(FollowingMachine, self).take(key))

    def go_on(self):
        return self.goes(None, super().go_on)

    def goes(self, key, compute):
        step = self.next
        if step and step.key == key:
            self.place += 1
            self.starts += step.starts
            return step.answer
        self.leave_track()
        answer = compute()
        if self.mode == "prompt":
            self.place = self.track.prompts.get(self.likeness())
        return answer

    def likeness(self):
        self.come_up()
        return super().likeness()

    def come_up(self):
        """Becomes what it is, also on the track."""
        if self.next:
            self.take_up(self.next.state)

    def leave_track(self):
        self.come_up()
        self.place = None

    def skip_to(self, place):
        """Is at a later step, without having been asked for those before."""
        self.starts += [start for step in self.track.steps[self.place:place] for start in step.starts]
        self.place = place

    def characters_left(self):
        """How many characters pass before something happens to one; none where nothing will."""
        return None


class FollowingPeer:
    """For a peer, before its class: it takes each key alone, and goes along the track in one loop. What was sent arrives, also where
    nobody hears any more."""

    def answer(self, receive, send):
        while (key := self.goes_along(receive, send)) or self.go_on(send) and (key := receive(1)):
            self.keys += 1
            self.say(self.machine.take(key.decode("latin-1")), send)
        return False

    def goes_along(self, receive, send):
        """Goes along the track up to a character to which something happens. Returns a key that is not the track's, or nothing."""
        machine, key = self.machine, b""
        if machine.place is None:
            return key
        left, steps, place = machine.characters_left(), machine.track.steps, machine.place
        while place < len(steps) - 1:
            step = steps[place]
            if left is not None and (left := left - step.size) < 0:
                break
            if step.key:
                if step.is_busy and not odt_peer.is_there(self.connection, seconds=KEY_TIME) or (key := receive(1)) != step.key.encode():
                    break
                key = b""
            self.say_along(step.answer, send)
            place += 1
        machine.skip_to(place)
        return key

    def say_along(self, text, send):
        try:
            if text:
                send(text.encode("latin-1"))
        except OSError:
            pass

    def say(self, text, send):
        with contextlib.suppress(OSError):
            super().say(text, send)
        return True

    def is_key_there(self):
        return odt_peer.is_there(self.connection, seconds=KEY_TIME * self.machine.key_is_due)
