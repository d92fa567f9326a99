"""tools/track.py, with which tools/hostile makes its small load short: a machine that follows a track answers each key as one that is
computed, on the track and off it, and ends as that does."""
import unittest

from cases import Case
from programs import ECHO, placed
from track import FollowingMachine, RecordedMachine, TrackMachine

# Words that are looked at and deposited, a program that echoes what it hears up to a Z, and words behind that.
DEPOSITS = "".join(f"{address:o}/{word:o}\r" for address, word in placed(ECHO).items() if word)
KEYS = f"Z{DEPOSITS}1000GhelloZ{DEPOSITS}20/123\r20/\r"


def answers(machine, keys):
    """What a machine answers to each key, that goes on by itself before the next as long as it has something to do."""
    given = []
    for key in keys:
        given.append(machine.take(key))
        while machine.is_busy:
            given[-1] += machine.go_on()
    return given


class Tracks(Case):
    """One track, and machines that are typed these keys, or others."""

    @classmethod
    def setUpClass(cls):
        recorded = RecordedMachine(words=1024)
        cls.recorded, cls.track = answers(recorded, KEYS), recorded.track()

    def follows(self, keys):
        """Types the same at both; returns the one that followed."""
        computed, following = TrackMachine(words=1024), FollowingMachine(words=1024)
        following.follow(self.track)
        self.is_so(answers(following, keys), answers(computed, keys))
        self.is_so((following.likeness(), following.starts), (computed.likeness(), computed.starts))
        return following

    def test_what_is_recorded_is_what_is_computed(self):
        self.is_so(self.recorded, answers(TrackMachine(words=1024), KEYS))

    def test_the_track_itself(self):
        self.is_so(self.follows(KEYS).place, len(self.track.steps) - 1)

    def test_a_key_that_is_lost(self):
        """Each key in turn, behind which all is typed once more."""
        for lost in range(len(KEYS)):
            self.follows(KEYS[:lost] + KEYS[lost + 1:lost + 20] + "Z" + KEYS[lost + 1:])

    def test_it_comes_back_to_the_track(self):
        """Behind a key that is none, with a Z and without one, it is what it was at that prompt; of two that are the same the later one goes on."""
        for number, key in enumerate(KEYS):
            if key == "/" and "G" not in KEYS[:number]:
                first = KEYS.rindex("Z" if "\r" not in KEYS[:number] else "\r", 0, number) + 1
                for behind in ("xZ", "x"):
                    machine = self.follows(KEYS[:number] + behind + KEYS[first:number + 2])
                    self.assertIsNotNone(machine.place)

    def test_another_word(self):
        """A track that goes elsewhere is left for good."""
        machine = self.follows(KEYS.replace("12706", "12707", 1))
        self.assertIsNone(machine.place)

    def test_a_key_that_the_program_hears(self):
        self.follows(KEYS.replace("hello", "help"))


if __name__ == "__main__":
    unittest.main()
