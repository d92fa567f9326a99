#!/usr/bin/env python3
"""A load in simulated time: the program, which is run, over a line whose characters take the time that they would take, however busy
this computer is.

    tools/paced_line.py [--baud N] [--latency MS] [--instruction US] WORD..

Runs ./ldaodt with these words, in which LINE stands for the line, at an LSI-11 that runs what is started, and prints what that took.

The clocks of the two ends may differ. What comes to the host comes later by the line's latency, as behind an adapter that holds
characters back. Where nothing more is to come, the host is left alone until it types or ends, and a quiet time of two seconds counts as
passed. The program is given each character alone, and each only once it waits for one: so what it types is known to be its answer, and
goes onto the line at the time at which it heard what it answers.
"""
import argparse
import os
import re
import resource
import select
import socket
import subprocess
import sys
import time
from collections import deque

sys.dont_write_bytecode = True
import lsi11
import odt_peer
from outside import PROGRAM, Answer, text_of

# In seconds: a silence, as the program means it without --quiet, and what an LSI-11 takes for an instruction.
QUIET, INSTRUCTION = 2, 7e-6

# How long to wait until the program is looked at once more.
GLANCE = 2e-5

# Of what Linux says of a process: its state, and how often it has begun to wait for something.
STATUS = re.compile(rb"^State:\t(.).*^voluntary_ctxt_switches:\t(\d+)", re.MULTILINE | re.DOTALL)


class PacedMachine(lsi11.RunningMachine):
    """A machine whose program runs when the line says so."""

    def printed(self):
        return "" if self.computer.is_running else self.halted()


class Ended(Exception):
    """The program has ended, or has closed its end of the line."""


class PacedLine:
    """A line to such a machine, for one load. Times are in instructions.

    A character of ten bits takes `character_time` of them at the host's clock, and at the machine's so much more as that is slower. What
    goes one way while the other one is busy is lost, both, where the line carries one way at a time."""

    def __init__(self, machine, baud, instruction=INSTRUCTION, slower=0, latency=0, is_one_way=False):
        self.machine, self.computer = machine, machine.computer
        self.character_time = 10 / baud / instruction
        self.computer.character_time = self.character_time * (1 + slower)
        self.instruction, self.latency, self.is_one_way = instruction, latency / instruction, is_one_way
        # What is under way each way, with the time at which it comes, and when each began and ended of those that were last on the line.
        self.keys, self.heard = deque(), deque()
        self.down, self.up = deque(maxlen=64), deque(maxlen=64)
        # The time, when the host's line is free, and how many characters have passed.
        self.time, self.free_at, self.passed = 0, 0, 0

    @property
    def seconds(self):
        return self.time * self.instruction

    def load(self, words, **named):
        """Runs the program with these words, in which LINE stands for the line; returns its answer."""
        with socket.create_server(("127.0.0.1", 0)) as listener:
            address = f"127.0.0.1:{listener.getsockname()[1]}"
            process = subprocess.Popen([PROGRAM, *(address if it == "LINE" else it for it in words)], stdin=subprocess.DEVNULL,
                                       stdout=subprocess.PIPE, stderr=subprocess.PIPE, **named)
            self.host, _ = listener.accept()
        with self.host, open(f"/proc/{process.pid}/status", "rb", buffering=0) as self.status:
            self.host.setsockopt(socket.IPPROTO_TCP, socket.TCP_NODELAY, 1)
            try:
                while True:
                    self.step()
            except (Ended, ConnectionError):
                pass
        out, err = process.communicate(timeout=60)
        return Answer(process.returncode, text_of(out), text_of(err))

    def step(self):
        """Does what comes next: a character comes to the machine or to the host, or there is a silence."""
        times = [it[0][0] for it in (self.keys, self.heard) if it]
        if self.machine.mode == odt_peer.RUNNING and self.goes_on(min(times, default=None)):
            return
        if not times:
            self.falls_silent()
        elif self.keys and self.keys[0][0] == min(times):
            self.time, key, on_the_line = self.keys.popleft()
            self.reaches_the_machine(key, on_the_line)
        else:
            self.time, character, on_the_line = self.heard.popleft()
            self.reaches_the_host(character, on_the_line)

    def is_lost(self, on_the_line, others):
        """Whether a character met one of the other way."""
        begun, ended = on_the_line
        return self.is_one_way and any(other_began < ended and begun < other_ended for other_began, other_ended in others)

    # ------------------------------------------------------------ the machine

    def goes_on(self, end):
        """Lets the program go on up to a time, or, without one, as long as it has something to do; returns whether more is under way."""
        computer = self.computer
        while computer.is_busy if end is None else computer.is_running and computer.time < end:
            character = computer.run_to(computer.time + computer.character_time if end is None else end)
            if character is not None:
                self.leaves(character)
            if not computer.is_running:
                self.says(self.machine.halted())
            if character is not None or not computer.is_running:
                return True
        return False

    def says(self, text):
        """ODT prints a text."""
        for character in text:
            self.computer.free_at = max(self.computer.free_at, self.computer.time) + self.computer.character_time
            self.leaves(ord(character))

    def leaves(self, character):
        """A character of the machine's has left. It has come once the line is free again."""
        ended = self.computer.free_at
        self.up.append((ended - self.computer.character_time, ended))
        self.heard.append((ended + self.latency, character, self.up[-1]))
        self.passed += 1

    def reaches_the_machine(self, key, on_the_line):
        self.computer.time = max(self.computer.time, self.time)
        if not self.is_lost(on_the_line, self.up):
            self.says(self.machine.take(chr(key)))

    # ------------------------------------------------------------ the host

    def reaches_the_host(self, character, on_the_line):
        """The host hears a character, and types what it types to it."""
        if self.is_lost(on_the_line, self.down):
            return
        _, before = self.state()
        self.host.sendall(bytes([character]))
        while (now := self.state()) and not (now[0] and now[1] > before):
            time.sleep(GLANCE)
        if is_there(self.host, 0):
            self.types()

    def falls_silent(self):
        """Waits for the host's next key, since nothing is under way."""
        is_there(self.host, None)
        while not self.state()[0]:
            time.sleep(GLANCE)
        self.time += QUIET / self.instruction
        self.types()

    def state(self):
        """Whether the program waits for something, and how often it has begun to."""
        state, waits = STATUS.search(os.pread(self.status.fileno(), 4096, 0)).groups()
        if state in (b"Z", b"X"):
            raise Ended
        return state == b"S", int(waits)

    def types(self):
        """What the host has typed goes onto the line."""
        keys = self.host.recv(64)
        if not keys:
            raise Ended
        for key in keys:
            begun = max(self.free_at, self.time)
            self.free_at = begun + self.character_time
            self.down.append((begun, self.free_at))
            self.keys.append((self.free_at, key, self.down[-1]))
        self.passed += len(keys)


def is_there(end, seconds):
    return bool(select.select([end], [], [], seconds)[0])


def main():
    words = argparse.ArgumentParser(description=__doc__, formatter_class=argparse.RawDescriptionHelpFormatter)
    words.add_argument("--baud", type=int, default=9600)
    words.add_argument("--latency", type=float, default=0, help="in milliseconds: %(default)s")
    words.add_argument("--instruction", type=float, default=INSTRUCTION * 1e6, help="in microseconds: %(default)s")
    words.add_argument("words", metavar="WORD", nargs=argparse.REMAINDER)
    asked = words.parse_args()
    line = PacedLine(PacedMachine(), asked.baud, asked.instruction / 1e6, latency=asked.latency / 1000)
    given = line.load(asked.words)
    used = resource.getrusage(resource.RUSAGE_CHILDREN)
    print(given.out + given.err, end="")
    print(f"characters {line.passed} seconds {line.seconds:.1f} character times {line.time / line.character_time:.0f} "
          f"microseconds of a processor for each {(used.ru_utime + used.ru_stime) * 1e6 / line.passed:.1f}")
    return given.status


if __name__ == "__main__":
    sys.exit(main())
