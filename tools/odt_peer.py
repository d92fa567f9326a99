#!/usr/bin/env python3
"""A simulated LSI-11 console behind a TCP port or a serial device, with a line that may lose or change characters, or break.

    tools/odt_peer.py [--port N | --device [--stty "SETTING.."]] [--console KIND] [--words N] [--style N]
                      [--says TEXT] [--loss PERCENT] [--seed N] [--baud N] [--break-after N] [--at-once]

It is a second console, written from docs/CONSOLE.md alone, for trying `ldaodt` from outside: the built
program meets a machine that shares no line of text with it. --console names one that is none as ldaodt
knows it: see CONSOLES. Without --port the system chooses one;
with --device it is behind a pseudo-terminal, which is set by stty as a person sets a serial device. It tells
its port or its device on its first line, and each start and each end of a connection after it. Its memory
lasts from one connection to the next, as that of a machine does whose cable is pulled. With --says the
program that is started prints TEXT. It never sees the network: it listens on 127.0.0.1.
"""
import argparse
import contextlib
import os
import pty
import random
import select
import socket
import subprocess
import sys
import threading
import time

RUNNING = "running"


class Machine:
    """An LSI-11 as its console shows it. What its program prints, once it is started, is pieces of text, each
    behind so many seconds."""

    # How many digits of a word it prints, what it prints again and again, unasked, and whether there is more to come without a key.
    width, chatter, is_busy = 6, "", False

    def __init__(self, words=28672, style=0, says=()):
        self.words = [0] * words
        self.blank = " " if style & 1 else ""
        self.newline = "\r\r\n" if style & 2 else "\r\n"
        self.echoes_illegal = bool(style & 4)
        self.mode, self.number, self.digits, self.open_at = "prompt", 0, 0, None
        self.starts, self.says = [], says

    def has_word(self, address):
        """Whether memory answers at this address."""
        return address % 2 == 0 and address // 2 < len(self.words)

    def word(self, address):
        return self.words[address // 2]

    def to_prompt(self, before=""):
        self.mode, self.number, self.digits, self.open_at = "prompt", 0, 0, None
        return f"{before}{self.newline}@"

    def take(self, key):
        """Takes one key, and returns all that the console prints to it."""
        if self.mode == RUNNING:
            return ""
        if key in "01234567":
            self.number = (self.number * 8 + int(key)) % 65536 if self.digits else int(key)
            self.digits += 1
            self.mode = {"prompt": "number", "open": "value"}.get(self.mode, self.mode)
            return key
        if key == "\r":
            if self.mode == "value":
                self.words[self.open_at // 2] = self.number
            return self.to_prompt()
        if self.mode == "number" and key == "/":
            if not self.has_word(self.number):
                return self.to_prompt("/?")
            self.mode, self.open_at, self.digits = "open", self.number, 0
            return f"/{self.blank}{self.word(self.open_at):0{self.width}o} "
        if self.mode == "number" and key == "G":
            if self.number % 2:
                return self.to_prompt("G?")
            self.mode = RUNNING
            self.starts.append(self.number)
            return "G"
        return self.to_prompt(f"{key}?" if self.echoes_illegal else "?")

    def go_on(self):
        """Lets a busy machine go on for a while; returns all that it prints meanwhile."""
        return ""


class StoringMachine(Machine):
    """An illegal key stores the digits that were typed into the open word."""

    def take(self, key):
        if self.mode == "value" and key not in "01234567\r":
            self.words[self.open_at // 2] = self.number
        return super().take(key)


class FoldingMachine(Machine):
    """It makes a capital of each small letter that is typed."""

    def take(self, key):
        return super().take(key.upper() if "a" <= key <= "z" else key)


class WideMachine(Machine):
    """It prints eight digits behind a `/`."""

    width = 8


class EchoingMachine(Machine):
    """A loop, or a terminal that sends back what comes."""

    def take(self, key):
        return key


class BootingMachine(Machine):
    """Another program: it echoes each key, and prints its prompt."""

    def take(self, key):
        return f"{key}\r\n$ "


class DeadMachine(Machine):
    """Nothing comes back from it, as where that wire is broken."""

    def take(self, key):
        super().take(key)
        return ""


class EndlessMachine(DeadMachine):
    """It prints for ever, and answers nothing besides."""

    chatter = "MEMORY TEST PASS\r\n"


CONSOLES = {
    "odt": Machine,
    "storing": StoringMachine,
    "folding": FoldingMachine,
    "wide": WideMachine,
    "echo": EchoingMachine,
    "boot": BootingMachine,
    "dead": DeadMachine,
    "endless": EndlessMachine,
}


def is_there(*ends, seconds=0):
    """Whether something can be read at one of these, now or within so many seconds."""
    return bool(select.select(ends, [], [], seconds)[0])


class Line:
    """A machine, and the line to it: subclasses say what the line is made of, and whether a key is waiting there."""

    def __init__(self, machine, loss=0.0, seed=0, close_after=None, takes_last=False, baud=None, tell=None, at_once=False, change=0.0, awake=False):
        self.machine, self.loss, self.change, self.baud = machine, loss, change, baud
        self.chance = random.Random(seed)
        # How many characters, keys and answers together, pass before the line breaks (None: it holds),
        # and whether a key that is the last of them still reaches the machine.
        self.close_after, self.takes_last = close_after, takes_last
        self.keys = self.answered = self.lost = self.changes = 0
        # Whether an answer is sent at once, as a bridge may do it, and not character by character. For lines that hold, lose and change
        # nothing and have no baud.
        self.at_once = at_once
        # Whether it keeps asking for keys and never sleeps, so that nobody who types has to wake it.
        self.awake = awake
        self.tell = tell or (lambda _text: None)
        self.is_hung_up = threading.Event()

    def talk(self, receive, send):
        """Lets the machine answer what is received, until nothing is; returns whether the line broke before."""
        with self.chattering(send):
            return self.is_over() or self.answer(receive, send)

    def answer(self, receive, send):
        """The same, beside what it prints unasked."""
        while self.go_on(send) and (keys := receive(64)):
            for key in keys.decode("latin-1"):
                self.keys += 1
                if self.is_over():
                    if self.takes_last:
                        self.machine.take(key)
                    return True
                self.wait_a_character()
                if self.loses():
                    continue
                starts = len(self.machine.starts)
                answer = self.machine.take(self.passed(key))
                is_started = len(self.machine.starts) > starts
                if is_started:
                    self.tell(f"started at {self.machine.starts[-1]:06o}")
                if not self.say(answer, send) or is_started and not self.run(send):
                    return True
        return self.is_over()

    def go_on(self, send):
        """Lets a busy machine go on until it waits for a key, or one is there; returns whether the line still holds."""
        while self.machine.is_busy and not self.is_key_there():
            if not self.say(self.machine.go_on(), send):
                return False
        return True

    @contextlib.contextmanager
    def chattering(self, send):
        """Lets the machine print meanwhile what it prints unasked."""
        if not self.machine.chatter:
            yield
            return
        is_over = threading.Event()

        def chatter():
            with contextlib.suppress(OSError):
                while not is_over.wait(0.001) and self.say(self.machine.chatter, send):
                    pass

        chatterer = threading.Thread(target=chatter)
        chatterer.start()
        try:
            yield
        finally:
            is_over.set()
            chatterer.join()

    def say(self, text, send):
        """Sends what the machine prints; returns whether the line still holds."""
        if self.at_once:
            send(text.encode("latin-1"))
            self.answered += len(text)
            return True
        for character in text:
            self.wait_a_character()
            if self.loses():
                continue
            send(self.passed(character).encode("latin-1"))
            self.answered += 1
            if self.is_over():
                return False
        return True

    def run(self, send):
        """Prints what the program prints; returns whether the line still holds."""
        for seconds, text in self.machine.says:
            if self.is_hung_up.wait(seconds) or not self.say(text, send):
                return False
        return True

    def wait_a_character(self):
        """Waits as long as a character of ten bits takes."""
        if self.baud:
            time.sleep(10 / self.baud)

    def loses(self):
        is_lost = self.chance.random() < self.loss
        self.lost += is_lost
        return is_lost

    def passed(self, character):
        """What becomes of a character on the line, which may change one of its seven bits."""
        if not self.change or self.chance.random() >= self.change:
            return character
        self.changes += 1
        return chr(ord(character) ^ 1 << self.chance.randrange(7))

    def is_over(self):
        return self.close_after is not None and self.keys + self.answered >= self.close_after

    def count(self):
        changed = f", {self.changes} changed" if self.change else ""
        return f"{self.keys} keys, {self.answered} characters answered, {self.lost} lost{changed}"


class Peer(Line):
    """A machine behind a port of this computer."""

    def __init__(self, machine, port=0, host="127.0.0.1", **named):
        super().__init__(machine, **named)
        self.connections, self.connection = 0, None
        family = socket.AF_INET6 if ":" in host else socket.AF_INET
        self.listener = socket.create_server((host, port), family=family)
        self.host, self.port = self.listener.getsockname()[:2]
        self.name = f"{host}:{self.port}"
        threading.Thread(target=self.serve, daemon=True).start()

    def serve(self):
        while True:
            try:
                connection, _ = self.listener.accept()
            except OSError:
                return
            self.connections += 1
            self.connection = connection
            self.tell("connected")
            with connection:
                try:
                    connection.setsockopt(socket.IPPROTO_TCP, socket.TCP_NODELAY, 1)
                    self.talk(self.receive, connection.sendall)
                    # A key that came and is not read would make of the close a reset, which the host tells apart.
                    connection.shutdown(socket.SHUT_WR)
                    while connection.recv(64):
                        pass
                except OSError:
                    pass
            self.tell(f"gone: {self.count()}")

    def receive(self, size):
        """Waits for keys."""
        while self.awake:
            try:
                return self.connection.recv(size, socket.MSG_DONTWAIT)
            except BlockingIOError:
                pass
        return self.connection.recv(size)

    def is_key_there(self):
        return is_there(self.connection)

    def settle(self, seconds=60):
        """Waits until all earlier callers are served, and what they sent is taken: connections are served in turn,
        so one of our own, which asks for nothing and isn't counted, ends after theirs."""
        with socket.create_connection((self.host, self.port), seconds) as ours:
            ours.shutdown(socket.SHUT_WR)
            while ours.recv(64):
                pass
        self.connections -= 1

    def close(self):
        self.listener.shutdown(socket.SHUT_RDWR)
        self.listener.close()


class Device(Line):
    """A machine at a serial device: a pseudo-terminal, set by stty. A line that breaks is one that is hung up, as
    that of an adapter which is pulled out; the device is then gone."""

    # A character that no host types: what was typed before it has come when it comes.
    LAST = b"\xff"

    # Where that can't be typed: how long the system may take to bring what was written at one end to the other.
    TRANSIT = 0.05

    def __init__(self, machine, settings="raw -echo", **named):
        super().__init__(machine, **named)
        self.ours, self.theirs = pty.openpty()
        # Theirs stays open with us, so that our end is not told of a hang-up when the program closes it.
        self.name = os.ttyname(self.theirs)
        self.set(settings)
        self.asks, self.asked = os.pipe()
        self.is_last = False
        self.is_settled = threading.Event()
        self.is_gone = threading.Event()
        threading.Thread(target=self.serve, daemon=True).start()

    def set(self, settings):
        """Sets the device, as a person does."""
        subprocess.run(["stty", "-F", self.name, *settings.split()], check=True)

    def serve(self):
        try:
            self.talk(self.receive, self.send)
        except OSError:
            pass
        os.close(self.ours)
        self.is_gone.set()
        self.is_settled.set()
        self.tell(f"gone: {self.count()}")

    def receive(self, size):
        """Waits for keys; answers whoever asks whether there are none left; nothing once it is closed."""
        while True:
            if self.is_last:
                self.is_last = False
                self.is_settled.set()
            ready, _, _ = select.select([self.ours, self.asks], [], [], 0 if self.awake else None)
            if self.ours in ready:
                keys = os.read(self.ours, size)
                self.is_last = self.LAST in keys
                keys = keys.replace(self.LAST, b"")
                if keys or not self.is_last:
                    return keys
            elif self.asks in ready:
                if os.read(self.asks, 1) == b"c":
                    return b""
                self.is_settled.set()

    def is_key_there(self):
        return is_there(self.ours, self.asks)

    def send(self, text):
        """Sends; a device at which nobody reads holds only so much, and the rest is lost, as on a real line."""
        _, ready, _ = select.select([], [self.ours], [], 0)
        if ready:
            os.write(self.ours, text)

    def settle(self, seconds=60):
        """Waits until what was typed is taken and answered."""
        self.is_settled.clear()
        if self.is_gone.is_set():
            return
        if not self.type_last():
            time.sleep(self.TRANSIT)
            os.write(self.asked, b"s")
        self.is_settled.wait(seconds)

    def type_last(self):
        """Types that character, behind all that was typed; returns whether it could, since output may be stopped."""
        try:
            end = os.open(self.name, os.O_WRONLY | os.O_NOCTTY | os.O_NONBLOCK)
        except OSError:
            return False
        try:
            return os.write(end, self.LAST) == 1
        except OSError:
            return False
        finally:
            os.close(end)

    def hang_up(self):
        """Hangs up: the device is gone for whoever has it open."""
        self.is_hung_up.set()
        if not self.is_gone.is_set():
            os.write(self.asked, b"c")
            self.is_gone.wait(60)

    def close(self):
        """Hangs up, and lets go of the device."""
        self.hang_up()
        for end in (self.theirs, self.asks, self.asked):
            os.close(end)


def main():
    words = argparse.ArgumentParser(description="A simulated LSI-11 console behind a TCP port or a serial device.")
    words.add_argument("--port", type=int, default=0)
    words.add_argument("--device", action="store_true", help="behind a pseudo-terminal, in place of a port")
    words.add_argument("--stty", default="raw -echo", help="how the device is set: %(default)s")
    words.add_argument("--console", choices=CONSOLES, default="odt", help="which console: %(default)s")
    words.add_argument("--words", type=int, default=28672)
    words.add_argument("--style", type=int, choices=range(8), default=0)
    words.add_argument("--says", default="", help="what the program prints that is started; \\r and \\n as there")
    words.add_argument("--loss", type=float, default=0, help="of a hundred characters, each way")
    words.add_argument("--change", type=float, default=0, help="of a hundred characters, each way, by one bit of seven")
    words.add_argument("--seed", type=int, default=0)
    words.add_argument("--baud", type=int)
    words.add_argument("--break-after", type=int, help="characters, keys and answers together, after which the line is dead")
    words.add_argument("--at-once", action="store_true", help="each answer as a whole, as a bridge may send it; alone")
    words.add_argument("--awake", action="store_true", help="it never sleeps, so that nobody who types has to wake it")
    asked = words.parse_args()
    tell = lambda text: print(text, flush=True)
    says = asked.says.encode("latin-1").decode("unicode_escape")
    machine = CONSOLES[asked.console](asked.words, asked.style, [(0, says)])
    named = {"loss": asked.loss / 100, "change": asked.change / 100, "seed": asked.seed, "close_after": asked.break_after, "baud": asked.baud, "at_once": asked.at_once, "awake": asked.awake, "tell": tell}
    line = Device(machine, asked.stty, **named) if asked.device else Peer(machine, asked.port, **named)
    try:
        tell(line.name)
        threading.Event().wait()
    except KeyboardInterrupt:
        return 0


if __name__ == "__main__":
    sys.exit(main())
