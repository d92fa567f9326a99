"""SIMH's PDP-11, set up as an LSI-11, for tests that compare with it. Debian's package `simh` has it, as the command `pdp11`."""
import os
import re
import resource
import shutil
import socket
import subprocess
import tempfile
import time

SECONDS = 30

# What SIMH may write to a file. At the end of its input it would print prompts for ever.
MOST_BYTES = 100_000_000

LSI_11 = ("set cpu 11/03", "set cpu noeis", "set cpu nofis")

# The line clock of SIMH's LSI-11 can't be switched off. At priority 0 it interrupts after 16,667 instructions, if no RESET came before;
# with these words, a vector and an RTI, a program may ignore it.
NO_CLOCK = {0o100: 0o200, 0o102: 0o340, 0o200: 0o000002}


REGISTERS = ("R0", "R1", "R2", "R3", "R4", "R5", "SP", "PC")


def ask_for(test):
    """Leaves a test out where SIMH is not installed."""
    if not shutil.which("pdp11"):
        test.skipTest("not installed here: pdp11")


def limit():
    resource.setrlimit(resource.RLIMIT_FSIZE, (MOST_BYTES, MOST_BYTES))


def said_to(commands, seconds=SECONDS):
    """Gives SIMH commands, and returns all that it said to them within so many seconds."""
    with tempfile.TemporaryDirectory(prefix="simh-") as room:
        with open(f"{room}/commands", "w") as file:
            file.write("".join(f"{it}\n" for it in (*LSI_11, *commands, "exit")))
        with open(f"{room}/said", "wb") as said:
            subprocess.run(["pdp11", f"{room}/commands"], stdin=subprocess.DEVNULL, stdout=said, stderr=said,
                           timeout=seconds, check=False, preexec_fn=limit)
        return text_at(f"{room}/said")


def text_at(path, place=0):
    with open(path, "rb") as file:
        file.seek(place)
        return file.read().decode("latin-1").replace("\r", "")


def words_in(said):
    """The words that SIMH was asked for by `examine -o`, by their addresses."""
    return {int(address, 8): int(word, 8) for address, word in re.findall(r"^([0-7]+):\t([0-7]{6})$", said, re.MULTILINE)}


def registers_in(said):
    """The registers that SIMH was asked for, by their names."""
    return {name: int(value, 8) for name, value in re.findall(r"^(R[0-5]|SP|PC|PSW):\t([0-7]+)", said, re.MULTILINE)}


class Simh:
    """SIMH in a process, which takes commands and, on its console line, characters.

    A character comes every so many instructions, and needs two to leave. The console's line is a port of this computer, on which SIMH
    speaks Telnet: a byte 377 is doubled. It is never asked for WILL BINARY, since the 000 of that would reach the program."""

    def __init__(self, pace):
        self.room = tempfile.mkdtemp(prefix="simh-")
        self.steps, self.came, self.line = 0, b"", socket.socket()
        os.mkfifo(f"{self.room}/commands")
        with open(f"{self.room}/said", "wb") as said:
            self.process = subprocess.Popen(["pdp11", f"{self.room}/commands"], stdin=subprocess.DEVNULL, stdout=said, stderr=said,
                                            preexec_fn=limit)
        # Opened for both, so that this does not wait for SIMH to open its end.
        self.commands = os.fdopen(os.open(f"{self.room}/commands", os.O_RDWR), "w", buffering=1)
        port = free_port()
        self.do(*LSI_11, "set tti 8b", "set tto 8b", f"deposit tti time {pace}", "deposit tto time 2", f"set console telnet={port}")
        self.line.connect(("127.0.0.1", port))
        self.line.setsockopt(socket.IPPROTO_TCP, socket.TCP_NODELAY, 1)
        self.line.settimeout(SECONDS)

    def begin(self, *commands):
        """Gives SIMH commands, the last of which makes a file when they are done; returns its name."""
        self.steps += 1
        done = f"{self.room}/done-{self.steps}"
        self.commands.write("".join(f"{it}\n" for it in (*commands, f"! touch {done}")))
        return done

    def wait(self, done):
        """Waits until commands are done."""
        end = time.monotonic() + SECONDS
        while not os.path.exists(done):
            if self.process.poll() is not None or time.monotonic() > end:
                raise TimeoutError(f"SIMH did not come to an end: {self.said_since(0)[-500:]}")
            time.sleep(0.001)

    def do(self, *commands):
        """Gives SIMH commands, and returns what it said to them."""
        before = self.place()
        self.wait(self.begin(*commands))
        return self.said_since(before)

    def place(self):
        """How much SIMH has said by now."""
        return os.path.getsize(f"{self.room}/said")

    def said_since(self, place):
        """What SIMH has said since then."""
        return text_at(f"{self.room}/said", place)

    def send(self, characters):
        """Puts characters on the line, back to back."""
        self.line.sendall(characters.replace(b"\xff", b"\xff\xff"))

    def shown(self):
        """All that the machine has shown: without Telnet's bytes and SIMH's own line."""
        text = re.sub(rb"\xff[\xfb-\xfe].", b"", self.came, flags=re.DOTALL).replace(b"\xff\xff", b"\xff").decode("latin-1")
        return re.sub("\n\r\nConnected to.*\r\n\n", "", text)

    def hear(self, count):
        """All that the machine has shown, once that is so many characters."""
        while len(self.shown()) < count:
            # SIMH sends character by character, each only when the one before was acknowledged.
            self.line.setsockopt(socket.IPPROTO_TCP, socket.TCP_QUICKACK, 1)
            got = self.line.recv(4096)
            if not got:
                raise ConnectionError(f"SIMH hung up: {self.said_since(0)[-500:]}")
            self.came += got
        return self.shown()

    def hear_more(self, seconds):
        """All that the machine has shown, once nothing has come for so long."""
        self.line.settimeout(seconds)
        try:
            while got := self.line.recv(4096):
                self.came += got
        except TimeoutError:
            pass
        self.line.settimeout(SECONDS)
        return self.shown()

    def close(self):
        """Ends SIMH, and takes its folder away."""
        self.process.kill()
        self.process.wait()
        self.line.close()
        self.commands.close()
        shutil.rmtree(self.room, ignore_errors=True)


def free_port():
    with socket.create_server(("127.0.0.1", 0)) as it:
        return it.getsockname()[1]
