"""The word LINE where it is HOST:PORT: at which address the console is looked for, and which words lead nowhere."""
import socket
import subprocess
import unittest

from cases import Case, Console
from outside import PROGRAM

import odt_peer

STARTED = "sent 30 spent 0 verified 1 of 1\nend Started\n"

# Runs a command where a name has other addresses: it sees the file `hosts` as the system's own.
WITH_HOSTS = ["unshare", "--user", "--map-root-user", "--mount", "sh", "-c", 'mount --bind hosts /etc/hosts && exec "$@"', "sh"]


class Addresses(Case):
    """Loads of first.lda at an address."""

    def setUp(self):
        super().setUp()
        self.put_tapes("first.lda")

    def peer_at(self, host):
        """A console at an address of this computer."""
        try:
            peer = odt_peer.Peer(Console(), host=host)
        except OSError as none:
            self.skipTest(f"this computer has no {host}: {none}")
        self.addCleanup(peer.close)
        return peer

    def loads(self, address, peer):
        """Asserts that such a load comes to this console, by one connection."""
        self.ends(self.ldaodt(f"load first.lda {address} --quiet {self.quiet}"), 0, STARTED)
        self.is_so(peer.connections, 1)

    def loads_nothing(self, address):
        self.leads_nowhere(self.ldaodt(f"load first.lda {address}"), address)

    def test_numbers(self):
        peer = self.peer_at("127.0.0.1")
        self.loads(f"127.0.0.1:{peer.port}", peer)

    def test_version_6(self):
        peer = self.peer_at("::1")
        self.loads(f"[::1]:{peer.port}", peer)
        self.loads_nothing(f"127.0.0.1:{peer.port}")

    def test_a_name(self):
        peer = self.peer_at("127.0.0.1")
        self.loads(f"localhost:{peer.port}", peer)

    def test_a_name_with_several_addresses(self):
        """Of both versions. Each is tried: a machine that listens at one of them is found, wherever that stands among them."""
        self.put("hosts", b"127.0.0.1 localhost\n127.0.0.1 several\n127.0.0.2 several\n127.0.0.3 several\n::1 several\n")
        if subprocess.run([*WITH_HOSTS, "true"], cwd=self.room, capture_output=True).returncode:
            self.skipTest("no name can be made here: unshare is not allowed")
        for host in ("127.0.0.1", "127.0.0.2", "127.0.0.3", "::1"):
            peer = self.peer_at(host)
            words = [PROGRAM, "load", "first.lda", f"several:{peer.port}", "--quiet", str(self.quiet)]
            given = subprocess.run([*WITH_HOSTS, *words], cwd=self.room, capture_output=True, text=True)
            self.is_so((given.returncode, given.stdout, given.stderr, peer.connections), (0, STARTED, "", 1))

    def test_a_dot_behind_a_name(self):
        """It is a name as the system has it: where that knows it the console is found, else nothing is."""
        peer = self.peer_at("127.0.0.1")
        try:
            socket.getaddrinfo("localhost.", peer.port)
        except OSError:
            self.loads_nothing(f"localhost.:{peer.port}")
        else:
            self.loads(f"localhost.:{peer.port}", peer)

    def test_names_that_are_none(self):
        for address in ("no-such-name.invalid:23", "no-such-name.invalid.:23", "[::1]", "[::1:23", "[]:23", "256.0.0.1:23", ":23", ":"):
            self.loads_nothing(address)

    def test_ports_that_are_none(self):
        """Nobody listens at port 0, and a number past 65535 is no port: not that of a console 65,536 or 2^32 below it."""
        peer = self.peer_at("127.0.0.1")
        for port in ("", "0", "65536", "x", "-1", f"{peer.port}x", peer.port + 65536, peer.port + 2 ** 32, peer.port + 2 ** 64):
            self.loads_nothing(f"127.0.0.1:{port}")
            self.loads_nothing(f"localhost:{port}")
        self.is_so(peer.connections, 0)


if __name__ == "__main__":
    unittest.main()
