"""What `make install`, `make dist` and `make deb` lay out, that the examples can be tried there, and that bash and zsh complete the words of
`ldaodt` and `ldaodt-serial` by it."""
import os
import platform
import re
import shutil
import subprocess
import tarfile
import threading
import time
import unittest

from cases import Case
from commands import AT_A_MACHINE
from outside import FIRST, PROGRAM, TOP, bytes_of

# What a system finds in its own folders, below /usr or another one.
FILES = {
    "bin/ldaodt", "bin/ldaodt-serial", "share/man/man1/ldaodt.1", "share/man/man1/ldaodt-serial.1", "share/bash-completion/completions/ldaodt",
    "share/bash-completion/completions/ldaodt-serial", "share/zsh/site-functions/_ldaodt", "share/doc/ldaodt/README.md",
    "share/doc/ldaodt/CHANGELOG.md", "share/doc/ldaodt/docs/REAL-MACHINE.md", "share/doc/ldaodt/examples/hello.lda", "share/doc/ldaodt/tools/machine",
    "share/doc/ldaodt/tools/tu58.py", "share/doc/ldaodt/examples/toolbox.md", "share/doc/ldaodt/examples/toolbox/tu58.words",
}

# The same in the tar.gz, below its folder.
PACKED = {
    "ldaodt", "ldaodt-serial", "docs/ldaodt.1", "docs/ldaodt-serial.1", "README.md", "CHANGELOG.md", "docs/REAL-MACHINE.md", "examples/hello.lda", "tools/machine",
    "examples/toolbox.md", "examples/toolbox/boards.words",
}

# What Debian calls this computer's processor.
ARCHITECTURE = {"x86_64": "amd64", "aarch64": "arm64"}.get(platform.machine())

# Another user than root, since what root packs belongs to root of itself.
NOBODY = 65534

# What stands in a folder that is taken for /dev: serial devices, a terminal that is none, and an adapter by its name.
DEVICES = ["serial/by-id/usb-FTDI-1", "ttyACM0", "ttyS0", "ttyUSB0"]
STANDING = [*DEVICES, "tty1"]

# The speeds of a scan, as its help has them.
SPEEDS = "9600 300 1200 2400 4800 19200 38400 110".split()

# Asks bash what it would offer for the last of some words, a line for each, by what it has for the command of the first.
OFFERS = """
. "$COMPLETION"
COMP_WORDS=("$@") COMP_CWORD=$(($# - 1)) asked=($(complete -p "$1"))
"${asked[@]: -2:1}" "$1" "${COMP_WORDS[COMP_CWORD]}" "${COMP_WORDS[COMP_CWORD - 1]}"
printf '%s\\n' "${COMPREPLY[@]}"
"""

# The same of two commands, one after the other in one shell; of the second it is told.
OFFERS_BEHIND = """
. "$COMPLETION"
COMP_WORDS=(ldaodt-serial 9600 it load '') COMP_CWORD=4
_ldaodt_serial ldaodt-serial
COMP_WORDS=(ldaodt load '') COMP_CWORD=2
_ldaodt ldaodt
printf '%s\\n' "${COMPREPLY[@]}"
"""

# The same in zsh, which completes at a terminal alone: each match that its own `compadd` would add goes to a file, and behind them a mark.
ZSH_OFFERS = r"""
PROMPT= fpath=($FOLDER $fpath)
autoload -Uz compinit && compinit -u -D
compadd() {
    [[ " ${@[1,(i)(-|--)]}" != *' -'(O|A|D)* ]] || { builtin compadd "$@"; return; }
    local -a hits; builtin compadd -O hits "$@"; print -rl -- $hits >> $OFFERED; builtin compadd "$@"
}
mark() { print -r -- 'that is all' >> $OFFERED }
zle -N mark; bindkey '^T' mark; bindkey '^I' complete-word; mark
"""

# The commands, and the options of one, as the page of transcripts has them.
with open(f"{TOP}/tests/help.md", encoding="utf-8") as page:
    HELP = page.read()


def listed_in(command, section):
    """The lines of a section of a command's help, in that page."""
    block = HELP.split(f"$ ./ldaodt {command}--help\n", 1)[1].split("\n```", 1)[0]
    return block.split(f"\n{section}:\n", 1)[1].split("\n\n", 1)[0].splitlines()


COMMANDS = [line.split()[0] for line in listed_in("", "Commands")]

# Those at a machine.
MACHINES = [it.name for it in AT_A_MACHINE]


def options_of(command):
    return [word for line in listed_in(f"{command} ", "Options") for word in re.findall(r"^ +(?:-\w, )?(--[a-z-]+)", line)]


def values_of(command):
    """The options that have a value, and what stands for that."""
    return re.findall(r"^ +(--[a-z-]+) <(\w+)>", "\n".join(listed_in(f"{command} ", "Options")), re.MULTILINE)


class LaidOut(Case):
    """A copy of the repository's files, in which the program was built."""

    def setUp(self):
        super().setUp()
        self.top, self.user = f"{self.room}/repository", {}
        for folder in ("docs", "examples", "tools"):
            shutil.copytree(f"{TOP}/{folder}", f"{self.top}/{folder}", ignore=shutil.ignore_patterns("__pycache__"))
        os.mkdir(f"{self.top}/tests")
        for file in ("README.md", "CHANGELOG.md", "CONTRIBUTING.md", "Makefile", "tests/README.md", "ldaodt"):
            shutil.copy(f"{TOP}/{file}", f"{self.top}/{file}")

    def hand_over(self):
        """Lets another user than root lay out."""
        if os.geteuid():
            return
        try:
            for where, _, files in os.walk(self.room):
                for it in (where, *(os.path.join(where, file) for file in files)):
                    os.chown(it, NOBODY, NOBODY)
        except OSError as error:
            self.skipTest(f"no file can be another user's here: {error.strerror}")
        self.user = {"user": NOBODY, "group": NOBODY}

    def lay_out(self, *words):
        return subprocess.run([f"{self.top}/tools/lay-out", *words], stdin=subprocess.DEVNULL, capture_output=True, text=True, check=True, **self.user).stdout

    def put_arm(self):
        """Puts a program of which only the head is there: it is for 64-bit ARM."""
        self.put("repository/ldaodt-arm64", b"\x7fELF\x02\x01\x01".ljust(18, b"\0") + b"\xb7\0")
        os.chmod(f"{self.top}/ldaodt-arm64", 0o755)

    def told(self, package, *fields):
        """What a package says of itself."""
        return subprocess.run(["dpkg-deb", "-f", package, *fields], capture_output=True, text=True, check=True).stdout.strip()

    def files_below(self, folder):
        return {os.path.relpath(os.path.join(where, file), folder) for where, _, files in os.walk(folder) for file in files}

    def test_installed_and_taken_away_again(self):
        usr = f"{self.room}/usr"
        for it in ("other/README", "ldaodt/docs/my-machine.md"):
            os.makedirs(os.path.dirname(f"{usr}/share/doc/{it}"))
            open(f"{usr}/share/doc/{it}", "w", encoding="utf-8").close()
        self.lay_out("install", usr)
        self.assertEqual(FILES - self.files_below(usr), set())
        os.remove(f"{self.top}/ldaodt")
        self.lay_out("uninstall", usr)
        self.assertEqual(self.files_below(usr), {"share/doc/other/README", "share/doc/ldaodt/docs/my-machine.md"})
        self.assertEqual(os.listdir(f"{usr}/share/doc/ldaodt"), ["docs"])

    def test_what_can_be_run(self):
        """The programs, and of the documents what can be run where they were taken; and everybody may read the rest."""
        self.lay_out("install", f"{self.room}/usr")
        archive = f"{self.top}/{self.lay_out('dist').strip()}"
        subprocess.run(["tar", "-C", self.room, "-xpf", archive], check=True)
        unpacked = f"{self.room}/{os.path.basename(archive).rpartition('-linux-')[0]}"
        programs = {"bin/ldaodt", "bin/ldaodt-serial", "ldaodt", "ldaodt-serial", "tools/serial"}
        for folder, documents in ((f"{self.room}/usr", "share/doc/ldaodt/"), (unpacked, "")):
            for it in sorted(self.files_below(folder)):
                source = f"{TOP}/{it.removeprefix(documents)}"
                runs = it in programs or it.startswith(documents) and os.path.isfile(source) and os.stat(source).st_mode & 0o100
                self.assertEqual((it, oct(os.stat(f"{folder}/{it}").st_mode & 0o777)), (it, oct(0o755 if runs else 0o644)))

    def test_what_it_says_is_installed_is_there(self):
        said = self.lay_out("install", f"{self.room}/usr").strip()
        self.assertTrue(said.startswith("installed: "), said)
        paths = said.removeprefix("installed: ").split(", ")
        self.assertGreater(len(paths), 3)
        self.assertEqual([it for it in paths if not os.path.exists(it)], [])

    def test_what_the_pages_point_to(self):
        """It is there where they are installed."""
        self.lay_out("install", f"{self.room}/usr")
        pages = [it for it in self.files_below(f"{self.room}/usr/share/doc/ldaodt") if it.endswith(".md")]
        self.assertIn("README.md", pages)
        for page in pages:
            path = f"{self.room}/usr/share/doc/ldaodt/{page}"
            for link in re.findall(r"\]\(([^)#:]+)[^):]*\)", bytes_of(path).decode()):
                self.assertTrue(os.path.exists(os.path.join(os.path.dirname(path), link)), f"{page} points to {link}")

    def test_without_a_program(self):
        """Nothing is laid out, and it is said what makes one."""
        os.remove(f"{self.top}/ldaodt")
        for words, name in ((("install", f"{self.room}/usr"), "ldaodt"), (("dist",), "ldaodt"), (("deb",), "ldaodt"), (("dist", "ldaodt-arm64"), "ldaodt-arm64")):
            with self.assertRaises(subprocess.CalledProcessError) as raised:
                self.lay_out(*words)
            self.assertEqual((raised.exception.returncode, raised.exception.stderr), (1, f"there is no ./{name} yet: run make first\n"))
        self.assertEqual((os.path.exists(f"{self.room}/usr"), [it for it in os.listdir(self.top) if it.startswith("ldaodt")]), (False, []))

    def test_nothing_stays_where_nothing_was(self):
        self.lay_out("install", f"{self.room}/usr")
        self.lay_out("uninstall", f"{self.room}/usr")
        self.assertEqual(os.listdir(f"{self.room}/usr"), [])

    def test_a_folder_that_was_empty_and_is_none_of_it_stays(self):
        os.makedirs(f"{self.room}/usr/share/doc/other")
        self.lay_out("install", f"{self.room}/usr")
        self.lay_out("uninstall", f"{self.room}/usr")
        self.assertEqual(os.listdir(f"{self.room}/usr/share/doc"), ["other"])

    def test_an_archive_has_all_and_belongs_to_root(self):
        """And nothing of what Python leaves beside an example that was run."""
        os.mkdir(f"{self.top}/examples/__pycache__")
        self.put("repository/examples/__pycache__/example.pyc", b"")
        self.hand_over()
        with tarfile.open(f"{self.top}/{self.lay_out('dist').strip()}") as archive:
            members = archive.getmembers()
        self.assertEqual({(it.uid, it.gid, it.uname, it.gname) for it in members}, {(0, 0, "", "")})
        folder = members[0].name
        self.assertEqual({f"{folder}/{it}" for it in PACKED} - {it.name for it in members if it.isfile()}, set())
        self.assertEqual([it.name for it in members if "__pycache__" in it.name], [])
        self.assertEqual([it.linkname for it in members if it.name == f"{folder}/tools/serial"], ["../ldaodt-serial"])

    def test_an_archive_and_a_package_for_arm(self):
        self.put_arm()
        here, there = self.lay_out("dist").strip(), self.lay_out("dist", "ldaodt-arm64").strip()
        self.assertEqual(there, here.replace(platform.machine(), "aarch64"))
        with tarfile.open(f"{self.top}/{here}") as one, tarfile.open(f"{self.top}/{there}") as other:
            self.assertEqual(other.getnames(), one.getnames())
            self.assertEqual(other.extractfile(other.getnames()[0] + "/ldaodt").read(), bytes_of(f"{self.top}/ldaodt-arm64"))
        if not shutil.which("dpkg-deb"):
            self.skipTest("there is no dpkg-deb")
        package = f"{self.top}/{self.lay_out('deb', 'ldaodt-arm64').strip()}"
        self.assertEqual(os.path.basename(package).rpartition("_")[2], "arm64.deb")
        # All that it calls is in it.
        self.assertEqual(self.told(package, "Architecture", "Depends"), "Architecture: arm64")
        subprocess.run(["dpkg-deb", "-x", package, self.path("unpacked")], check=True)
        self.assertEqual(bytes_of(self.path("unpacked/usr/bin/ldaodt")), bytes_of(f"{self.top}/ldaodt-arm64"))

    def test_a_program_for_a_processor_that_nobody_packs(self):
        self.put_arm()
        with open(f"{self.top}/ldaodt-arm64", "r+b") as file:
            file.seek(18)
            file.write(b"\x28")
        with self.assertRaises(subprocess.CalledProcessError) as raised:
            self.lay_out("deb", "ldaodt-arm64")
        self.assertEqual(raised.exception.stderr, "lay-out: ldaodt-arm64 is for no processor that is known here\n")

    @unittest.skipUnless(shutil.which("dpkg-deb"), "there is no dpkg-deb")
    def test_what_a_package_depends_on(self):
        """The C library whose newest name the program calls, and Python for what is Python's."""
        newest = max((int(one), int(other)) for one, other in re.findall(rb"GLIBC_(\d+)\.(\d+)\b", bytes_of(PROGRAM)))
        package = f"{self.top}/{self.lay_out('deb').strip()}"
        self.assertEqual(self.told(package, "Depends", "Recommends"), "Depends: libc6 (>= {}.{})\nRecommends: python3 (>= 3.10), picocom | tio | minicom".format(*newest))

    def test_which_c_library_the_pages_and_a_package_ask_for(self):
        """That of the newest name that the program calls."""
        newest = max((int(one), int(other)) for one, other in re.findall(rb"GLIBC_(\d+)\.(\d+)\b", bytes_of(PROGRAM)))
        wanted = ["{}.{}".format(*newest)]
        self.assertEqual(re.findall(r"glibc (\d+\.\d+) or later", bytes_of(f"{TOP}/README.md").decode()), wanted)
        self.assertEqual(re.findall(r"libc6 \(>= (\d+\.\d+)\)", bytes_of(f"{TOP}/tools/lay-out").decode()), wanted)

    def test_examples_that_are_installed(self):
        """They try the program that is on the path; and where there is none, they say so."""
        self.lay_out("install", f"{self.room}/usr")
        examples = f"{self.room}/usr/share/doc/ldaodt/examples"
        for name in ("check-refused", "check-losses"):
            for path, wanted in ((f"{self.room}/usr/bin:/usr/bin:/bin", (0, "")), ("/usr/bin:/bin", (2, f"{name}: there is no ./ldaodt above"))):
                ran = subprocess.run([f"{examples}/{name}"], env={**os.environ, "PATH": path}, stdin=subprocess.DEVNULL, capture_output=True, text=True)
                self.assertEqual((ran.returncode, ran.stderr[: len(wanted[1])]), wanted)

    def test_the_machine_that_is_installed(self):
        """It has all that it reads there."""
        self.lay_out("install", f"{self.room}/usr")
        machine = f"{self.room}/usr/share/doc/ldaodt/tools/machine"
        self.assertIn("--break-after", subprocess.run([machine, "--help"], stdin=subprocess.DEVNULL, capture_output=True, text=True, check=True).stdout)

    def test_installed_from_the_archive(self):
        """By the same words as in the repository, to the same files, and taken away again."""
        archive = f"{self.top}/{self.lay_out('dist').strip()}"
        subprocess.run(["tar", "-C", self.room, "-xf", archive], check=True)
        unpacked = f"{self.room}/{os.path.basename(archive).rpartition('-linux-')[0]}"
        self.lay_out("install", f"{self.room}/usr")
        # Not told where it is by the make that may have begun this test, as `make test` does.
        alone = {name: value for name, value in os.environ.items() if name not in ("MAKEFLAGS", "MAKELEVEL", "MFLAGS")}
        make = lambda *words: subprocess.run(["make", *words, f"PREFIX={self.room}/local"], cwd=unpacked, stdin=subprocess.DEVNULL, capture_output=True, text=True, check=True, env=alone)
        # There is nothing to build, as it says.
        self.assertEqual(make().stdout, "nothing is built here: ./ldaodt is there, and make install installs it\n")
        make("install")
        self.assertEqual(self.files_below(f"{self.room}/local"), self.files_below(f"{self.room}/usr"))
        ran = subprocess.run([f"{self.room}/local/bin/ldaodt-serial", "--help"], stdin=subprocess.DEVNULL, capture_output=True, text=True, check=True)
        self.assertIn("Usage: ldaodt-serial SPEED", ran.stdout)
        make("uninstall")
        self.assertEqual(self.files_below(f"{self.room}/local"), set())

    @unittest.skipUnless(shutil.which("dpkg-deb"), "there is no dpkg-deb")
    def test_a_package_has_what_is_installed_and_belongs_to_root(self):
        self.hand_over()
        package = f"{self.top}/{self.lay_out('deb').strip()}"
        version = subprocess.run([PROGRAM, "--version"], capture_output=True, text=True, check=True).stdout.split()[1]
        self.assertEqual(os.path.basename(package), f"ldaodt_{version}_{ARCHITECTURE}.deb")
        self.assertEqual(self.told(package, "Package", "Version", "Architecture"), f"Package: ldaodt\nVersion: {version}\nArchitecture: {ARCHITECTURE}")
        listed = subprocess.run(["dpkg-deb", "-c", package], capture_output=True, text=True, check=True).stdout.splitlines()
        self.assertEqual({line.split()[1] for line in listed}, {"root/root"})
        names = {line.split()[5] for line in listed}
        self.assertEqual({f"./usr/{it}" for it in FILES | {"share/doc/ldaodt/copyright"}} - names, set())
        modes = {line.split()[5]: line.split()[0] for line in listed}
        self.assertEqual((modes["./"], modes["./usr/bin/ldaodt"], modes["./usr/share/man/man1/ldaodt.1"]), ("drwxr-xr-x", "-rwxr-xr-x", "-rw-r--r--"))
        self.lay_out("install", f"{self.room}/usr")
        subprocess.run(["dpkg-deb", "-x", package, f"{self.room}/unpacked"], check=True)
        self.assertEqual(self.files_below(f"{self.room}/unpacked/usr") - self.files_below(f"{self.room}/usr"), {"share/doc/ldaodt/copyright"})
        with open(f"{self.room}/unpacked/usr/share/doc/ldaodt/copyright", encoding="utf-8") as file:
            self.assertIn("No licence was chosen", file.read())

    def test_what_is_packed_by_who_keeps_their_files_to_themselves(self):
        """Everybody may read it, too."""
        closed = {"preexec_fn": lambda: os.umask(0o077)}
        with tarfile.open(f"{self.top}/{self.lay_out('dist').strip()}") as archive:
            modes = {it.name: it.mode for it in archive}
        self.user = closed
        with tarfile.open(f"{self.top}/{self.lay_out('dist').strip()}") as archive:
            self.assertEqual({it.name: it.mode for it in archive}, modes)
        self.lay_out("install", f"{self.room}/usr")
        for where, _, files in os.walk(f"{self.room}/usr"):
            for it in (where, *(os.path.join(where, file) for file in files)):
                self.assertEqual((it, os.stat(it).st_mode & 0o044), (it, 0o044))
        if not shutil.which("dpkg-deb"):
            self.skipTest("there is no dpkg-deb")
        listed = subprocess.run(["dpkg-deb", "-c", f"{self.top}/{self.lay_out('deb').strip()}"], capture_output=True, text=True, check=True).stdout.splitlines()
        self.assertEqual([it for it in listed if it[4] + it[7] != "rr" and it[0] != "l"], [])

    @unittest.skipUnless(shutil.which("dpkg") and os.geteuid() == 0, "there is no dpkg, or no right to install")
    def test_a_package_comes_and_goes(self):
        package = f"{self.top}/{self.lay_out('deb').strip()}"
        root = f"{self.room}/system"
        for folder in ("info", "updates", "triggers"):
            os.makedirs(f"{root}/var/lib/dpkg/{folder}")
        for file in ("status", "available"):
            open(f"{root}/var/lib/dpkg/{file}", "w", encoding="utf-8").close()
        dpkg = ["dpkg", f"--root={root}", "--force-depends", "--log=/dev/null"]
        # dpkg calls programs that stand where only root's own path leads, and root may have come by another.
        how = {"stdin": subprocess.DEVNULL, "capture_output": True, "check": True, "env": {**os.environ, "PATH": f"{os.environ['PATH']}:/usr/sbin:/sbin"}}
        subprocess.run([*dpkg, "-i", package], **how)
        ran = subprocess.run([f"{root}/usr/bin/ldaodt", "--version"], capture_output=True, check=True)
        self.assertEqual(ran.stdout, subprocess.run([PROGRAM, "--version"], capture_output=True, check=True).stdout)
        subprocess.run([*dpkg, "-r", "ldaodt"], **how)
        self.assertEqual(self.files_below(f"{root}/usr"), set())


class Completion(Case):
    """What a shell offers where the programs stand on the path, beside each other, and a folder of the test's stands for /dev."""

    def setUp(self):
        super().setUp()
        for name in ("a tape.lda", "another.lda", *(f"dev/{it}" for it in STANDING)):
            os.makedirs(os.path.dirname(self.path(name)), exist_ok=True)
            open(self.path(name), "w", encoding="utf-8").close()
        for name in ("ldaodt", "_ldaodt"):
            with open(f"{TOP}/tools/completion/{name}", encoding="utf-8") as file:
                self.put(f"completes-{name}", file.read().replace("/dev/", self.path("dev/")).encode())
        for folder in ("bin", "functions"):
            os.mkdir(self.path(folder))
        os.rename(self.path("completes-_ldaodt"), self.path("functions/_ldaodt"))
        os.symlink(PROGRAM, self.path("bin/ldaodt"))
        os.symlink(f"{TOP}/tools/serial", self.path("bin/ldaodt-serial"))
        self.surroundings = {**os.environ, "COMPLETION": self.path("completes-ldaodt"), "PATH": f"{self.path('bin')}:{os.environ['PATH']}"}

    def devices_of(self, offered):
        return sorted(it[len(self.path("dev/")):] for it in offered if it.startswith(self.path("dev/")))


class Bash(Completion):
    def offers(self, *words):
        ran = subprocess.run(["bash", "-c", OFFERS, "bash", *words], env=self.surroundings, cwd=self.room, stdin=subprocess.DEVNULL, capture_output=True, text=True, timeout=60)
        self.assertEqual((ran.returncode, ran.stderr), (0, ""))
        return [line for line in ran.stdout.splitlines() if line]

    def test_the_commands(self):
        self.assertEqual(self.offers("ldaodt", ""), COMMANDS)
        self.assertEqual(self.offers("ldaodt", "re"), ["rehearse"])
        self.assertEqual(self.offers("ldaodt", "help", "sa"), ["save"])
        # What is typed is no pattern.
        self.assertEqual(self.offers("ldaodt", "*"), [])

    def test_the_options_of_each_command(self):
        for command in COMMANDS[:-1]:
            with self.subTest(command=command):
                self.assertEqual(self.offers("ldaodt", command, "--"), options_of(command))
        self.assertEqual(self.offers("ldaodt", "load", "--rec"), [it for it in options_of("load") if it.startswith("--rec")])

    def test_the_values_of_the_options_of_each_command(self):
        """A file is offered, and each style; a number or an address is nobody's to guess."""
        tried = set()
        for command in COMMANDS[:-1]:
            for option, value in values_of(command):
                with self.subTest(command=command, option=option):
                    offered = list("01234567") if option == "--style" else ["another.lda"] if value == "FILE" else []
                    self.assertEqual(self.offers("ldaodt", command, option, "ano" if value == "FILE" else ""), offered)
                    tried.add(value)
        self.assertLessEqual({"FILE", "N", "MS", "SECONDS", "AAAAAA"}, tried)
        self.assertIn("a tape.lda", self.offers("ldaodt", "load", "--recheck", "a"))

    def test_files(self):
        self.assertIn("a tape.lda", self.offers("ldaodt", "check", "a"))
        self.assertEqual(self.offers("ldaodt", "check", "ano"), ["another.lda"])

    def test_a_name_with_a_space_is_one_word(self):
        """At a terminal, where the shell quotes a name that it completes."""
        for name in ("one more.lda", "two more.lda"):
            shutil.copy(FIRST, self.path(name))
        ours, theirs = os.openpty()
        surroundings = {**self.surroundings, "TERM": "dumb", "PS1": "ready "}
        shell = subprocess.Popen(["bash", "--norc", "--noprofile", "-i"], env=surroundings, cwd=self.room, stdin=theirs, stdout=theirs, stderr=theirs, start_new_session=True)
        os.close(theirs)
        self.addCleanup(shell.wait)
        self.addCleanup(shell.kill)
        shown = bytearray()
        threading.Thread(target=read_all, args=(ours, shown), daemon=True).start()
        until = time.monotonic() + 60
        # The script's own command that only reads is its help.
        for number, (line, wanted) in enumerate((('. "$COMPLETION"', ""), ("ldaodt check one\t", "words 1"), ("ldaodt-serial 9600 it load two\t--help", "Usage: ldaodt load"))):
            while shown.count(b"ready ") <= number:
                self.assertLess(time.monotonic(), until, f"bash never came to that: {shown}")
                time.sleep(0.01)
            before = len(shown)
            os.write(ours, f"{line}\n".encode())
            while wanted and shown.count(b"ready ") <= number + 1:
                self.assertLess(time.monotonic(), until, f"bash never came to that: {shown}")
                time.sleep(0.01)
            self.assertIn(wanted.encode(), shown[before:])
        self.assertIn(b"two\\ more.lda", shown)

    def test_the_devices_of_a_line(self):
        for command in COMMANDS:
            offered = self.devices_of(self.offers("ldaodt", command, ""))
            self.assertEqual((command, offered), (command, DEVICES if command in MACHINES else []))

    def test_behind_the_script(self):
        """What it has made of a line is forgotten at the next."""
        ran = subprocess.run(["bash", "-c", OFFERS_BEHIND], env=self.surroundings, cwd=self.room, stdin=subprocess.DEVNULL, capture_output=True, text=True, timeout=60)
        self.assertEqual((ran.returncode, ran.stderr, self.devices_of(ran.stdout.splitlines())), (0, "", DEVICES))

    def test_beside_the_script(self):
        """Speed and device, a command at a machine, and its words but for LINE."""
        self.assertEqual(self.offers("ldaodt-serial", ""), ["scan", *SPEEDS])
        for first in ("scan", "9600/7e1"):
            self.assertEqual(self.devices_of(self.offers("ldaodt-serial", first, "")), DEVICES)
        self.assertEqual(self.offers("ldaodt-serial", "scan", "it", ""), [])
        self.assertEqual(self.offers("ldaodt-serial", "9600", "it", ""), [*MACHINES, "talk"])
        for command in MACHINES:
            wanted = options_of(command) + ["--talk"] * (command == "load")
            self.assertEqual(self.offers("ldaodt-serial", "9600", "it", command, "--"), wanted)
            self.assertEqual(self.devices_of(self.offers("ldaodt-serial", "9600", "it", command, "")), [])
        self.assertEqual(self.offers("ldaodt-serial", "9600", "it", "load", "ano"), ["another.lda"])
        self.assertEqual(self.offers("ldaodt-serial", "9600", "it", "load", "--quiet", ""), [])


@unittest.skipUnless(shutil.which("zsh"), "there is no zsh: its completion is not tried")
class Zsh(Completion):
    def offers(self, *lines):
        """What is offered for the last word of each of some lines."""
        self.put("begins", ZSH_OFFERS.encode())
        ours, theirs = os.openpty()
        surroundings = {**self.surroundings, "OFFERED": self.path("offered"), "FOLDER": self.path("functions"), "TERM": "dumb"}
        shell = subprocess.Popen(["zsh", "-f", "-i"], env=surroundings, cwd=self.room, stdin=theirs, stdout=theirs, stderr=theirs, start_new_session=True)
        self.addCleanup(os.close, theirs)
        self.addCleanup(shell.wait)
        self.addCleanup(shell.kill)
        shown = bytearray()
        threading.Thread(target=read_all, args=(ours, shown), daemon=True).start()
        # Behind each line come the mark, and a key that takes the line away; the first mark says that all of this is known.
        for number, typed in enumerate([". ./begins\n", *(f"{line}\t\x14\x15" for line in lines)]):
            os.write(ours, typed.encode())
            until = time.monotonic() + 60
            while (offered := text_of(self.path("offered"))).count("that is all\n") <= number:
                self.assertLess(time.monotonic(), until, f"zsh never came to its end: {offered} {shown}")
                time.sleep(0.01)
        # Where nothing fits, an empty line comes.
        return [list(dict.fromkeys(filter(None, it.splitlines()))) for it in offered.split("that is all\n")[1:-1]]

    def test_what_is_offered(self):
        """All in one shell, which is slow to begin."""
        script = "ldaodt-serial 9600 it"
        asked = {
            "ldaodt ": COMMANDS,
            "ldaodt help sa": ["save"],
            "ldaodt check ano": ["another.lda"],
            "ldaodt type --style ": list("01234567"),
            "ldaodt load --quiet ": [],
            "ldaodt load --record ano": ["another.lda"],
            **{f"ldaodt {it} --": options_of(it) for it in COMMANDS[:-1]},
            **{f"ldaodt {it} {self.path('dev/')}": DEVICES if it in MACHINES else [] for it in COMMANDS[:-1]},
            "ldaodt-serial ": ["scan", *SPEEDS],
            f"ldaodt-serial 9600 {self.path('dev/')}": DEVICES,
            "ldaodt-serial scan it ": [],
            f"{script} ": [*MACHINES, "talk"],
            f"{script} load --": [*options_of("load"), "--talk"],
            f"{script} save --": options_of("save"),
            f"{script} load ano": ["another.lda"],
            f"{script} load {self.path('dev/')}": [],
        }
        for (line, wanted), offered in zip(asked.items(), self.offers(*asked)):
            offered = self.devices_of(offered) if line.endswith("/") else offered
            self.assertEqual((line, sorted(offered)), (line, sorted(wanted)))


def read_all(end, shown):
    """Reads what a terminal shows, so that it can show more."""
    try:
        while piece := os.read(end, 4096):
            shown += piece
    except OSError:
        pass  # Nobody has it open any more.
    os.close(end)


def text_of(path):
    try:
        with open(path, encoding="utf-8") as file:
            return file.read()
    except FileNotFoundError:
        return ""


if __name__ == "__main__":
    unittest.main()
