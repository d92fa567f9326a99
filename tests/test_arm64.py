"""The program for 64-bit ARM: its C functions beside the toolchain's own, what is asserted of the system, the tools that build and try
it, and the numbers by which a test would follow its calls."""
import glob
import os
import platform
import re
import shutil
import subprocess
import sys
import unittest

from cases import Case
from outside import TOP, bytes_of
import traced

ARM64 = f"{TOP}/tools/arm64"
HERE, CROSS, EMULATOR = "cc", "aarch64-linux-gnu-gcc", "qemu-aarch64"

# What the functions are asked for as arguments: none of no length, and none longer than the longest room.
WORDS = ("one", "t", "", "twelve-chars", "eleven-char", "thirteenchars")


def kit():
    """The folder of the Rattle toolchain; none where it is not installed."""
    rt = shutil.which("rt")
    return rt and os.path.dirname(os.path.dirname(os.path.realpath(rt)))


class Needing(Case):
    """A test that wants programs which may not be installed."""

    def needs(self, *programs):
        for it in programs:
            if not (kit() if it == "rt" else shutil.which(it)):
                self.skipTest(f"not installed here: {it}")


class Compiled(Needing):
    """Compiles C with all the warnings that the project asks for."""

    def compile(self, compiler, *words):
        ran = subprocess.run([compiler, f"@{ARM64}/warnings", f"-I{ARM64}", *words], cwd=self.room, capture_output=True, text=True)
        return ran.returncode, ran.stderr


class Functions(Compiled):
    """What the functions of system.c answer."""

    def answers(self, name, starter=()):
        ran = subprocess.run([*starter, self.path(name), *WORDS], stdin=subprocess.DEVNULL, capture_output=True, timeout=120, check=True)
        return ran.stdout.decode().splitlines()

    def put_toolchains(self):
        """Links the calls with the toolchain's own functions."""
        objects = (f"{kit()}/c/{it}" for it in ("libos_c.a", "liblibc_c.a"))
        self.assertEqual(self.compile(HERE, "-o", "toolchains", f"{ARM64}/calls.c", *objects), (0, ""))

    def test_a_warning_is_an_error(self):
        self.needs(HERE)
        self.put("narrow.c", b"int narrow(long wide);\nint narrow(long wide) {\n    return wide;\n}\n")
        self.assertEqual(self.compile(HERE, "-fsyntax-only", "narrow.c")[0], 1)

    @unittest.skipUnless(platform.machine() == "x86_64", "the toolchain has its own for x86-64")
    def test_each_call_is_answered_as_by_the_toolchains_own(self):
        self.needs("rt", HERE)
        self.put_toolchains()
        self.assertEqual(self.compile(HERE, "-o", "own", f"{ARM64}/calls.c", f"{ARM64}/system.c"), (0, ""))
        self.assertEqual(self.answers("own"), self.answers("toolchains"))

    @unittest.skipUnless(platform.machine() == "x86_64", "the toolchain has its own for x86-64")
    def test_the_same_on_arm(self):
        self.needs("rt", HERE, CROSS, EMULATOR)
        self.put_toolchains()
        status, said = self.compile(CROSS, "-static-pie", "-fPIE", "-O2", "-o", "arm", f"{ARM64}/calls.c", f"{ARM64}/system.c")
        self.assertEqual(status, 0, said)
        self.assertEqual(self.answers("arm", [EMULATOR]), self.answers("toolchains"))


class Assertions(Compiled):
    """That the toolchain's numbers and layouts are the system's."""

    def setUp(self):
        super().setUp()
        self.needs("rt")
        for crate in ("libc", "os"):
            shutil.copytree(f"{kit()}/rattle/{crate}/src", self.path(f"rattle/{crate}/src"))

    def change(self, file, old, new):
        """Changes a file of the toolchain's copy, in which that stands once."""
        with open(self.path(f"rattle/{file}"), "r+", encoding="utf-8") as it:
            text = it.read()
            self.assertEqual(text.count(old), 1)
            it.seek(0)
            it.truncate()
            it.write(text.replace(old, new))

    def write(self):
        return subprocess.run([f"{ARM64}/assertions", self.room, self.path("assertions.c")], capture_output=True, text=True)

    def fails(self, compiler, what):
        self.assertEqual(self.write().returncode, 0)
        status, said = self.compile(compiler, "-fsyntax-only", "assertions.c")
        self.assertEqual(status, 1)
        self.assertEqual(re.findall(r'static assertion failed: "(.+)"', said), [what])

    def test_all_hold(self):
        for compiler in (HERE, CROSS):
            with self.subTest(compiler):
                self.needs(compiler)
                self.assertEqual(self.write().returncode, 0)
                self.assertEqual(self.compile(compiler, "-fsyntax-only", "assertions.c"), (0, ""))

    def test_another_number(self):
        """Of each way in which one is written."""
        self.needs(HERE)
        for file, line, other in (
            ("lib", "O_NONBLOCK: i32 = 0o4000;", "0o4001;"),
            ("lib", "AT_EMPTY_PATH: i32 = 0x1000;", "0x1001;"),
            ("lib", "UTIME_OMIT: i64 = (1 << 30) - 2;", "(1 << 30) - 1;"),
            ("net", "POLLOUT: i16 = 4;", "2;"),
            ("net", "EAI_SYSTEM: i32 = -11;", "-12;"),
            ("net", "EPOLLONESHOT: u32 = 1 << 30;", "1 << 29;"),
        ):
            front = line[:line.index("= ") + 2]
            with self.subTest(line):
                self.change(f"libc/src/{file}.rt", line, front + other)
                self.fails(HERE, front.split(":")[0])
                self.change(f"libc/src/{file}.rt", front + other, line)

    def test_each_layout(self):
        """But for the one that ldaodt hands to nobody."""
        self.assertEqual(self.write().returncode, 0)
        text = "".join(bytes_of(it).decode() for it in glob.glob(self.path("rattle/*/src/**/*.rt"), recursive=True))
        asserted = re.findall(r"_Static_assert\(sizeof\(struct rattle_(\w+)\) ==", bytes_of(self.path("assertions.c")).decode())
        self.assertEqual(sorted([*asserted, "EpollEvent"]), sorted(re.findall(r"#\[repr\(C\)\](?:\n#.*)*\n(?:pub )?struct (\w+)", text)))

    def test_a_number_of_another_crate(self):
        self.needs(HERE)
        self.change("os/src/dir.rt", "NAME_OFFSET: usize = 19;", "NAME_OFFSET: usize = 20;")
        self.fails(HERE, "offsetof(struct dirent64, d_name)")

    def test_another_layout(self):
        self.needs(HERE)
        self.change("libc/src/types.rt", "    pub fd: i32,\n    pub events: i16,", "    pub events: i16,\n    pub fd: i32,")
        self.assertEqual(self.write().returncode, 0)
        _, said = self.compile(HERE, "-fsyntax-only", "assertions.c")
        self.assertIn('static assertion failed: "the place of pollfd.fd"', said)

    def test_another_size(self):
        self.needs(HERE)
        self.change("os/src/c.rt", "[u8; 128]", "[u8; 132]")
        _, said = self.compile(HERE, "-fsyntax-only", "assertions.c") if self.write().returncode == 0 else (0, "")
        self.assertIn('static assertion failed: "the size of RawAddr"', said)

    def test_another_size_of_a_field(self):
        """Behind which room is left, so that no other field has another place."""
        self.needs(HERE)
        self.change("libc/src/types.rt", "pub ok: bool", "pub ok: u32")
        self.fails(HERE, "the size of Tried.ok")

    def test_what_can_t_be_read_is_told(self):
        self.change("libc/src/lib.rt", "pub const O_EXCL: i32 = 0o200;", "pub const O_EXCL:\n    i32 = 0o200;")
        ran = self.write()
        self.assertEqual((ran.returncode, ran.stderr), (1, "assertions: no constant that can be read: pub const O_EXCL:\n"))

    def test_a_toolchain_without_these_crates(self):
        shutil.rmtree(self.path("rattle"))
        ran = self.write()
        self.assertEqual((ran.returncode, ran.stderr), (1, f"assertions: {self.room}/rattle has no libc and os\n"))


# A command that notes its words in a file of its name; where it has an output it writes that; it says what the test has it say. It fails
# where it is the test's n-th.
STAND_IN = """#!/bin/sh
name=${0##*/}
printf '%s\\n' "$@" > "$NOTES/$name"
echo "$name" >> "$NOTES/called"
echo "$name $*" >> "$NOTES/lines"
for it; do
    [ "$before" != -o ] || echo "of $name" > "$it"
    [ "$before" != --incremental ] || echo more > "$it/more"
    before=$it
done
cat "$NOTES/says-$name" 2> "/dev/null"
[ "$(wc -l < "$NOTES/called")" != "$FAILS" ]
"""

VERDICT = "logic=proved functions=2 target=aarch64-unknown-linux-gnu incremental=trusted"


class Small(Needing):
    """A tree in which the tools are called, and a toolchain and compilers that note how they are called."""

    def setUp(self):
        super().setUp()
        for folder in ("tree/tools", "tree/tests", "kit/bin", "bin", "notes"):
            os.makedirs(self.path(folder))
        shutil.copytree(ARM64, self.path("tree/tools/arm64"))
        for it in ("build-arm64", "check-arm64", "crates.py"):
            shutil.copy(f"{TOP}/tools/{it}", self.path(f"tree/tools/{it}"))

    def put_script(self, *names, text=STAND_IN):
        for name in names:
            self.put(name, text.encode())
            os.chmod(self.path(name), 0o755)

    def runs(self, tool, **surroundings):
        env = {**os.environ, "PATH": f"{self.path('bin')}:{os.environ['PATH']}", "NOTES": self.path("notes"), "FAILS": "", **surroundings}
        ran = subprocess.run([self.path(f"tree/tools/{tool}")], env=env, cwd="/", stdin=subprocess.DEVNULL, capture_output=True, text=True, timeout=60)
        return ran.returncode, ran.stdout, ran.stderr

    def noted(self, name):
        return bytes_of(self.path(f"notes/{name}")).decode().splitlines()


class Building(Small):
    """tools/build-arm64."""

    def setUp(self):
        super().setUp()
        self.put_script("kit/bin/rt", "kit/bin/rattle", f"bin/{CROSS}", "tree/tools/arm64/assertions")
        os.symlink("../kit/bin/rt", self.path("bin/rt"))
        self.put("tree/crates.txt", b"# low first\nlow: arrayvec\nhigh: low itoa\napart: low\nldaodt: clap high\n")
        self.put("notes/says-rattle", f"{VERDICT}\n".encode())
        for folder in ("src", "out/incremental"):
            os.makedirs(self.path(f"tree/crates/ldaodt/{folder}"))
        self.put("tree/crates/ldaodt/src/main.rt", b"")
        self.put("tree/crates/ldaodt/out/incremental/kept", b"proofs")

    def test_what_is_called(self):
        """The crates that the program names, and where those below them lie, which others don't; and what was kept stays as it is."""
        self.assertEqual(self.runs("build-arm64"), (0, f"{VERDICT}\n./ldaodt-arm64 is proved and built\n", ""))
        self.assertEqual(self.noted("called"), ["assertions", CROSS, CROSS, "rattle", CROSS])
        crates, out = self.path("tree/crates"), self.path("tree/crates/ldaodt/out/arm64")
        words = " ".join(self.noted("rattle"))
        for it in (f"build --crate-name ldaodt {crates}/ldaodt/src/main.rt ", f" --extern high={crates}/high/out/rlib/high.rlib ", " --target aarch64-unknown-linux-gnu ",
                   f" --extern clap={self.path('kit')}/rlibs/clap.rlib ", f" -L dependency={crates}/low/out/rlib ", f" --incremental {out}/incremental ", f" -o {out}/ldaodt.o"):
            self.assertIn(it, f"{words} ")
        self.assertEqual((words.count("apart"), words.count("--extern low=")), (0, 0))
        # What is C of it has the first instructions that there were, as the rest, may lie at any address, and leaps over no page of a stack.
        compiling = self.noted("lines")[2].split()
        self.assertLess({CROSS, "-march=armv8-a", "-fPIE", "-fstack-clash-protection", "-c", self.path("tree/tools/arm64/system.c")}, set(compiling))
        linking = self.noted(CROSS)
        self.assertEqual(linking[-2:], [f"{out}/ldaodt.o", f"{out}/system.o"])
        # Functions of libraries that nothing calls want of C what system.c doesn't have.
        self.assertLess({"-static-pie", "-Wl,--gc-sections", "-Wl,-z,max-page-size=65536"}, set(linking))
        self.assertEqual(os.listdir(self.path("tree/crates/ldaodt/out/incremental")), ["kept"])
        self.assertEqual(bytes_of(self.path("tree/ldaodt-arm64")), f"of {CROSS}\n".encode())

    def test_each_step_that_fails(self):
        """Nothing is built, and the step says why."""
        self.put("tree/ldaodt-arm64", b"earlier")
        for number, name in enumerate(("assertions", CROSS, CROSS, "rattle", CROSS), 1):
            with self.subTest(number):
                self.put(f"notes/says-{name}", f"{VERDICT}\nno, for a reason\n".encode())
                self.put("notes/called", b"")
                self.assertEqual(self.runs("build-arm64", FAILS=str(number)), (1, "", f"build-arm64: {name} failed:\n{VERDICT}\nno, for a reason\n\n"))
                self.assertEqual((len(self.noted("called")), bytes_of(self.path("tree/ldaodt-arm64"))), (number, b"earlier"))

    def test_what_is_not_said_to_be_proved(self):
        for said in ("logic=unproved functions=2 target=aarch64-unknown-linux-gnu incremental=trusted", VERDICT.replace("aarch64", "x86_64")):
            self.put("notes/says-rattle", f"{said}\n".encode())
            self.assertEqual(self.runs("build-arm64"), (1, "", f"build-arm64: rattle does not say that it is proved:\n{said}\n\n"))
        self.assertFalse(os.path.exists(self.path("tree/ldaodt-arm64")))

    def test_no_program_for_this_computer(self):
        shutil.rmtree(self.path("tree/crates/ldaodt/out"))
        self.assertEqual(self.runs("build-arm64"), (1, "", "build-arm64: there is no program for this computer yet: run make first\n"))


class Checking(Small):
    """tools/check-arm64."""

    SEGMENTS = "  Type  Align\n  LOAD  0x000000 R E 0x10000\n  LOAD  0x010000 RW 0x10000\n  GNU_STACK RW 0x10\n"

    def setUp(self):
        super().setUp()
        self.put_script(f"bin/{EMULATOR}", "bin/readelf")
        # It calls the program that it is given, by another name.
        self.put_script("tree/tools/check-program", text='#!/bin/bash\nprintf "%s\\n" "${@:3}" > "$NOTES/words"; pwd >> "$NOTES/words"; cat "${2%/*}/ldaodt-arm64" >> "$NOTES/words"; stat -c %a "${2%/*}" > "$NOTES/mode"\n'
                        '(exec -a given "$2" check "a b"); exit "${ENDS-0}"\n')
        self.put("notes/says-readelf", self.SEGMENTS.encode())
        self.put_script("tree/ldaodt-arm64", text="the program")

    def test_what_is_called(self):
        """All of the suite but for what the list leaves out, by an emulator of a processor without any extension, and under the same name."""
        self.needs(HERE)
        os.mkdir(self.path("rooms"))
        for status in (0, 1):
            self.assertEqual(self.runs("check-arm64", ENDS=str(status), TMPDIR=self.path("rooms")), (status, "", ""))
        self.assertEqual(os.listdir(self.path("rooms")), [])
        self.assertEqual(self.noted("words"), ["--leave-out", "tools/arm64/left-out", self.path("tree"), "the program"])
        # A test runs it as another user.
        self.assertEqual(self.noted("mode"), ["755"])
        words = self.noted(EMULATOR)
        self.assertEqual((words[:4], os.path.basename(words[4]), words[5:]), (["-cpu", "cortex-a53", "-0", "given"], "ldaodt-arm64", ["check", "a b"]))

    def test_a_program_that_wants_more_of_a_machine(self):
        self.needs(HERE)
        for old, new, told in (("LOAD  0x010000 RW 0x10000", "LOAD  0x010000 RW 0x1000", "0x1000 0x10000"), ("GNU_STACK RW 0x10", "INTERP R 0x1", "0x10000 INTERP"), (self.SEGMENTS, "", "")):
            self.put("notes/says-readelf", self.SEGMENTS.replace(old, new).encode())
            self.assertEqual(self.runs("check-arm64"), (1, "", f"check-arm64: ./ldaodt-arm64 asks for a C library, or for smaller pages: {told}\n"))
        self.assertFalse(os.path.exists(self.path("notes/words")))

    def test_no_program(self):
        os.remove(self.path("tree/ldaodt-arm64"))
        self.assertEqual(self.runs("check-arm64"), (2, "", "check-arm64: there is no ./ldaodt-arm64 yet: run make check-arm64\n"))


class Tools(Case):
    """What the tools say where something is missing."""

    def setUp(self):
        super().setUp()
        os.makedirs(self.path("bin"))
        os.symlink(sys.executable, self.path("bin/python3"))
        for it in ("bash", "dirname"):
            os.symlink(shutil.which(it), self.path(f"bin/{it}"))

    def put_program(self, name):
        self.put(f"bin/{name}", b"#!/bin/sh\n")
        os.chmod(self.path(f"bin/{name}"), 0o755)

    def says(self, tool, status, text):
        ran = subprocess.run([f"{TOP}/tools/{tool}"], env={**os.environ, "PATH": self.path("bin")}, stdin=subprocess.DEVNULL, capture_output=True, text=True)
        self.assertEqual((ran.returncode, ran.stdout, ran.stderr), (status, "", f"{tool}: {text}\n"))

    def test_building(self):
        self.says("build-arm64", 1, "the command rt of the Rattle toolchain is not on the PATH")
        self.put_program("rt")
        self.says("build-arm64", 1, f"{CROSS} is not on the PATH: CONTRIBUTING.md has the packages that bring it")

    def test_checking(self):
        self.says("check-arm64", 2, f"{EMULATOR} is not on the PATH: CONTRIBUTING.md has the packages that bring it")
        self.put_program(EMULATOR)
        self.says("check-arm64", 2, f"{HERE} is not on the PATH: CONTRIBUTING.md has the packages that bring it")
        self.put_program(HERE)
        self.says("check-arm64", 2, "readelf is not on the PATH: CONTRIBUTING.md has the packages that bring it")


class Numbers(Case):
    """The calls that tests know by name, by their numbers in the system's headers."""

    def test_those_of_each_processor(self):
        for compiler, processor in ((HERE, traced.X86), (CROSS, traced.Arm)):
            with self.subTest(compiler):
                if not shutil.which(compiler) or compiler == HERE and platform.machine() != "x86_64":
                    self.skipTest(f"no headers here for {processor.__name__}")
                ran = subprocess.run([compiler, "-E", "-dM", "-include", "asm/unistd.h", "-x", "c", "/dev/null"], capture_output=True, text=True, check=True)
                values = dict(re.findall(r"^#define (__NR\w+) (\w+)$", ran.stdout, re.MULTILINE))
                calls = {values.get(number, number): name.removeprefix("__NR_") for name, number in values.items() if name.startswith("__NR_")}
                for number, name in processor.NAMES.items():
                    self.assertIn(calls[str(number)], (name, f"{name}at"))


if __name__ == "__main__":
    unittest.main()
