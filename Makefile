# What a person does here. Only `make`, `make test` and `make edits` need rt, the command of the Rattle toolchain: the
# others take a ./ldaodt that is there.

# Where make install puts things; DESTDIR goes before it, for packagers. They reach the shell as variables, so that a
# space in them is a space.
PREFIX ?= /usr/local
export PREFIX DESTDIR

.PHONY: all ldaodt test check edits demo bench hostile install uninstall dist deb ldaodt-arm64 dist-arm64 deb-arm64 check-arm64

all: ldaodt

# Proves and builds. rt knows by itself what has changed since, so it is asked every time. The archive has no sources.
ldaodt:
	@if [ -x tools/build ]; then tools/build; else echo 'nothing is built here: ./ldaodt is there, and make install installs it'; fi

# The merge gate: the proofs, the must-fail edits, the tests, the program's stored run; then the program that was just
# built, tried from outside; and what each lane took.
test:
	@tools/gate

# The built program from outside: the examples, each transcript of the documents and of tests/, the tests of tests/.
check: ldaodt
	@tools/check-program

# The must-fail edits, many at once: those of CRATES, or of each crate that promises something else than when they were tried.
edits:
	@tools/edits $(CRATES)

# The main jobs, one after another, against a simulated machine.
demo: ldaodt
	@tools/demo

# Times, for a reader to judge: nothing here fails for being slow.
bench: ldaodt
	@tools/bench
	@tools/bench-load

# The built program in bad company: little memory, full disks, a peer that hangs up, lost characters and kills. It
# takes minutes and depends on time, so it is no part of the gate.
hostile: ldaodt
	@tools/hostile

# They build nothing, so that they can be run as another user than make was.
install:
	@tools/lay-out install "$$DESTDIR$$PREFIX"

uninstall:
	@tools/lay-out uninstall "$$DESTDIR$$PREFIX"

# The program for somebody who has no toolchain: one tar.gz with its manual page, documents and examples.
dist: ldaodt
	@tools/lay-out dist

# The same as a Debian package, where dpkg-deb is.
deb: ldaodt
	@tools/lay-out deb

# All three for 64-bit ARM, as a Raspberry Pi: CONTRIBUTING.md says what they want. They are no part of the gate.
ldaodt-arm64: ldaodt
	@tools/build-arm64

dist-arm64: ldaodt-arm64
	@tools/lay-out dist ldaodt-arm64

deb-arm64: ldaodt-arm64
	@tools/lay-out deb ldaodt-arm64

# The program for ARM from outside, under an emulator.
check-arm64: ldaodt-arm64
	@tools/check-arm64
