# Lokhazim: a proved heap that parts of a firmware share without trusting each other.
# README.md says more, and what these commands need.
#
# make run       tell a story, prove the heap and the replay program (minutes), and run the story
# make try       tell the story and run it at once, with nothing proved
# make test      prove everything, try every must-fail edit, run every test
# make check     run every check that takes seconds and proves nothing: documents, lints
#
# make lib       prove the exported calls, and write build/lib/liblokhazim.a with its headers
# make cli       prove the library and build the command build/bin/lokhazim over it
# make install   install library, headers, command and manual: PREFIX=/usr/local DESTDIR=
# make uninstall remove what install has put there: PREFIX=/usr/local DESTDIR=
# make dist      write archives of the sources and of an installed tree to build/dist
#
# make port      prove the exported functions, and compile them for other processors: TARGET=cortex-m3
# make port-test compare those libraries with the proved one, each on its processor under qemu: TARGET=..
#
# make wrong     try the wrong programs that the gate leaves out
# make figures   print the library's code size, the stack that calls need, and the bytes of accounts
# make bench     time the proved calls, the reference and other allocators, such as glibc's with a check
# make fuzz      compare the proved code with the reference from a fresh seed: SECONDS=600 SEED=..
# make sanitize  compare calls under valgrind: SECONDS=600 SEED=..
# make clean     remove build/ and what rt keeps beside the crates

SECONDS := 60
SEED :=
PREFIX ?= /usr/local
DESTDIR ?=
TARGET :=

.PHONY: help run try test check lib cli install uninstall dist port port-test wrong figures bench fuzz sanitize clean

help:
	@sed -n '/^#/!q; s/^# \{0,1\}//p' Makefile

run:
	@scripts/run

try:
	@scripts/try

test:
	@scripts/test

check:
	@scripts/check

lib:
	@scripts/lib

cli:
	@scripts/cli

install:
	@scripts/install '$(PREFIX)' '$(DESTDIR)'

uninstall:
	@scripts/install --remove '$(PREFIX)' '$(DESTDIR)'

dist:
	@scripts/dist

port:
	@scripts/port $(TARGET)

port-test:
	@scripts/port-test $(TARGET)

wrong:
	@scripts/wrong

figures:
	@scripts/figures

bench:
	@scripts/bench

fuzz:
	@scripts/fuzz $(SECONDS) $(SEED)

sanitize:
	@scripts/sanitize $(SECONDS) $(SEED)

clean:
	rm -rf build crates/*/out
