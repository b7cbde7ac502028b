# make                 proves and builds the program, as ./rehearse --prove does
# make test            runs the gate, as ./test does
# make install         installs the proved program, its tools, man pages, completions and documents below PREFIX
# make uninstall       removes what was installed below PREFIX
# make dist            packs the same as out/rehearse-VERSION-linux-PROCESSOR.tar.gz, which needs no toolchain
#
# PREFIX is where the files will stand, and DESTDIR a folder that is put before it, for packages.
# PROGRAM, for packages and checks alone, is a program that is taken in place of the proved one.
PREFIX = /usr/local
DESTDIR =
PROGRAM =
export PREFIX DESTDIR
proved = $(shell ./rehearse --proved 2> /dev/null)
program = $(or $(PROGRAM),$(proved),$(error the program isn't proved on this machine: run `make` first))

.PHONY: all test install uninstall dist

all:
	./rehearse --prove

test:
	./test

install:
	tools/install "$(program)"

uninstall:
	tools/install --remove

dist:
	tools/install --pack "$(program)"
