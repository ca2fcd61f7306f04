# Thin targets over the toolchain, for those who type make.
#   make                      proves and builds the archive for C, the programs, and the commands in C over it, season, load and survey, under target/
#   make library              proves the library, and builds its archive for C, target/staticlib/libbusdekker.a
#   make target/bin/zeroin    proves and builds the program zeroin alone; clean and old_default alike
#   make target/bin/season    builds the season report alone, with the C compiler, on the archive that is there; nothing is proved
#   make target/bin/load      the same for the trial load
#   make target/bin/survey    the same for the survey of the range
#   make test                 the gate: everything is proved and tested
#   make install PREFIX=DIR   installs the header, the archive, its pkg-config file and the programs and commands that `make` built; DESTDIR is put before
# The archive, the programs and the commands are for x86-64 Linux.
PREFIX = /usr/local
DESTDIR =
CFLAGS = -O2
PROGRAMS = zeroin clean old_default
COMMANDS = season load survey
BUILT_PROGRAMS = $(PROGRAMS:%=target/bin/%)
BUILT_COMMANDS = $(COMMANDS:%=target/bin/%)
BUILT = $(BUILT_PROGRAMS) $(BUILT_COMMANDS)
VERSION = $(shell sed -n 's/^.define BUSDEKKER_VERSION //p' include/busdekker.h)
ARCHIVE = target/staticlib/libbusdekker.a

.PHONY: all library test install FORCE

all:
	$(MAKE) library
	$(MAKE) $(BUILT_PROGRAMS)
	$(MAKE) $(BUILT_COMMANDS)

library:
	cd crates/busdekker && rt lib
	mkdir -p target/staticlib
	cp crates/busdekker/out/libbusdekker.a $(ARCHIVE)

# `rt run` proves and builds a program, and runs it, here on an empty input.
$(BUILT_PROGRAMS): target/bin/%: FORCE
	cd crates/$* && rt run </dev/null >/dev/null
	mkdir -p target/bin
	cp crates/$*/out/$* $@

FORCE:

$(BUILT_COMMANDS): target/bin/%: tools/%.c tools/command.h include/busdekker.h $(ARCHIVE)
	mkdir -p target/bin
	$(CC) -std=c11 $(CFLAGS) -Iinclude $< $(ARCHIVE) $(LDFLAGS) -o $@

# Only where it is not there.
$(ARCHIVE):
	@echo "make: $@ is not there: run make first, which proves and builds it" >&2; exit 1

test:
	bash .ci/run

install:
	@for file in $(ARCHIVE) $(BUILT); do test -f $$file || { echo "make install: $$file is not there: run make first" >&2; exit 1; }; done
	mkdir -p $(DESTDIR)$(PREFIX)/include $(DESTDIR)$(PREFIX)/lib/pkgconfig $(DESTDIR)$(PREFIX)/bin
	install -m 644 include/busdekker.h $(DESTDIR)$(PREFIX)/include/
	install -m 644 $(ARCHIVE) $(DESTDIR)$(PREFIX)/lib/
	sed -e 's|@PREFIX@|$(PREFIX)|' -e 's|@VERSION@|$(VERSION)|' busdekker.pc.in >$(DESTDIR)$(PREFIX)/lib/pkgconfig/busdekker.pc
	install -m 755 $(BUILT) $(DESTDIR)$(PREFIX)/bin/
