# make alone and make help print the lines that begin with '#:'.
#: make TARGET, and the time that it takes on four idle cores. From nothing: with no target/ and no folder out/ of a crate.
#: Where no source is newer than what was built, only test proves again.
#:
#:   help                 this list
#:   report               the program target/bin/report, run on an example: 4 minutes from nothing, else half a minute
#:   lib                  the static library for a host in C, with include/lowhenita.h: the same
#:   examples             the library and the example hosts, run on examples: the same
#:   install              library, header, program, manual page and pkg-config file below PREFIX, /usr/local if none is given: the same
#:   uninstall            removes these files; nothing is built for it
#:   check                proves every crate and runs every test, but tries no must-fail edit: 10 minutes from nothing, else about 7
#:   test                 the gate: proves every crate, tries every must-fail edit, runs every test: 30 minutes from nothing
#:   bench                the library and its times beside plain C: 25 seconds more than lib
#:   target/lowhenita.pc  the pkg-config file; nothing is built for it
#:   clean                removes target/ and each crate's out/: all that is built, and what checks have kept
PREFIX = /usr/local
PC_FILE = target/lowhenita.pc
VERSION := $(shell sed -n 's/^\#define LOWHENITA_VERSION "\(.*\)"$$/\1/p' include/lowhenita.h)
CC = gcc
LIBRARY = target/staticlib/liblowhenita.a
REPORT = target/bin/report

# What the two are built from: the crates without their must-fail edits and without out/, which checks write. The folders are among them, so
# that a file that is gone counts. With another toolchain run make clean first.
SOURCES := crates.txt $(shell find crates -mindepth 2 \( -name must-fail -o -name out \) -prune -o \( -type d -o -type f \) -print)

.PHONY: help test check report lib examples $(PC_FILE) install uninstall bench clean
.DELETE_ON_ERROR:
.NOTPARALLEL:

help:
	@sed -n 's/^#: \{0,1\}//p' Makefile

test:
	.ci/run

check:
	rt all test
	$(MAKE) lib report
	tools/build cases
	target/bin/report < crates/report/stdin | cmp - crates/report/stdout
	target/bin/cases < crates/cases/stdin | cmp - crates/cases/stdout
	tests/host/run
	tests/report/run
	tests/examples/run
	@echo 'make check: all parts passed'

report: $(REPORT)
	$(REPORT) < examples/A.coder

lib: $(LIBRARY)

$(REPORT): $(SOURCES)
	tools/build report

$(LIBRARY): $(SOURCES)
	tools/build library

examples: $(LIBRARY)
	@for c in 'gcc -std=c99' 'clang -std=c99' 'g++ -x c++' 'clang++ -x c++'; do \
	  if command -v $${c%% *} > /dev/null; then \
	    for host in decode join kinds splice write; do \
	      echo "$$c -Wall -Wextra -Werror examples/$$host.c"; \
	      $$c -Wall -Wextra -Werror -O2 -Iinclude -c examples/$$host.c -o target/$$host.o || exit 1; \
	    done; \
	  fi; \
	done
	for host in decode join kinds splice write; do \
	  $(CC) -std=c99 -Wall -Wextra -Werror -O2 -Iinclude examples/$$host.c $(LIBRARY) -o target/$$host || exit 1; \
	done
	target/write 2 2 2 0/0 1/1 1/1 0/0 | cmp - examples/A.coder
	target/decode examples/A.coder 1 1 0 1
	target/join examples/scrambler.coder examples/A.coder > target/scrambled.coder
	target/decode target/scrambled.coder 1 0 1 1 0 1 0
	target/kinds examples/fillers.coder 0,0,1,1 0 2 1 3 3 1
	target/splice examples/G.coder 2=1 0 1 0 1 1 0

# Written anew each time: PREFIX may have changed.
$(PC_FILE):
	mkdir -p $(@D)
	printf 'prefix=%s\nName: lowhenita\nDescription: line coders, their windows and decoders, proved\nVersion: %s\nCflags: -I$${prefix}/include\nLibs: -L$${prefix}/lib -llowhenita\n' \
	  '$(PREFIX)' '$(VERSION)' > $@

install: $(LIBRARY) $(REPORT) $(PC_FILE)
	install -d $(DESTDIR)$(PREFIX)/lib/pkgconfig $(DESTDIR)$(PREFIX)/include $(DESTDIR)$(PREFIX)/bin $(DESTDIR)$(PREFIX)/share/man/man1
	install -m 644 $(LIBRARY) $(DESTDIR)$(PREFIX)/lib/
	install -m 644 $(PC_FILE) $(DESTDIR)$(PREFIX)/lib/pkgconfig/lowhenita.pc
	install -m 644 include/lowhenita.h $(DESTDIR)$(PREFIX)/include/
	install -m 755 $(REPORT) $(DESTDIR)$(PREFIX)/bin/
	install -m 644 man/report.1 $(DESTDIR)$(PREFIX)/share/man/man1/

# The folders stay.
uninstall:
	rm -f $(DESTDIR)$(PREFIX)/lib/liblowhenita.a $(DESTDIR)$(PREFIX)/lib/pkgconfig/lowhenita.pc $(DESTDIR)$(PREFIX)/include/lowhenita.h \
	  $(DESTDIR)$(PREFIX)/bin/report $(DESTDIR)$(PREFIX)/share/man/man1/report.1

bench: $(LIBRARY)
	$(CC) -std=c99 -Wall -Wextra -Werror -O2 -Iinclude -Itests/host tests/bench/bench.c tests/bench/plain.c tests/host/coders.c \
	  $(LIBRARY) -o target/bench
	target/bench

clean:
	rm -rf target crates/*/out
