# Thistlecart for C: the archive, its header, and the driver of examples/.
#
#   make                the archive and the driver
#   make example        the driver's main job on the samples: a rule, a clip that passes and one that fails
#   make programs       the repository's own programs, in target/bin
#   make check-header   compiles the header alone as C99, C11 and C++
#   make install        the header, the archive and the pkg-config file, below $(DESTDIR)$(PREFIX)
#   make clean          removes the driver and what it wrote; the archive stays, as it takes minutes to prove
#
# The archive and the programs are made by Rattle's kit (rt), which proves them first and leaves them in their crates'
# folders out/; from there they are copied. What is newer than the sources needs no kit, and `make ARCHIVE=FILE` takes
# any other archive. All else that is built goes below target/.

VERSION = 0.6.0
PREFIX ?= /usr/local
CFLAGS ?= -O2

BUILT = target/staticlib/libthistlecart.a
ARCHIVE = $(BUILT)
DRIVER = target/driver/driver
PROGRAMS = target/bin/standing target/bin/runs
# What rt keeps in a crate's out/ is no source, though there are such files in it.
SOURCES := $(wildcard crates.txt) \
	$(shell find crates -name out -prune -o \( -name '*.rt' -o -name '*.antt' \) -print 2>/dev/null)
WARNINGS = -Wall -Wextra -pedantic -Iinclude

.PHONY: all example programs check-header install clean
.DELETE_ON_ERROR:

all: $(ARCHIVE) $(DRIVER)

$(BUILT): $(SOURCES)
	cd crates/thistlecart && rt lib
	mkdir -p $(@D)
	cp crates/thistlecart/out/$(@F) $@

programs: $(PROGRAMS)

target/bin/%:
	mkdir -p $(@D)
	cp $< $@

target/bin/standing: crates/standing/out/standing
target/bin/runs: crates/runs/out/runs

# rt builds a program as it runs it. Both rt run and rt ci leave it here.
crates/standing/out/standing crates/runs/out/runs: $(SOURCES)
	cd crates/$(@F) && rt run <stdin >/dev/null
	touch $@

$(DRIVER): examples/driver.c include/thistlecart.h $(ARCHIVE)
	mkdir -p $(@D)
	$(CC) -std=c99 $(WARNINGS) $(CPPFLAGS) $(CFLAGS) $(LDFLAGS) examples/driver.c $(ARCHIVE) -o $@

# A lamp that clips is followed by a frame without clipping 2 to 4 frames later; examples/driver.c explains the rule
# byte by byte. The second clip has to end with status 1.
example: $(DRIVER)
	@echo '== the lamp stops clipping in time'
	$(DRIVER) examples/lamp.rule examples/lamp.clip target/driver/lamp.code
	@echo '== the lamp clips for too long'
	$(DRIVER) examples/lamp.rule examples/stuck.clip target/driver/stuck.code; test $$? -eq 1

check-header:
	echo '#include "thistlecart.h"' | $(CC) -x c -std=c99 $(WARNINGS) -Werror -fsyntax-only -
	echo '#include "thistlecart.h"' | $(CC) -x c -std=c11 $(WARNINGS) -Werror -fsyntax-only -
	echo '#include "thistlecart.h"' | $(CXX) -x c++ $(WARNINGS) -Werror -fsyntax-only -

install: $(ARCHIVE)
	install -d '$(DESTDIR)$(PREFIX)/include' '$(DESTDIR)$(PREFIX)/lib/pkgconfig'
	install -m 644 include/thistlecart.h '$(DESTDIR)$(PREFIX)/include/thistlecart.h'
	install -m 644 $(ARCHIVE) '$(DESTDIR)$(PREFIX)/lib/libthistlecart.a'
	sed -e 's|@PREFIX@|$(abspath $(PREFIX))|' -e 's|@VERSION@|$(VERSION)|' thistlecart.pc.in \
		>'$(DESTDIR)$(PREFIX)/lib/pkgconfig/thistlecart.pc'
	chmod 644 '$(DESTDIR)$(PREFIX)/lib/pkgconfig/thistlecart.pc'

clean:
	rm -rf target/driver
