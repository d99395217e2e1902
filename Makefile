# The library for C and C++, and the ledger program that stands on it.
#
#   make                 builds them below target/c; proves the exported calls first, where that is not done yet (needs the Rattle kit's rt)
#   make install         into DESTDIR/PREFIX: lib/libhernganow.a, lib/libhernganow.so.1, include/hernganow.h, lib/pkgconfig/hernganow.pc, bin/hernganow-ledger
#   make uninstall       removes what install put there
#   make check           tries the libraries and the ledger program (host/test: some minutes)
#   make clean           removes target/c; the proved library stays
#
# LEDGER=no leaves the ledger program out, and with it the need for SQLite's headers.
PREFIX = /usr/local
DESTDIR =
LIBDIR = $(PREFIX)/lib
INCLUDEDIR = $(PREFIX)/include
BINDIR = $(PREFIX)/bin
CC = cc
CFLAGS = -O2
LDFLAGS =
INSTALL = install
LEDGER = yes

VERSION := $(shell sed -n 's/^\#define HERNGANOW_VERSION "\(.*\)"/\1/p' include/hernganow.h)
SONAME := libhernganow.so.$(firstword $(subst ., ,$(VERSION)))
OUT = target/c
PROVED = target/staticlib/libhost.a
STATIC = $(OUT)/libhernganow.a
SHARED = $(OUT)/$(SONAME)
PROGRAM_yes = $(OUT)/hernganow-ledger
PROGRAM = $(PROGRAM_$(LEDGER))
WARNINGS = -std=c99 -Wall -Wextra -Wpedantic

all: $(STATIC) $(SHARED) $(PROGRAM)

# Proved and compiled by rt, where a source is newer.
$(PROVED): always
	@tools/build host

$(OUT):
	mkdir -p $@

$(OUT)/version.o: host/version.c include/hernganow.h | $(OUT)
	$(CC) $(WARNINGS) $(CFLAGS) -fPIC -Iinclude -c -o $@ host/version.c

# What rt wrote, and the version beside it. Only names that begin with hernganow_ are seen in either library (host/tests/installed.py looks).
$(STATIC): $(PROVED) $(OUT)/version.o
	cp $(PROVED) $@
	$(AR) rs $@ $(OUT)/version.o

$(SHARED): $(STATIC) host/symbols
	$(CC) $(CFLAGS) $(LDFLAGS) -shared -s -Wl,-soname,$(SONAME) -Wl,--version-script=host/symbols -Wl,-z,defs,-z,relro,-z,now,-z,noexecstack \
		-o $@ -Wl,--whole-archive $(STATIC) -Wl,--no-whole-archive

$(OUT)/hernganow-ledger: $(STATIC) $(wildcard host/ledger/*) host/build include/hernganow.h Makefile
	CC='$(CC)' CFLAGS='$(CFLAGS) $(LDFLAGS)' host/build $@

# It has PREFIX in it, so it is made where it is installed.
install: all
	$(INSTALL) -d $(DESTDIR)$(LIBDIR)/pkgconfig $(DESTDIR)$(INCLUDEDIR)
	$(INSTALL) -m 644 include/hernganow.h $(DESTDIR)$(INCLUDEDIR)/hernganow.h
	$(INSTALL) -m 644 $(STATIC) $(DESTDIR)$(LIBDIR)/libhernganow.a
	$(INSTALL) -m 755 $(SHARED) $(DESTDIR)$(LIBDIR)/$(SONAME)
	ln -sf $(SONAME) $(DESTDIR)$(LIBDIR)/libhernganow.so
	sed 's|@PREFIX@|$(PREFIX)|; s|@LIBDIR@|$(LIBDIR)|; s|@INCLUDEDIR@|$(INCLUDEDIR)|; s|@VERSION@|$(VERSION)|' host/hernganow.pc.in \
		>$(DESTDIR)$(LIBDIR)/pkgconfig/hernganow.pc
	if [ -n '$(PROGRAM)' ]; then $(INSTALL) -d $(DESTDIR)$(BINDIR) && $(INSTALL) -m 755 $(PROGRAM) $(DESTDIR)$(BINDIR)/hernganow-ledger; fi
	@# So that the loader finds the shared library at once.
	@[ -n '$(DESTDIR)' ] || ldconfig >/dev/null 2>&1 || true

uninstall:
	rm -f $(DESTDIR)$(INCLUDEDIR)/hernganow.h $(DESTDIR)$(LIBDIR)/libhernganow.a $(DESTDIR)$(LIBDIR)/$(SONAME) $(DESTDIR)$(LIBDIR)/libhernganow.so \
		$(DESTDIR)$(LIBDIR)/pkgconfig/hernganow.pc $(DESTDIR)$(BINDIR)/hernganow-ledger

check:
	host/test

clean:
	rm -rf $(OUT)

.DELETE_ON_ERROR:
.PHONY: all install uninstall check clean always
