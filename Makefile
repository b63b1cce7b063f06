# make                          proves what is not proved and makes the archives and the shared library (tools/archive)
# make install PREFIX= DESTDIR= installs them, the header, the pkg-config files and the man pages; PREFIX is /usr/local where none is named
# make uninstall                takes away what was installed
# make test                     the gate (.ci/run)
# make wheel                    target/dist/: the Python package and the command, with the shared library of the machine at hand (tools/wheel)
# make dist                     target/dist/: the installed tree as a tarball, for each processor, and the wheel, with checksums
VERSION := $(shell sed -n 's/^#define WARPLADLE_VERSION "\(.*\)"$$/\1/p' include/warpladle.h)
MAJOR := $(firstword $(subst ., ,$(VERSION)))
PREFIX ?= /usr/local
DESTDIR ?=
MACHINE := $(shell uname -m)
INTO = $(DESTDIR)$(PREFIX)
MAN = warpladle.1 warpladle.3
SHARED = libwarpladle.so.$(VERSION)

.PHONY: all install uninstall test wheel dist
all:
	tools/archive

install: all
	install -d "$(INTO)/lib/pkgconfig" "$(INTO)/include"
	install -m 644 target/libwarpladle.a target/libhandheld.a "$(INTO)/lib"
	install -m 755 target/libwarpladle.so "$(INTO)/lib/$(SHARED)"
	ln -sf $(SHARED) "$(INTO)/lib/libwarpladle.so.$(MAJOR)"
	ln -sf libwarpladle.so.$(MAJOR) "$(INTO)/lib/libwarpladle.so"
	install -m 644 include/warpladle.h "$(INTO)/include"
	for name in warpladle handheld; do \
		sed 's|@PREFIX@|$(PREFIX)|; s|@VERSION@|$(VERSION)|' install/$$name.pc.in >"$(INTO)/lib/pkgconfig/$$name.pc" || exit 1; done
	for page in $(MAN); do section=$${page##*.}; install -d "$(INTO)/share/man/man$$section" && \
		install -m 644 install/$$page "$(INTO)/share/man/man$$section" || exit 1; done

uninstall:
	rm -f "$(INTO)"/lib/libwarpladle.* "$(INTO)/lib/libhandheld.a" "$(INTO)/include/warpladle.h"
	rm -f "$(INTO)/lib/pkgconfig/warpladle.pc" "$(INTO)/lib/pkgconfig/handheld.pc"
	for page in $(MAN); do rm -f "$(INTO)/share/man/man$${page##*.}/$$page"; done

test:
	.ci/run

wheel: all
	tools/wheel

# The shared library is of the machine at hand, so the tarball of the other processor has archives alone.
dist: all
	tools/dist $(VERSION)
