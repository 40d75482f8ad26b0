# make install [PREFIX=/usr/local] [DESTDIR=]   the header, the archive and kofudile.pc, under DESTDIR and PREFIX
# make uninstall                                with the same PREFIX and DESTDIR: takes these three away
# make demo                                     builds include/example.c and runs it: a small host at work, by the archive in dist/
# make dist                                     proves the C functions and writes dist/ anew (needs the Rattle kit)
# make version                                  prints the header's version
# Which archive is linked and installed: tools/library says it.
PREFIX ?= /usr/local
CFLAGS ?= -O2
to = $(DESTDIR)$(PREFIX)
library = $(shell tools/library)
part = $(shell sed -n 's/^.define KOFUDILE_VERSION_$(1) //p' include/kofudile.h)
version = $(call part,MAJOR).$(call part,MINOR).$(call part,PATCH)

help:
	@sed -n 's/^# //p' Makefile

install:
	install -d '$(to)/include' '$(to)/lib/pkgconfig'
	install -m 644 include/kofudile.h '$(to)/include/kofudile.h'
	install -m 644 '$(library)/libkofudile.a' '$(to)/lib/libkofudile.a'
	sed -e 's|@PREFIX@|$(PREFIX)|' -e 's|@VERSION@|$(version)|' kofudile.pc.in > '$(to)/lib/pkgconfig/kofudile.pc'

uninstall:
	rm -f '$(to)/include/kofudile.h' '$(to)/lib/libkofudile.a' '$(to)/lib/pkgconfig/kofudile.pc'

demo:
	@mkdir -p target
	@$(CC) $(CFLAGS) -Iinclude include/example.c -L'$(library)' -lkofudile -o target/example
	@target/example

dist:
	tools/dist

version:
	@echo $(version)

.PHONY: help install uninstall demo dist version
