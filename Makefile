# What can be made:
#
#     make                    prove and build the program and the archive for C; a quarter of an hour the first time, on four cores
#     make program            the program alone: target/bin/shellsheet
#     make driver             target/driver, which makes the calls of stored cases for tests/vectors
#     make install            install what is built into PREFIX (/usr/local); needs no rt once it is built
#     make uninstall          remove what install put there, with the same PREFIX, LIBDIR and DESTDIR
#     make check              run every test of tests/ on what is built, a minute; .ci/run is the whole gate, which proves all again
#     make clean              remove target/ and crates/*/out/, so all that was proved and built
#     make help               this list
#
# PREFIX=/usr/local           where the installation is found
# LIBDIR=$(PREFIX)/lib        where the archive and the file for pkg-config go, such as /usr/lib/x86_64-linux-gnu
# DESTDIR=                    a folder in which everything is put, for a package
#
# What is built has been proved: rt writes nothing else. The version stands in include/shellsheet.h.
PREFIX ?= /usr/local
LIBDIR ?= $(prefix)/lib
DESTDIR ?=
header = include/shellsheet.h
number = $(shell sed -n 's/^.define SHELLSHEET_VERSION_$(1) //p' $(header))
VERSION := $(call number,MAJOR).$(call number,MINOR)
program = target/bin/shellsheet
archive = target/staticlib/libcapi.a
driver = target/driver
sources = crates.txt $(shell find crates -path 'crates/*/out' -prune -o \( -name '*.rt' -o -name '*.antt' \) -print)

all: $(program) $(archive)
program: $(program)
driver: $(driver)

# File times alone tell what is old, so that what is built can be installed where there is no rt.
$(program): $(sources)
	@mkdir -p $(@D)
	@command -v rt >target/check.log || { echo 'make: rt, the Rattle toolchain, is not on the PATH' >&2; exit 1; }
	@echo 'Proving and building the program: a quarter of an hour the first time, on four cores. To follow it: tail -f target/check.log'
	(cd crates/shellsheet && rt run -- --version) >target/check.log 2>&1 || { tail -n 40 target/check.log; exit 1; }
	cp crates/shellsheet/out/shellsheet $@

$(archive): $(sources) | $(program)
	@mkdir -p $(@D)
	@echo 'Proving and building the archive for C: under a minute. To follow it: tail -f target/staticlib.log'
	(cd crates/capi && rt lib) >target/staticlib.log 2>&1 || { rm -f $@; tail -n 40 target/staticlib.log; exit 1; }
	cp crates/capi/out/libcapi.a $@

$(driver): tests/driver.c $(header) $(archive)
	gcc -std=c11 -Wall -Wextra -Wconversion -Werror -O2 -o $@ tests/driver.c $(archive)

# ---------------------------------------------------------------- installation

prefix = $(abspath $(PREFIX))
libdir = $(abspath $(LIBDIR))
folders = $(prefix)/bin $(libdir)/pkgconfig $(prefix)/include $(prefix)/share/man/man1 $(prefix)/share/man/man3 $(prefix)/share/shellsheet
files = $(prefix)/bin/shellsheet $(libdir)/libshellsheet.a $(libdir)/pkgconfig/shellsheet.pc $(prefix)/include/shellsheet.h \
    $(prefix)/share/man/man1/shellsheet.1 $(prefix)/share/man/man3/shell_judge.3 $(prefix)/share/man/man3/shell_write.3 \
    $(prefix)/share/man/man3/shell_write_wind.3 $(prefix)/share/man/man3/shell_choose_plate.3 $(prefix)/share/man/man3/shell_judge_line.3 \
    $(prefix)/share/man/man3/shell_write_inner.3 $(prefix)/share/man/man3/shell_write_wind_inner.3 $(prefix)/share/man/man3/shell_write_cases.3
# the folders that install had to make, so that uninstall takes away these and no others
made = '$(DESTDIR)$(prefix)/share/shellsheet/folders'
fill = sed -e 's|@PREFIX@|$(prefix)|' -e 's|@LIBDIR@|$(patsubst $(prefix)/%,$${prefix}/%,$(libdir))|' -e 's|@VERSION@|$(VERSION)|'

# The flags that pkg-config prints are split at spaces by every shell, so a path with one would install and not compile.
export PREFIX LIBDIR DESTDIR
paths:
	@bad() { echo "make: $$1 is '$$2': $$3" >&2; exit 1; }; \
	for v in PREFIX LIBDIR; do \
	    eval "p=\$$$$v"; \
	    case $$p in \
	    *[[:space:]\'\"\\\$$\`\|\&\;\<\>\(\)\*\?\[\]\{\}\#%~]*) bad $$v "$$p" 'a space, a quote or a sign of the shell cannot stand in it';; \
	    '') bad $$v "$$p" 'it is empty; the root is /';; \
	    esac; \
	done; \
	case $$LIBDIR in /*) ;; *) bad LIBDIR "$$LIBDIR" 'it does not start with /';; esac; \
	case $$DESTDIR in *\'*) bad DESTDIR "$$DESTDIR" 'a quote cannot stand in it';; esac

install: paths $(program) $(archive)
	@install -d '$(DESTDIR)/'
	@new=; for d in $(folders); do \
	    while [ ! -d '$(DESTDIR)'"$$d" ]; do new="$$new $$d"; d=$$(dirname "$$d"); done; \
	done; \
	for d in $(folders); do install -d '$(DESTDIR)'"$$d" || exit 1; done; \
	[ -z "$$new" ] || printf '%s\n' $$new >>$(made)
	install -m 755 $(program) '$(DESTDIR)$(prefix)/bin/shellsheet'
	install -m 644 $(archive) '$(DESTDIR)$(libdir)/libshellsheet.a'
	install -m 644 $(header) '$(DESTDIR)$(prefix)/include/shellsheet.h'
	$(fill) shellsheet.pc.in >'$(DESTDIR)$(libdir)/pkgconfig/shellsheet.pc'
	$(fill) man/shellsheet.1 >'$(DESTDIR)$(prefix)/share/man/man1/shellsheet.1'
	$(fill) man/shell_judge.3 >'$(DESTDIR)$(prefix)/share/man/man3/shell_judge.3'
	$(fill) man/shell_write.3 >'$(DESTDIR)$(prefix)/share/man/man3/shell_write.3'
	install -m 644 man/shell_write_wind.3 '$(DESTDIR)$(prefix)/share/man/man3/shell_write_wind.3'
	$(fill) man/shell_choose_plate.3 >'$(DESTDIR)$(prefix)/share/man/man3/shell_choose_plate.3'
	$(fill) man/shell_judge_line.3 >'$(DESTDIR)$(prefix)/share/man/man3/shell_judge_line.3'
	$(fill) man/shell_write_inner.3 >'$(DESTDIR)$(prefix)/share/man/man3/shell_write_inner.3'
	install -m 644 man/shell_write_wind_inner.3 '$(DESTDIR)$(prefix)/share/man/man3/shell_write_wind_inner.3'
	$(fill) man/shell_write_cases.3 >'$(DESTDIR)$(prefix)/share/man/man3/shell_write_cases.3'
	@chmod a+r $(foreach f,$(files),'$(DESTDIR)$(f)')

uninstall: paths
	rm -f $(foreach f,$(files),'$(DESTDIR)$(f)')
	@[ ! -f $(made) ] || { list=$$(LC_ALL=C sort -ru $(made)); rm $(made); \
	    for d in $$list; do rmdir '$(DESTDIR)'"$$d" 2>/dev/null || true; done; }

# ---------------------------------------------------------------- the rest

# the tests call make themselves, with flags of their own
check: all
	@for t in $$(find tests -maxdepth 1 -type f -perm -u+x | LC_ALL=C sort); do \
	    echo "$$t"; env -u MAKEFLAGS -u MFLAGS -u MAKELEVEL -u PREFIX -u LIBDIR -u DESTDIR $$t || { echo "make: $$t failed" >&2; exit 1; }; \
	done; echo 'All tests passed. What is not run here: .ci/run proves everything from nothing and tries the edits that must fail.'

clean:
	rm -rf target crates/*/out

help:
	@sed -n '/^#/!q; s/^#$$//; s/^# //; p' Makefile; echo 'This is version $(VERSION).'

.PHONY: all program driver paths install uninstall check clean help
