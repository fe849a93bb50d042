# `make help` lists what can be made. Everything beyond the kit, a C compiler, cargo and python3 is built here.

# The crates whose functions are the library, each exported by a crate NAME_c, an archive of its own that `lib` joins. A new
# function needs no archive: some lines in crates/osek and crates/osek_c export it, and the crate that proves it is not proved
# again. One that wants the run's last model, or plays events by a loop of its own, gets an archive: a second caller of `run`
# beside `osek_run` makes the run slower (docs/PERFORMANCE.md), and a second loop twice as slow.
EXPORTS = osek waits misses

KIT_BIN = $(or $(RATTLE_HOME),/opt/rattle)/bin
export PATH := $(PATH):$(KIT_BIN)
CFLAGS = -std=c99 -O2 -Wall -Wextra -Wpedantic -Werror
CARGO = --release --offline --locked --manifest-path tests/Cargo.toml --features linked
PREFIX = /usr/local
SEED = 1
COUNT = 100000

# The version stands in the header alone.
VERSION := $(shell sed -n 's/^.define OSEK_VERSION "\(.*\)"/\1/p' include/osek.h)
SONAME := libosek.so.$(firstword $(subst ., ,$(VERSION)))

LIBRARY = build/libosek.a
SHARED = build/libosek.so
ARCHIVES = $(EXPORTS:%=build/archive/lib%.a)
SOURCES := KIT crates.txt $(shell find crates \( -name must-fail -o -name out \) -prune -o -type f -print)

.NOTPARALLEL:
.PHONY: help run test host lib tool unit unit-check install uninstall dist fuzz speed clean need need-cargo

## make run          proves the bench program and runs it on the listing of document 01
## make test         the gate: every crate proved, every must-fail edit refused, every test run
## make host         build/osek_host, the bench host in C, for files of one's own
## make lib          build/libosek.a and build/libosek.so, for C, C++, Python and whatever calls C
## make tool         build/osek, the bench tool: text in, words and pictures out, a simulator beside the reference
## make unit         the emulated unit: a Sloth kernel for QEMU's Cortex-M3, right and with each planted fault (unit/README.md)
## make unit-check   the unit beside the reference, and every fault found
## make install      header, libraries, osek.pc, host, tool, manual pages and python/ under PREFIX=/usr/local; make uninstall
## make dist         build/dist: a tarball and a .deb of what is installed, after `make test` of this commit; needs no kit to use
## make fuzz         drawn cases beside the Rust versions of tests/: SEED=7 COUNT=20000
## make speed        the run timed beside Rust; WRITE=1 puts the tables into docs/PERFORMANCE.md
## make clean        removes all that was built, what is known to be proved too
help:
	@sed -n 's/^## //p' $(MAKEFILE_LIST)

need:
	@scripts/need rt $(CC)

need-cargo:
	@scripts/need rt $(CC) cargo

test:
	@scripts/test

run: need
	@scripts/prove program bench
	@cd crates/bench/data && ../out/bench

# Proved and built again only where a source is newer.
build/archive/lib%.a: $(SOURCES)
	@scripts/prove archive $*_c
	@mkdir -p build/archive
	@cp crates/$*_c/out/lib$*_c.a $@

$(LIBRARY): $(ARCHIVES)
	@mkdir -p build
	@scripts/join $@ $^

# Copies in the place of links, since rt ci stops at a link below the folder in which it runs.
$(SHARED): $(LIBRARY) include/osek.h
	@rm -f $@ $@.*
	@$(CC) -shared -Wl,-soname,$(SONAME) -Wl,--whole-archive $(LIBRARY) -Wl,--no-whole-archive -o $@.$(VERSION)
	@cp $@.$(VERSION) build/$(SONAME)
	@cp $@.$(VERSION) $@

build/osek_host: host/osek_host.c include/osek.h $(LIBRARY)
	@$(CC) $(CFLAGS) -Iinclude $< $(LIBRARY) -o $@

lib: need $(LIBRARY) $(SHARED)
	@echo 'build/libosek.a and build/libosek.so: the functions of include/osek.h'

host: need build/osek_host
	@echo 'build/osek_host CONFIG TRACE runs the trace in one file over the configuration in another'

# Where things are installed; DESTDIR goes before PREFIX. Python looks in PYTHON_DIR under /usr, elsewhere by PYTHONPATH.
PYTHON_DIR = lib/python3/dist-packages
PYTHON_FILES = $(patsubst python/%,%,$(wildcard python/osek/*.py)) osek/py.typed osek/VERSION
PAGES = README.md CHANGELOG.md CONTRIBUTING.md $(wildcard docs/*.md docs/*.txt docs/*.svg docs/*.png)
INSTALLED = include/osek.h lib/libosek.a lib/libosek.so lib/$(SONAME) lib/libosek.so.$(VERSION) \
            lib/pkgconfig/osek.pc bin/osek_host share/man/man1/osek_host.1 bin/osek share/man/man1/osek.1 \
            share/bash-completion/completions/osek $(PYTHON_FILES:%=$(PYTHON_DIR)/%)

install: lib host tool
	@install -d $(sort $(dir $(INSTALLED:%=$(DESTDIR)$(PREFIX)/%)))
	@install -m 644 include/osek.h $(DESTDIR)$(PREFIX)/include
	@install -m 644 $(LIBRARY) $(DESTDIR)$(PREFIX)/lib
	@install -m 755 $(SHARED).$(VERSION) $(DESTDIR)$(PREFIX)/lib
	@ln -sf libosek.so.$(VERSION) $(DESTDIR)$(PREFIX)/lib/$(SONAME)
	@ln -sf $(SONAME) $(DESTDIR)$(PREFIX)/lib/libosek.so
	@sed -e 's|@PREFIX@|$(PREFIX)|' -e 's|@VERSION@|$(VERSION)|' host/osek.pc.in > $(DESTDIR)$(PREFIX)/lib/pkgconfig/osek.pc
	@install -m 755 build/osek_host build/osek $(DESTDIR)$(PREFIX)/bin
	@install -m 644 host/osek_host.1 $(DESTDIR)$(PREFIX)/share/man/man1
	@build/osek --man > $(DESTDIR)$(PREFIX)/share/man/man1/osek.1
	@build/osek --completion > $(DESTDIR)$(PREFIX)/share/bash-completion/completions/osek
	@install -m 644 python/osek/*.py python/osek/py.typed $(DESTDIR)$(PREFIX)/$(PYTHON_DIR)/osek
	@echo $(VERSION) > $(DESTDIR)$(PREFIX)/$(PYTHON_DIR)/osek/VERSION
	@printf '%s\n' $(INSTALLED:%=$(DESTDIR)$(PREFIX)/%)

uninstall:
	@rm -f $(INSTALLED:%=$(DESTDIR)$(PREFIX)/%)

# What `make install` puts under /usr, with the pages and the tally of the gate, as a tarball and as a Debian package.
dist: lib host tool
	@scripts/dist $(VERSION) "$(UNGATED)" $(PAGES)

# The bench tool: build/osek --help
tool: need-cargo lib
	@cargo build --quiet --release --offline --locked --manifest-path tool/Cargo.toml --target-dir tool/target
	@cmp -s tool/target/release/osek build/osek || install tool/target/release/osek build/osek
	@echo 'build/osek --help lists its commands'

# The emulated unit, and its checks; skipped with a word where its packages can't be had
UNIT_PACKAGES = unit/get-packages || { echo 'skipped: gcc-arm-none-eabi and qemu-system-arm of Debian are not here'; exit 0; }

unit:
	@$(UNIT_PACKAGES); $(MAKE) --no-print-directory -C unit

unit-check: tool
	@$(UNIT_PACKAGES); $(MAKE) --no-print-directory -C unit && unit/check

fuzz: need-cargo lib
	@cargo run $(CARGO) --bin fuzz -- $(SEED) $(COUNT)

speed: need-cargo lib
	@scripts/need valgrind || echo 'instructions are not counted without it' >&2
	@cargo run $(CARGO) --bin speed -- $(if $(WRITE),--write docs/PERFORMANCE.md)

clean:
	@rm -rf build crates/*/out tests/target tool/target
