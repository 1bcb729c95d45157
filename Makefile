# make run            builds the command notebook and shows the main job on the samples
# make                the static library and the programs, each proved by rt first (the kit's `rt` is on the path)
# make command        the command notebook, by cargo, over the static library
# make test           the C test and example over the library; C as C99, the header as C++11 too
# make stack          the stack that each call takes
# make memcheck       the C test under valgrind
# make memcheck-rust  the Rust host's calls of the library under valgrind: its tests, and the gate's comparison, some 5 minutes
# make install        library, header, notebook.pc, the programs and the command notebook, under PREFIX (and DESTDIR); CARGO= leaves the command out
# make test-install   installs under a prefix of its own, uses what is there from C, Rust and the shell, and uninstalls it; what a missing tool leads to
# make uninstall      removes what install puts there
#
# What rt has built is copied to target/ and stays there while it is newer than the code; `rt ci` is what proves all from nothing.

PREFIX ?= /usr/local
BINDIR ?= $(PREFIX)/bin
LIBDIR ?= $(PREFIX)/lib
INCLUDEDIR ?= $(PREFIX)/include
DESTDIR ?=

RT ?= rt
CC ?= cc
CXX ?= c++
INSTALL ?= install
PKG_CONFIG ?= pkg-config
VALGRIND ?= valgrind
CARGO ?= cargo
CFLAGS ?= -O2
WARNINGS = -std=c99 -Wall -Wextra -Wpedantic -Werror
# How cargo builds the command: release or debug.
BUILD ?= release

VERSION := $(shell cat VERSION)
LIBRARY = target/staticlib/libgateway.a
COMMAND = hosts/rust/target/$(BUILD)/notebook
CODE = $(filter-out %/main.rt,$(wildcard crates/*/src/*.rt))
# The programs; those that crates.txt lists are built.
NAMES = notecheck noteindex notecanon notecut notejoin
PROGRAMS = $(filter $(NAMES),$(shell sed -n 's/^\([a-z_]*\):.*/\1/p' crates.txt))
INSTALLED = $(NAMES) notebook

# One word for the shell, whatever is in it; and a path that is good from any folder. Neither splits at blanks.
quoted = '$(subst ','\'',$(1))'
absolute = $(if $(filter /%,$(firstword $(1))),$(1),$(CURDIR)/$(1))
libdir = $(call absolute,$(LIBDIR))
includedir = $(call absolute,$(INCLUDEDIR))
to_lib = $(call quoted,$(DESTDIR)$(libdir))
to_include = $(call quoted,$(DESTDIR)$(includedir))
to_bin = $(call quoted,$(DESTDIR)$(call absolute,$(BINDIR)))
NEEDS = RT=$(call quoted,$(RT)) CC=$(call quoted,$(CC)) CARGO=$(call quoted,$(CARGO)) hosts/needs --missing

.PHONY: all library programs take-programs command run test stack memcheck memcheck-rust install uninstall test-install clean
# Each rt takes the processors that are there: one rt at a time.
.NOTPARALLEL:

all: library programs

library: $(LIBRARY)

programs: $(PROGRAMS:%=target/bin/%)

$(LIBRARY): $(CODE)
	cd crates/gateway_c && $(RT) lib
	mkdir -p $(@D)
	cp crates/gateway_c/out/libgateway_c.a $@

# rt links a program when it runs it: here on an empty input and without words, on which each ends with 0.
target/bin/%: crates/%/src/main.rt $(CODE)
	cd crates/$* && $(RT) run < /dev/null > /dev/null
	mkdir -p $(@D)
	cp crates/$*/out/$* $@

# The programs as rt ci has just proved, built and run them; .ci/run then tests these.
take-programs:
	mkdir -p target/bin
	cp $(foreach name,$(PROGRAMS),crates/$(name)/out/$(name)) target/bin

# cargo knows itself what is old.
command: $(LIBRARY)
	cd hosts/rust && $(CARGO) build --offline --quiet $(if $(filter release,$(BUILD)),--release) --target-dir target -p notebook

needs-%:
	@$(NEEDS) $*

run: needs-run command
	@hosts/run $(COMMAND)

target/c/%: hosts/c/%.c include/notebook.h $(LIBRARY)
	mkdir -p target/c
	$(CC) $(WARNINGS) $(CFLAGS) -Iinclude -pthread $< $(LIBRARY) $(LDFLAGS) -o $@

test: target/c/test target/c/example
	echo '#include "notebook.h"' | $(CXX) -std=c++11 -Wall -Wextra -Wpedantic -Werror -Iinclude -fsyntax-only -x c++ -
	target/c/test
	target/c/example samples/visit.csv

stack: target/c/stack
	target/c/stack

memcheck: target/c/test
	$(VALGRIND) --leak-check=full --error-exitcode=1 target/c/test

# The runner is cargo's way to start what it has built by another program.
memcheck-rust: export CARGO_TARGET_X86_64_UNKNOWN_LINUX_GNU_RUNNER = $(VALGRIND) --quiet --error-exitcode=1
memcheck-rust: $(LIBRARY)
	cd hosts/rust && $(CARGO) test --offline -p notebook --lib --test cases
	cd hosts/rust && $(CARGO) test --release --offline --lib comparison

# The library is installed as libnotebook.a, after its header and its calls.
install: needs-install all $(if $(CARGO),command)
	$(INSTALL) -d $(to_lib)/pkgconfig $(to_include) $(to_bin)
	$(INSTALL) -m 644 $(LIBRARY) $(to_lib)/libnotebook.a
	$(INSTALL) -m 644 include/notebook.h $(to_include)/notebook.h
	printf '%s\n' $(call quoted,prefix=$(call absolute,$(PREFIX))) $(call quoted,libdir=$(libdir)) $(call quoted,includedir=$(includedir)) '' \
		'Name: notebook' 'Description: Gateway for medication notebook files (JAHIS 15-106)' 'Version: $(VERSION)' \
		'Cflags: -I"$${includedir}"' 'Libs: -L"$${libdir}" -lnotebook' > $(to_lib)/pkgconfig/notebook.pc
	$(INSTALL) -m 755 $(PROGRAMS:%=target/bin/%) $(to_bin)
	$(if $(CARGO),$(INSTALL) -m 755 $(COMMAND) $(to_bin)/notebook,@echo "CARGO is empty: the command notebook is not installed")

uninstall:
	rm -f $(to_lib)/libnotebook.a $(to_include)/notebook.h $(to_lib)/pkgconfig/notebook.pc
	rm -f $(INSTALLED:%=$(to_bin)/%)

test-install: all
	python3 tests/build.py

clean:
	rm -rf target/c
