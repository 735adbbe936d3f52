# The C library: make, make example, make test, make bench, make install PREFIX=/usr/local, make uninstall, make clean.
# `rt ci` is the check of the proofs; this builds what C links, and tries it from C. `make -s` says nothing but what fails.

CC ?= cc
CXX ?= c++
RT ?= rt
PREFIX ?= /usr/local
DESTDIR ?=
CFLAGS ?= -O2
WARNINGS = -Wall -Wextra -pedantic
SANITIZE = -fsanitize=address,undefined -fno-sanitize-recover=all
VALGRIND = valgrind --quiet --error-exitcode=1 --leak-check=full
C = $(CC) -std=c99 $(WARNINGS) -D_DEFAULT_SOURCE -Iinclude -Itests

LIBRARY = crates/towers/out/libtowers.a
PACE = crates/pace/out/libpace.a
HEADER = include/towers.h
OUT = target/c

QUIET = $(findstring s,$(filter-out --%,$(firstword -$(MAKEFLAGS))))
SAY = @$(if $(QUIET),:,echo)
BUILD = @tools/build $(if $(QUIET),-q)

ifneq ($(filter ~%,$(firstword $(DESTDIR)$(PREFIX))),)
$(error $(DESTDIR)$(PREFIX): write the folder out, the shell did not expand its ~)
endif

# A word of the shell, with spaces or quotes in it.
quoted = '$(subst ','\'',$(1))'
LIB = $(call quoted,$(DESTDIR)$(PREFIX)/lib)
PKGCONFIG = $(call quoted,$(DESTDIR)$(PREFIX)/lib/pkgconfig)
INCLUDE = $(call quoted,$(DESTDIR)$(PREFIX)/include)

export CC RT

.PHONY: all library header example test bench install uninstall clean always
.DELETE_ON_ERROR:

all: header library

library: $(LIBRARY)

# tools/build tells by itself whether a source has changed, and leaves the archive alone where none has.
$(LIBRARY): always
	$(BUILD) towers

# The header by itself, in C and in C++.
header: $(HEADER)
	@command -v $(CC) >/dev/null || { echo "make: no C compiler '$(CC)': set CC" >&2; exit 1; }
	$(C) -fsyntax-only -x c $(HEADER)
ifneq ($(shell command -v $(CXX) 2>/dev/null),)
	$(CXX) $(WARNINGS) -fsyntax-only -x c++ $(HEADER)
else
	$(SAY) "make: no C++ compiler '$(CXX)': the header is not tried in C++"
endif

$(OUT):
	@mkdir -p $@

$(OUT)/host: examples/host.c $(HEADER) $(LIBRARY) | $(OUT)
	$(C) $(CFLAGS) examples/host.c $(LIBRARY) -o $@

example: $(OUT)/host
	$(OUT)/host

$(OUT)/host-sanitized: examples/host.c $(HEADER) $(LIBRARY) | $(OUT)
	$(C) -O1 -g $(SANITIZE) examples/host.c $(LIBRARY) -o $@

AGREE = tests/agree.c tests/hinz.c tests/hinz.h tests/random.h $(HEADER) $(LIBRARY)

$(OUT)/agree: $(AGREE) | $(OUT)
	$(C) -O1 -g $(SANITIZE) tests/agree.c tests/hinz.c $(LIBRARY) -o $@

# Older valgrinds read no newer DWARF.
$(OUT)/agree-heap: $(AGREE) | $(OUT)
	$(C) -O1 -gdwarf-4 -DHEAP tests/agree.c tests/hinz.c $(LIBRARY) -o $@

# The example prints what tests/host.out holds, and the library agrees with an independent C, both under the sanitizers, the second
# under valgrind too; what is installed is found by pkg-config; two builds at once are made one after the other; the task program
# answers as document 01 says.
test: header $(OUT)/host-sanitized $(OUT)/agree $(OUT)/agree-heap
	$(OUT)/host-sanitized >$(OUT)/host.out
	diff tests/host.out $(OUT)/host.out
	$(OUT)/agree
ifneq ($(shell command -v valgrind 2>/dev/null),)
	$(VALGRIND) $(OUT)/agree-heap
else
	@echo "make: no valgrind: what the archive reads and writes is not watched" >&2
endif
	tests/install.sh
	tests/build.sh
	$(BUILD) task
	tests/tower.sh

# Calls that C does not get, for the bench alone.
$(PACE): always
	$(BUILD) pace

$(OUT)/bench: bench/bench.c tests/hinz.c tests/hinz.h tests/random.h $(HEADER) $(LIBRARY) $(PACE) | $(OUT)
	$(C) -O3 bench/bench.c tests/hinz.c $(LIBRARY) $(PACE) -o $@

bench: $(OUT)/bench
	$(OUT)/bench

# Whether the folders can be written is asked before anything is proved.
install:
	@tools/writable $(LIB) $(PKGCONFIG) $(INCLUDE)
	@$(MAKE) --no-print-directory all
	install -d $(PKGCONFIG) $(INCLUDE)
	install -m 644 $(LIBRARY) $(LIB)
	install -m 644 $(HEADER) $(INCLUDE)
	install -m 644 towers.pc $(PKGCONFIG)

# The three files. The folders stay.
uninstall:
	rm -f $(LIB)/libtowers.a $(INCLUDE)/towers.h $(PKGCONFIG)/towers.pc

clean:
	rm -rf $(OUT)
	$(SAY) "make: what is proved stays in crates/*/out, with the archives and the programs; rm -rf crates/*/out removes that too"
