# Builds, tries and installs the library. Everything made goes under build/, and what rt keeps into crates/NAME/out/.
#
#   make lib                    build/x86-64/libqmtd.a, proved and compiled by the kit
#   make lib TARGET=..          build/TARGET/libqmtd.a for another processor, one of targets/list; TARGET_FLAGS=.. adds
#                               flags for clang, as -Os or -mfloat-abi=hard
#   make demo                   prove crate by crate, build, and run the charger example
#   make screen                 the bench screen example: a page after each pass, then coloured by its margins, and why a
#                               symbol of it is left
#   make branches, outer, cells, files
#                               the examples of two branches, of the outer check, of 16-bit readings and of a file of pages
#   make board                  the charger example on an emulated Cortex-M4 board
#   make test-c                 the C tests over the archive for x86-64
#   make test-targets           the archives for the other processors: all built, four run under emulation
#   make install PREFIX=..      headers, archive and pkg-config file; TARGET=.. as above
#   make bench                  the library against C, decode in blocks against decode, decode on bits against decode at
#                               q = 3, and decode on symbols of two and four bytes against decode and against C: times, and
#                               instructions a data symbol; TARGET=x86-64-v3 for AVX2
#   make votes                  build/votes/libvotes.a, both votes alone, which bench/votes measures
#   make pages, check-pages     make the reference pages, and what the examples must print, anew; compare them with the
#                               committed ones
#   make clean                  remove build/

PREFIX = /usr/local
RT = rt
TARGET = x86-64
TARGET_FLAGS =
PYTHON = python3 -B
CFLAGS = -std=c99 -O2 -Wall -Wextra -Werror

# The export crates, one object each, and their headers.
EXPORTS := $(shell awk '!/^\#/ { print $$1 }' targets/exports)
HEADERS := $(addprefix include/,$(shell awk '!/^\#/ { print $$2 }' targets/exports | sort -u))

# What the archive is made from: every crate but the test programs, what these share, and the votes that are measured alone.
SOURCES := $(shell find crates \( -path 'crates/*/out' -o -path 'crates/reference*' -o -path crates/records -o -path crates/runs -o -path crates/profiles -o -path crates/cases -o -path crates/votes \) -prune -o -type f -print) crates.txt
VOTES_SOURCES := $(shell find crates/votes -path crates/votes/out -prune -o -type f -print)
VERSION := $(shell awk '/define QMTD_VERSION_(MAJOR|MINOR|PATCH) / { v = v dot $$3; dot = "." } END { print v }' include/qmtd.h)
TARGETS := $(shell awk '!/^\#/ { print $$1 }' targets/list)
ARCHIVE := build/$(TARGET)/libqmtd.a

ifeq ($(filter $(TARGET),$(TARGETS)),)
$(error no TARGET '$(TARGET)'; there are $(TARGETS))
endif

.NOTPARALLEL:
.DELETE_ON_ERROR:
.PHONY: lib demo screen branches outer cells files prove board test-c test-targets install bench votes pages check-pages clean

lib: $(ARCHIVE)

# The flags of a target's last build, written anew where they are others now.
FLAGS := build/$(TARGET)/flags
$(shell mkdir -p build/$(TARGET); echo '$(TARGET_FLAGS)' | cmp -s - $(FLAGS) || echo '$(TARGET_FLAGS)' >$(FLAGS))

ifeq ($(TARGET)$(TARGET_FLAGS),x86-64)
$(ARCHIVE): build/modules/made targets/join $(FLAGS)
	RT=$(RT) targets/join build/modules $@
else
$(ARCHIVE): build/modules/made targets/archive targets/list $(FLAGS)
	RT=$(RT) targets/archive $(TARGET) build/modules $@ $(TARGET_FLAGS)
endif

# Each export crate as the kit compiles it for x86-64, and its module for other processors; as many at a time as there are
# processors.
build/modules/made: build/proved targets/module targets/exports
	@mkdir -p build/modules
	@echo "building the objects of the archive .."
	@echo $(EXPORTS) | RT=$(RT) xargs -n 1 -P "$$(nproc)" sh -c 'targets/module "$$1" build/modules' module
	@touch $@

# All that the archive is made from, proved; the first time this takes half an hour or more. The gate touches this file where rt ci
# has proved it.
build/proved: $(SOURCES) targets/exports
	@RT=$(RT) targets/prove
	@touch $@

demo: EXAMPLE = charger
screen branches outer cells files: EXAMPLE = $@
demo screen branches outer cells files:
	@$(MAKE) -s build/$(EXAMPLE)
	@build/$(EXAMPLE)

build/charger build/screen build/branches build/outer build/cells build/files: build/%: examples/%.c $(HEADERS) build/x86-64/libqmtd.a
	$(CC) $(CFLAGS) -Iinclude $< build/x86-64/libqmtd.a -o $@

board:
	@$(MAKE) -s lib TARGET=cortex-m4
	@examples/cortex-m4/build examples/charger.c -o build/cortex-m4/charger.elf
	@examples/cortex-m4/run build/cortex-m4/charger.elf

test-c: lib
	tests/c/run

test-targets:
	tests/targets/run

install: lib
	sed -e 's|@PREFIX@|$(abspath $(PREFIX))|' -e 's|@VERSION@|$(VERSION)|' -e 's|@TARGET@|$(TARGET)|' qmtd.pc.in >build/$(TARGET)/qmtd.pc
	install -d $(DESTDIR)$(PREFIX)/include $(DESTDIR)$(PREFIX)/lib/pkgconfig
	install -m 644 $(HEADERS) $(DESTDIR)$(PREFIX)/include/
	install -m 644 $(ARCHIVE) $(DESTDIR)$(PREFIX)/lib/
	install -m 644 build/$(TARGET)/qmtd.pc $(DESTDIR)$(PREFIX)/lib/pkgconfig/

# Times, and instructions where valgrind is there to count them.
bench: lib
	TARGET=$(TARGET) bench/run
	TARGET=$(TARGET) bench/run --outer
	TARGET=$(TARGET) bench/run --bits
	TARGET=$(TARGET) bench/run --wide
	@if command -v valgrind >/dev/null; then \
	   TARGET=$(TARGET) bench/count && TARGET=$(TARGET) bench/count --outer && TARGET=$(TARGET) bench/count --bits && \
	   TARGET=$(TARGET) bench/count --wide && TARGET=$(TARGET) bench/count --files; \
	 else echo "no valgrind: instructions not counted"; fi

votes: build/votes/libvotes.a

build/votes/libvotes.a: $(SOURCES) $(VOTES_SOURCES)
	@mkdir -p build/votes
	@echo "building both votes .."
	@cd crates/votes && $(RT) lib --cpu x86-64 >../../build/prove.log 2>&1 || { cat ../../build/prove.log; exit 1; }
	cp crates/votes/out/libvotes.a $@

pages:
	$(PYTHON) tests/reference/make_pages.py

check-pages:
	$(PYTHON) tests/reference/make_pages.py --check

clean:
	rm -rf build
