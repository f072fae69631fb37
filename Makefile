# Belkjund. `make` lists the commands. Everything that is built goes to build/; what rt keeps of its proofs is in crates/*/out.
#
# The archive is built by proving the engine (`rt lib` in crates/engine_c). `make COMMAND LIB=path` links an archive that is there already instead; what is built
# with it goes to build/given/, so that it never passes for the proved one.

PREFIX ?= /usr/local
CFLAGS ?= -O2
CXXFLAGS ?= $(CFLAGS)
WAKE_ORDERS ?= 300

MAKEFLAGS += --no-print-directory
.NOTPARALLEL:

ifeq ($(origin LIB),command line)
OUT := build/given
ARCHIVE := $(LIB)
else
OUT := build
ARCHIVE := build/libbelkjund.a
endif

C99 = $(CC) -std=c99 -Wall -Wextra -pedantic -Werror $(CFLAGS) -Iinclude
CPP = $(CXX) -x c++ -Wall -Wextra -pedantic -Werror $(CXXFLAGS) -Iinclude
VERSION := $(shell sed -n 's/^.define BELKJUND_VERSION "\(.*\)"/\1/p' include/belkjund.h)

WAKE_SOURCES := $(wildcard examples/wake/*.c)
WAKE_HEADERS := $(wildcard examples/wake/*.h)
PROVED_FROM := crates.txt $(shell find crates -regex 'crates/[^/]*/out' -prune -o -type f \( -name '*.rt' -o -name '*.antt' \) -print 2>/dev/null)

# need COMMAND,HOW TO GET IT: one line where the command is not there
need = @command -v $(firstword $(1)) >/dev/null 2>&1 || { echo "belkjund: '$(firstword $(1))' is missing: $(2)" >&2; exit 1; }
need-rt = $(call need,rt,it is the Rattle toolchain; unpack the Rattle kit and put its folder bin on the PATH (or link an archive that you have: make ... LIB=path))
need-cc = $(call need,$(CC),a C99 compiler; on Debian: apt-get install gcc (or make ... CC=the name of yours))
need-cxx = $(call need,$(CXX),a C++ compiler$(comma) for the check of the header; on Debian: apt-get install g++ (or make ... CXX=the name of yours))
need-python = $(call need,python3,Python 3.9 or newer; on Debian: apt-get install python3)
comma := ,

help:
	@echo 'make wake             four hosts agree which of them may wake the paused guest; writes build/wake.html'
	@echo 'make test             the gate: `rt ci`, which proves everything, then every other test'
	@echo 'make checks           every test but `rt ci`'
	@echo 'make lib              build/libbelkjund.a, by proving the engine'
	@echo 'make install PREFIX=  header, archive and pkg-config file (now $(PREFIX))'
	@echo 'make fuzz             hostile calls through the C interface; CALLS= how many'
	@echo 'make bench            the engine and the original on the same recorded runs'
	@echo 'make clean            removes build/, and crates/*/out'

# Asked for before anything long begins
have-cc:
	$(need-cc)
have-all: have-cc
	$(need-cxx)
	$(need-python)
	$(need-rt)

# THE ARCHIVE. Nothing is proved again until a source changes. `rt ci` builds none: it proves by itself, and leaves build/ and what rt keeps as they are
lib: $(ARCHIVE)
	@echo "belkjund: $(ARCHIVE)"

build/libbelkjund.a: $(PROVED_FROM)
	$(need-rt)
	@[ "$$(uname -m)" = x86_64 ] || echo "belkjund: the archive will hold x86-64 code, this machine is $$(uname -m): programs that link it run on x86-64" >&2
	@mkdir -p build
	@echo "belkjund: proving the engine; minutes the first time"
	cd crates/engine_c && rt lib
	@cp crates/engine_c/out/libengine_c.a $@

install: $(ARCHIVE)
	@mkdir -p "$(DESTDIR)$(PREFIX)/include" "$(DESTDIR)$(PREFIX)/lib/pkgconfig"
	cp include/belkjund.h "$(DESTDIR)$(PREFIX)/include/belkjund.h"
	cp $(ARCHIVE) "$(DESTDIR)$(PREFIX)/lib/libbelkjund.a"
	@printf '%s\n' 'prefix=$(PREFIX)' 'libdir=$${prefix}/lib' 'includedir=$${prefix}/include' '' 'Name: belkjund' \
	    'Description: the Honey Badger epoch engine for up to sixteen hosts, proved' 'Version: $(VERSION)' \
	    'Libs: -L$${libdir} -lbelkjund' 'Cflags: -I$${includedir}' > "$(DESTDIR)$(PREFIX)/lib/pkgconfig/belkjund.pc"
	@echo "belkjund: installed below $(DESTDIR)$(PREFIX)"

# THE EXAMPLE
$(OUT)/wake: $(WAKE_SOURCES) $(WAKE_HEADERS) include/belkjund.h $(ARCHIVE)
	@mkdir -p $(OUT)
	@$(C99) $(WAKE_SOURCES) $(ARCHIVE) -o $@

wake: have-cc $(OUT)/wake
	@$(OUT)/wake $(if $(SEED),--seed $(SEED)) --html $(OUT)/wake.html

# The same program, with an engine behind it that hands one host another batch: it has to fail
$(OUT)/tampered: tests/tampered.c $(WAKE_SOURCES) $(WAKE_HEADERS) include/belkjund.h $(ARCHIVE)
	@mkdir -p $(OUT)
	@$(C99) -Wl,--wrap=hb_message tests/tampered.c $(WAKE_SOURCES) $(ARCHIVE) -o $@

check-wake: have-cc $(OUT)/wake $(OUT)/tampered
	@$(OUT)/wake --html $(OUT)/wake.html > $(OUT)/wake.txt || { cat $(OUT)/wake.txt; exit 1; }
	@tail -n 1 $(OUT)/wake.txt
	@$(OUT)/wake --seed 1 --runs $(WAKE_ORDERS)
	@if $(OUT)/tampered > $(OUT)/tampered.txt; then echo 'wake: took a batch that differs'; exit 1; fi
	@echo "wake: and it fails as it should: $$(tail -n 1 $(OUT)/tampered.txt)"

# THE HEADER, in C and C++, and the interface through it
check-header: have-cc
	$(need-cxx)
	@for std in c99 c11; do $(C99) -std=$$std -fsyntax-only tests/interface.c || exit 1; done
	@for std in c++11 c++17; do $(CPP) -std=$$std -fsyntax-only tests/interface.c || exit 1; done
	@echo 'header: compiles as C99, C11, C++11 and C++17'

check-interface: check-header $(ARCHIVE)
	@mkdir -p $(OUT)
	@$(C99) tests/interface.c $(ARCHIVE) -o $(OUT)/interface && $(OUT)/interface
	@$(CPP) tests/interface.c -x none $(ARCHIVE) -o $(OUT)/interface-cpp && $(OUT)/interface-cpp
	@if command -v nm >/dev/null 2>&1; then \
	    more=$$(nm $(ARCHIVE) | awk '($$1 == "U" && $$2 != "memcpy" && $$2 != "memset") || $$2 ~ /^[BbCDdGgSs]$$/'); \
	    if [ -n "$$more" ]; then echo "archive: not in the header's words: $$more"; exit 1; fi; \
	    echo 'archive: no variables, nothing wanted but memcpy and memset'; fi

# THE PRINTED SHEET of state lengths, figure by figure
check-sheet: have-cc $(ARCHIVE)
	@mkdir -p $(OUT)
	@$(C99) tests/sheet.c $(ARCHIVE) -o $(OUT)/sheet && $(OUT)/sheet docs/STATE-LENGTHS.md

# README'S SNIPPET, as a user has it: installed, compiled, run; its output is the block below it
check-readme: have-cc $(ARCHIVE)
	@mkdir -p $(OUT)
	@awk '/^## From C/ {on = 1} on && /^```$$/ && copy {exit} copy {print} on && /^```c$$/ {copy = 1}' README.md > $(OUT)/readme.c
	@awk '/^## From C/ {on = 1} on && /^```$$/ && copy {exit} copy {print} on && /^```text$$/ {copy = 1}' README.md > $(OUT)/readme.txt
	@test -s $(OUT)/readme.c && test -s $(OUT)/readme.txt || { echo "README.md: 'From C' has no snippet, or no output below it"; exit 1; }
	@$(MAKE) install PREFIX=$(CURDIR)/$(OUT)/prefix DESTDIR= > /dev/null
	@flags="-I$(OUT)/prefix/include -L$(OUT)/prefix/lib -lbelkjund"; \
	if command -v pkg-config >/dev/null 2>&1; then flags=$$(PKG_CONFIG_PATH=$(OUT)/prefix/lib/pkgconfig pkg-config --cflags --libs belkjund) || exit 1; fi; \
	$(CC) -std=c99 -Wall -Wextra -pedantic -Werror $(CFLAGS) $(OUT)/readme.c $$flags -o $(OUT)/readme
	@$(OUT)/readme | diff $(OUT)/readme.txt - && echo 'README: its snippet compiles, links and prints what it says'

check-sources:
	$(need-python)
	python3 tools/lengths.py --check
	@if [ -f tools/documents.py ]; then echo python3 tools/documents.py; python3 tools/documents.py; fi

# A bounded hostile run
check-fuzz: have-cc $(ARCHIVE)
	@if [ -f fuzz/Makefile ]; then $(MAKE) -C fuzz test LIB=$(abspath $(ARCHIVE)) OUT=$(abspath $(OUT)/fuzz) CC='$(CC)'; fi

checks: have-all check-sources check-interface check-sheet check-readme check-wake check-fuzz

# The gate: its order is that of .ci/run
test: have-all
	@exec .ci/run

fuzz: have-cc $(ARCHIVE)
	@test -f fuzz/Makefile || { echo 'belkjund: the folder fuzz/ is missing: it is part of the repository' >&2; exit 1; }
	@$(MAKE) -C fuzz run LIB=$(abspath $(ARCHIVE)) OUT=$(abspath $(OUT)/fuzz) CC='$(CC)' $(if $(CALLS),CALLS=$(CALLS)) $(if $(SEED),SEED=$(SEED))

bench: have-cc $(ARCHIVE)
	@test -f bench/Makefile || { echo 'belkjund: the folder bench/ is missing: it is part of the repository' >&2; exit 1; }
	@$(MAKE) -C bench LIB=$(abspath $(ARCHIVE)) OUT=$(abspath $(OUT)/bench) CC='$(CC)'

clean:
	rm -rf build crates/*/out

.PHONY: help have-cc have-all lib install wake test checks check-wake check-header check-interface check-sheet check-readme check-sources check-fuzz fuzz bench clean
