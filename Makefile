# make           prove the library, with a line for each crate, and build what make install installs, in build/: library, simulator, keylocker-run and manual
#                pages
# make LIBKEYLOCKER=FILE ..  take FILE, a libkeylocker.a that was made elsewhere, in place of one proved here: without the Rattle kit
# make install   install them with the header, files for pkg-config and CMake, documents and examples, below $(DESTDIR)$(PREFIX); PREFIX is /usr/local
#                unless given, and LIBDIR, INCLUDEDIR, BINDIR, MANDIR and DOCDIR are folders below it unless given
# make uninstall remove what make install, given the same folders, has installed
# make demo      run the simulator's built-in scenario
# make bench     measure the proved libraries against AES, key wrapping, the cryptography of whole calls and the keyring in C, an instruction under
#                keylocker-run against the library's call, and the stack that each call needs
# make examples  print the papers' examples, computed by the proved libraries
# make test      all tests, as tests/run.sh has them
# make test-decoder  compare the proved decoder with GNU objdump, on about two million strings
# make test-machine  compare the proved machine with the model in Python, on 20,000 random calls
# make test-host, test-guarded, test-valgrind, test-faults, test-stack  compare the C library with a model in C, between pages that cannot be touched, and
#                on a small stack, which is then searched for keys; tests/host/rules.mk says how
# make test-constants  which tables stand in the library, and how many bytes of read-only data
# make test-simulator  the simulator on traces that the model in Python checks, over pipes and at a terminal, as JSON; counter calls through it against
#                NIST's vectors and OpenSSL
# make test-run  keylocker-run, with programs that are compiled with the compiler's intrinsics of Key Locker
# make test-install  the header, what is installed and removed, with programs that use it, the manual pages, the examples, and builds without the kit
# make clean     remove build/; what was made by rt is in crates/*/out/, and the proved libraries for C in target/

CC = gcc
CFLAGS = -std=c11 -Wall -Wextra -O2
PREFIX = /usr/local
LIBDIR = $(PREFIX)/lib
INCLUDEDIR = $(PREFIX)/include
BINDIR = $(PREFIX)/bin
MANDIR = $(PREFIX)/share/man
DOCDIR = $(PREFIX)/share/doc/keylocker
LIBKEYLOCKER = target/staticlib/libkeylocker.a
OBJECTDIR = $(LIBDIR)/keylocker

HEADERS := $(wildcard bench/*.h)
BASELINE = measure aes_bytes aes_ttables
AES = aes $(BASELINE)
WRAPPING = keywrap_bytes keywrap_ttables $(BASELINE)
KEYWRAP = keywrap $(WRAPPING)
KEYLOCKER = keylocker $(WRAPPING)
KEYRING = keyring keyring_plain measure

.PHONY: all install uninstall demo bench examples test test-decoder test-machine test-constants test-simulator test-run test-install clean always
.DELETE_ON_ERROR:

all: build/libkeylocker.a build/keylocker-simulator build/keylocker-simulator.1 build/keylocker-traces.5

# ---- for C users

VERSION := $(shell sed -n 's/^.define KEYLOCKER_VERSION "\(.*\)"/\1/p' include/keylocker.h)
include run/rules.mk

SIMULATOR = $(patsubst simulator/%.c,build/simulator/%.o,$(wildcard simulator/*.c))

# always: LIBKEYLOCKER may be another file than last time; where it has the same bytes, what was linked with it stays
build/libkeylocker.a: $(LIBKEYLOCKER) always
	@mkdir -p build
	@cmp -s $(LIBKEYLOCKER) $@ || cp $(LIBKEYLOCKER) $@

build/keylocker-simulator: $(SIMULATOR) build/libkeylocker.a
	$(CC) $(CFLAGS) -o $@ $^

build/simulator/%.o: simulator/%.c $(wildcard simulator/*.h) include/keylocker.h
	@mkdir -p build/simulator
	$(CC) $(CFLAGS) -Iinclude -Ibuild/simulator -c -o $@ $<

build/simulator/scenario.o: build/simulator/scenario.inc
build/simulator/scenario.inc: simulator/scenario.trace
	@mkdir -p build/simulator
	od -An -v -tx1 $< | sed 's/ \(..\)/0x\1,/g' >$@

build/keylocker-simulator.1: build/keylocker-simulator tools/manual.py
	./build/keylocker-simulator --help | python3 tools/manual.py keylocker-simulator $(VERSION) >$@

build/keylocker-traces.5: simulator/TRACES.md tools/manual.py include/keylocker.h
	@mkdir -p build
	python3 tools/manual.py traces $(VERSION) <$< >$@

# What is installed, with its mode and folder, by which make uninstall removes it, too. $1 is done with files, $2 with templates, $3 with links. keylocker-run
# looks for its object beside itself.
define each_installed
$(call $1,644,$(LIBDIR),build/libkeylocker.a)
$(call $1,644,$(INCLUDEDIR),include/keylocker.h)
$(call $1,755,$(BINDIR),build/keylocker-simulator)
$(call $1,644,$(MANDIR)/man1,build/keylocker-simulator.1)
$(if $(RUN_BUILT),$(call $1,755,$(OBJECTDIR),build/keylocker-run))
$(if $(RUN_BUILT),$(call $1,644,$(OBJECTDIR),build/keylocker-run.so))
$(if $(RUN_BUILT),$(call $3,,$(BINDIR),$(OBJECTDIR)/keylocker-run))
$(if $(RUN_BUILT),$(call $1,644,$(MANDIR)/man1,build/keylocker-run.1))
$(call $1,644,$(MANDIR)/man5,build/keylocker-traces.5)
$(call $1,644,$(DOCDIR),simulator/TRACES.md docs/THREATS.md)
$(call $1,644,$(DOCDIR)/examples,$(wildcard examples/*.c examples/*.py))
$(call $2,644,$(LIBDIR)/pkgconfig,include/keylocker.pc.in)
$(call $2,644,$(LIBDIR)/cmake/keylocker,include/keylocker-config.cmake.in)
$(call $2,644,$(LIBDIR)/cmake/keylocker,include/keylocker-config-version.cmake.in)
endef

# pkg-config can move what lies below its prefix
FILL = sed -e 's|@PREFIX@|$(PREFIX)|; s|@LIBDIR@|$(LIBDIR)|; s|@INCLUDEDIR@|$(INCLUDEDIR)|; s|@VERSION@|$(VERSION)|' -e 's|dir=$(PREFIX)/|dir=$${prefix}/|'

installed = "$(DESTDIR)$1/$(notdir $(2:.in=))"
put = install -d "$(DESTDIR)$2" && install -m $1 $3 "$(DESTDIR)$2/"
fill = install -d "$(DESTDIR)$2" && $(FILL) $3 >$(call installed,$2,$3) && chmod $1 $(call installed,$2,$3)
link = install -d "$(DESTDIR)$2" && ln -sf "$$(realpath -m --relative-to="$2" "$3")" "$(DESTDIR)$2/"
drop = rm -f $(foreach file,$3,$(call installed,$2,$(file)))

# neither sed nor the .pc file would take these as they are
install: all
	@case '$(PREFIX)$(LIBDIR)$(INCLUDEDIR)' in *[\ \&\|\\]*) echo 'make install: no blanks, &, | or \ in PREFIX, LIBDIR and INCLUDEDIR' >&2; exit 1;; esac
	$(call each_installed,put,fill,link)

# of the folders only those that no other package has files in
uninstall:
	$(call each_installed,drop,drop,drop)
	rmdir "$(DESTDIR)$(DOCDIR)/examples" "$(DESTDIR)$(DOCDIR)" "$(DESTDIR)$(LIBDIR)/cmake/keylocker" "$(DESTDIR)$(OBJECTDIR)" 2>/dev/null || true

demo: build/keylocker-simulator
	@./build/keylocker-simulator

test-constants: build/libkeylocker.a
	python3 tests/constants.py $<

test-simulator: all
	python3 tests/traces.py
	python3 tests/simulator.py
	python3 tests/dialogue.py
	python3 tests/counter.py

test-run: all
	python3 tests/keylocker_run.py

test-install: all
	python3 tests/install.py

# ---- measuring

bench: build/bench_aes build/bench_keywrap build/bench_keylocker build/bench_keyring $(if $(RUN_BUILT),$(RUN_BUILT) build/bench_run) build/test_stack
	./build/bench_aes
	@echo
	./build/bench_keywrap
	@echo
	./build/bench_keylocker
	@echo
	./build/bench_keyring
	@echo
	$(if $(RUN_BUILT),./build/keylocker-run ./build/bench_run)
	@echo
	./build/test_stack

build/bench_aes: $(AES:%=build/%.o) target/staticlib/libaes_c.a
build/bench_keywrap: $(KEYWRAP:%=build/%.o) target/staticlib/libkeywrap_c.a
build/bench_keylocker: $(KEYLOCKER:%=build/%.o) build/libkeylocker.a
build/bench_keyring: $(KEYRING:%=build/%.o) build/libkeylocker.a
build/bench_run: build/run.o build/measure.o build/libkeylocker.a
build/bench_%:
	$(CC) $(CFLAGS) -o $@ $^ -lm

build/%.o: bench/%.c $(HEADERS) include/keylocker.h
	@mkdir -p build
	$(CC) $(CFLAGS) -Iinclude -c -o $@ $<

# make -O would hold the lines of a recipe back to its end, but not of one with +; that would be run with -n, -q and -t, too
LETTERS = $(filter-out --%,$(firstword -$(MAKEFLAGS)))

# all that a library for C is proved and compiled from
SOURCES = $(shell find $$(awk -v name=$1_c -f tools/below.awk crates.txt | sed 's|^|crates/|') -name out -prune -o \( -name '*.rt' -o -name '*.antt' \) -print)

.SECONDEXPANSION:
target/staticlib/lib%.a: crates.txt $$(call SOURCES,$$*)
	@$(if $(strip $(foreach letter,n q t,$(findstring $(letter),$(LETTERS)))),,+)tools/prove.sh $*

# proves the program, too; what it writes is printed once it has ended well, and rt says the rest where programs put their errors
examples:
	@mkdir -p build
	@(cd crates/vectors && rt run <stdin) >build/examples.txt 2>build/examples.log || \
	    { echo "make examples: rt run failed in crates/vectors; build/examples.log has what it said" >&2; exit 1; }
	@cat build/examples.txt

test:
	tests/run.sh

# rt run proves a program and leaves it as out/NAME in its crate's folder
test-decoder:
	cd crates/disassemble && rt run <stdin >/dev/null
	python3 tests/decoder.py --objdump

test-machine:
	cd crates/scenarios && rt run <stdin >/dev/null
	python3 tests/scenarios.py --random 20000 1

include tests/host/rules.mk

clean:
	rm -rf build
