# make run: proves, builds and runs the program on a bundled order. make test: everything that is checked.
# make lib: the library for C; make install PREFIX=..: header, library and pkg-config file. make bench: docs/BENCHMARKS.md's table.
# make shell: the program `gambrolt` in build/; make install-shell: it and its man page. make test-shell: its tests.
# make dist: a tarball of program, library and verdict. make fuzz: a minute of a fuzzer on the program.
# make program: the program `gambrolt-reduce` in build/, which ends with a status.
# make edits: the wrong programs alone that the prover must refuse; make test tries them too.
.PHONY: run test edits lib install bench test-lib test-c shell install-shell test-shell dist fuzz clean compiler packages program

PREFIX ?= /usr/local
LIB_DIR := $(CURDIR)/target/staticlib
PROGRAM := $(CURDIR)/target/bin/reduce
BUILD := $(CURDIR)/build
# what the crates are made of: files and directories of theirs, but not what rt leaves in out/
SOURCES := crates.txt $(shell find crates -mindepth 2 -name out -prune -o -print)
C_FLAGS := -std=c11 -Wall -Wextra -Werror -O2 -Iinclude
VERSION := $(shell sed -n 's/.*define GAMBROLT_VERSION "\(.*\)"/\1/p' include/gambrolt.h)
CARGO_ENV = MAKEFLAGS= GAMBROLT_LIB_DIR=$(LIB_DIR) CARGO_TARGET_DIR=$(BUILD)

# the program on document 01's sample: the reduced program, then its steps
run: $(PROGRAM)
	target/bin/reduce < examples/sample.txt

test:
	@tests/run

# wrong programs that the prover must refuse, over what is proved; CRATES=.. for those of some crates
edits:
	rt must-fail $(CRATES)

lib: $(LIB_DIR)/libgambrolt.a
	@echo "the library: $(LIB_DIR)/libgambrolt.a; its header: $(CURDIR)/include/gambrolt.h"

# the library and the program against an independent implementation of document 01; GAMBROLT_ROUNDS=10 for a larger run
test-lib: lib $(PROGRAM) $(BUILD)/gambrolt-reduce $(BUILD)/gambrolt-reduce-c | compiler
	$(CARGO_ENV) cargo test --offline --release --manifest-path tests/Cargo.toml

# the example in C: what it prints, and what valgrind, or else the address sanitizer, says of it
test-c: lib | compiler
	@mkdir -p $(BUILD)
	$(CC) $(C_FLAGS) examples/c/reduce.c $(LIB_DIR)/libgambrolt.a -o $(BUILD)/reduce
	$(BUILD)/reduce > $(BUILD)/reduce.out && diff $(BUILD)/reduce.out examples/c/reduce.stdout
	$(CC) $(C_FLAGS) -g -fsanitize=address,undefined examples/c/reduce.c $(LIB_DIR)/libgambrolt.a -o $(BUILD)/reduce-checked
	$(BUILD)/reduce-checked > $(BUILD)/reduce.out && diff $(BUILD)/reduce.out examples/c/reduce.stdout
	@if command -v valgrind >/dev/null; then valgrind -q --error-exitcode=1 $(BUILD)/reduce >/dev/null && echo "valgrind: ok"; fi

install: build/lib/libgambrolt.a
	install -d $(DESTDIR)$(PREFIX)/include $(DESTDIR)$(PREFIX)/lib/pkgconfig
	install -m 644 include/gambrolt.h $(DESTDIR)$(PREFIX)/include/
	install -m 644 build/lib/libgambrolt.a $(DESTDIR)$(PREFIX)/lib/
	sed 's|@PREFIX@|$(PREFIX)|; s|@VERSION@|$(VERSION)|' include/gambrolt.pc.in > $(DESTDIR)$(PREFIX)/lib/pkgconfig/gambrolt.pc

# the library as it is installed: with the header's inline functions as functions that other languages can link
build/lib/libgambrolt.a: $(LIB_DIR)/libgambrolt.a include/gambrolt.h include/messages.c | compiler
	@mkdir -p build/lib
	$(CC) $(C_FLAGS) -c include/messages.c -o build/lib/messages.o
	cp $(LIB_DIR)/libgambrolt.a $@ && ar r $@ build/lib/messages.o

install-shell: shell
	install -d $(DESTDIR)$(PREFIX)/bin $(DESTDIR)$(PREFIX)/share/man/man1
	install -m 755 build/gambrolt $(DESTDIR)$(PREFIX)/bin/
	install -m 644 shell/gambrolt.1 $(DESTDIR)$(PREFIX)/share/man/man1/

bench: lib | compiler
	$(CARGO_ENV) cargo run --offline --release --quiet --manifest-path bench/Cargo.toml

# ---- the shell: C over the library ----
LIBGAMBROLT = $(LIB_DIR)/libgambrolt.a
GAMBROLT_INCLUDE = include
STRICT = -std=c11 -Wall -Wextra -Werror -I$(GAMBROLT_INCLUDE) -Ishell
SANITIZE = -g -O1 -fsanitize=address,undefined -fno-sanitize-recover=all -fno-omit-frame-pointer
DIST = gambrolt-$(VERSION)-x86_64-linux.tar.gz
SHELL_PARTS = $(filter-out shell/gambrolt.c,$(wildcard shell/*.c))
SHELL_FILES = $(wildcard shell/*.[ch] shell/tests/*.[ch]) $(GAMBROLT_INCLUDE)/gambrolt.h $(LIBGAMBROLT)

compiler:
	@command -v $(CC) >/dev/null || { apt-get update && apt-get install -y gcc libc6-dev; } >/dev/null || \
		{ echo "shell: FAILED: $(CC) is missing, and Debian's package gcc can't be installed" >&2; exit 1; }

# What the kit makes of a crate lies in the crate's out/; the copies below target/ and build/ are what everything else uses. They are made
# again only where a file or a directory of a crate is newer, and one after the other, as they stand on the same crates.
$(LIB_DIR)/libgambrolt.a: $(SOURCES)
	@mkdir -p $(@D)
	@cd crates/gambrolt_c && rt lib >&2
	@cp crates/gambrolt_c/out/libgambrolt_c.a $@

# the program on its own input, which proves and links it
$(PROGRAM): $(SOURCES) | $(if $(filter run program,$(MAKECMDGOALS)),,$(LIB_DIR)/libgambrolt.a)
	@mkdir -p $(@D)
	@cd crates/reduce && rt run < stdin > /dev/null
	@cp crates/reduce/out/reduce $@

# the program with its exit status
program: $(BUILD)/gambrolt-reduce

$(BUILD)/gambrolt-reduce: $(SOURCES) | $(PROGRAM)
	@mkdir -p $(@D)
	@cd crates/reduce_status && rt run < stdin > /dev/null
	@cp crates/reduce_status/out/reduce_status $@

# the same function for C, with what it takes of the kit's own C (the number of a failed call's error)
$(LIB_DIR)/libreduce_streams.a: $(SOURCES) | $(BUILD)/gambrolt-reduce
	@mkdir -p $(@D)
	@cd crates/reduce_streams_c && rt lib >&2
	@printf 'create %s\naddlib %s\naddlib %s\nsave\nend\n' $@ crates/reduce_streams_c/out/libreduce_streams_c.a \
		"$$(dirname "$$(rt doc)")/c/libos_c.a" | ar -M

$(BUILD)/gambrolt-reduce-c: reduce/main.c $(LIB_DIR)/libreduce_streams.a | compiler
	@mkdir -p $(@D)
	$(CC) $(C_FLAGS) $^ -o $@

shell: build/gambrolt

build/gambrolt: $(SHELL_FILES) | compiler
	@mkdir -p build
	$(CC) $(STRICT) -O2 shell/*.c $(LIBGAMBROLT) -o $@

build/sanitized/gambrolt: $(SHELL_FILES) | compiler
	@mkdir -p build/sanitized
	$(CC) $(STRICT) $(SANITIZE) shell/*.c $(LIBGAMBROLT) -o $@

build/sanitized/%: shell/tests/%.c $(SHELL_FILES) | compiler
	@mkdir -p build/sanitized
	$(CC) $(STRICT) $(SANITIZE) $< $(SHELL_PARTS) $(LIBGAMBROLT) -o $@

# the program over a library that says what is not so
build/lying: $(SHELL_FILES) | compiler
	@mkdir -p build
	$(CC) $(STRICT) -O2 shell/*.c shell/tests/lying.c -Wl,--wrap=gambrolt_reduce $(LIBGAMBROLT) -o $@

# what its tests call, from Debian's packages where it is missing
packages: | compiler
	@sh shell/tests/packages.sh

test-shell: packages dist build/gambrolt build/lying build/sanitized/gambrolt build/sanitized/builder build/sanitized/damage
	@sh shell/tests/run.sh

# a tarball for machines without the toolchain
dist: build/$(DIST)
build/$(DIST): $(SHELL_FILES) build/lib/libgambrolt.a shell/dist.sh shell/gambrolt.1 include/gambrolt.pc.in $(wildcard build/ci.log)
	@sh shell/dist.sh $(VERSION) $(CC) $(STRICT)

fuzz: $(LIBGAMBROLT)
	@sh shell/tests/fuzz.sh '$(STRICT)' '$(LIBGAMBROLT)'

clean:
	rm -rf target build
