# make            proves the library and makes its archives, libcraneholt.a and, for the roof rig, libcraneholt_roof.a, each in the folder out of its crate
# make list FILE=examples/sweep.nrrd   lists a file
# make check      the tests from C, over the archives
# make inputs     makes the input of the programs that the gate runs, and what they must print
# make peers      lets teem-unu, where it is installed, read files that we write
# make install    header, archives and pkg-config file under PREFIX
# make size       the bytes of the library's code and read-only data, by crate
# make bench      times the calls beside plain C, and beside libteem where it is installed; RUNS=5: the median of five runs; ONLY=hex: these tables

PREFIX  ?= /usr/local
LIBDIR  ?= $(PREFIX)/lib
DESTDIR ?=
CC      ?= cc
CXX     ?= c++
CFLAGS  ?= -O2
RUNS    ?= 1
ONLY    ?=

VERSION = $(shell sed -n 's/^.define CRANEHOLT_VERSION "\(.*\)"/\1/p' include/craneholt.h)
ARCHIVE = crates/craneholt/out/libcraneholt.a
ROOF    = crates/craneholt_roof/out/libcraneholt_roof.a
ARCHIVES = $(ROOF) $(ARCHIVE)
LISTING = crates/listing/out/listing
BUILD   = build
STRICT  = -std=c99 -Wall -Wextra -pedantic -Werror
SANITIZE = -O1 -g -fsanitize=address,undefined -fno-sanitize-recover=all
SOURCES = crates.txt $(shell find crates -name out -prune -o \( -name '*.rt' -o -name '*.antt' \) -print)

.PHONY: all list check inputs peers teem-unu install uninstall size bench clean
all: $(ARCHIVES)

$(ARCHIVE): $(SOURCES)
	@sh tools/prove.sh $(BUILD) lib craneholt

# one after the other, since they prove the same crates
$(ROOF): $(SOURCES) | $(ARCHIVE)
	@sh tools/prove.sh $(BUILD) lib craneholt_roof

$(LISTING): $(SOURCES)
	@sh tools/prove.sh $(BUILD) run listing

list: $(LISTING)
	@test -n "$(FILE)" || { echo "usage: make list FILE=examples/sweep.nrrd" >&2; exit 2; }
	@$(LISTING) < "$(FILE)"

# ---- Tests from C

HEADERS = include/craneholt.h $(wildcard tests/*.h)
TESTS = $(HEADERS) $(ARCHIVES)

$(BUILD)/vectors: tests/vectors.c tests/bytes.c tests/json.c tests/model.c $(TESTS)
	@mkdir -p $(BUILD)
	$(CC) $(STRICT) $(SANITIZE) -Iinclude $(filter %.c %.a,$^) -o $@

# the implementation that the library is compared with has to agree with the vectors too
$(BUILD)/vectors_model: tests/vectors.c tests/bytes.c tests/json.c tests/model.c $(HEADERS)
	@mkdir -p $(BUILD)
	$(CC) $(STRICT) $(SANITIZE) -DUSE_MODEL -Iinclude $(filter %.c,$^) -o $@

# runs the listing program; the model is for the files that it makes
$(BUILD)/listing: tests/listing.c tests/bytes.c tests/json.c tests/model.c $(HEADERS)
	@mkdir -p $(BUILD)
	$(CC) $(STRICT) $(SANITIZE) -Iinclude $(filter %.c,$^) -o $@

# files that another program made, and our files for it
$(BUILD)/peers $(BUILD)/written: $(BUILD)/%: tests/%.c tests/said.c tests/bytes.c tests/model.c $(TESTS)
	@mkdir -p $(BUILD)
	$(CC) $(STRICT) $(SANITIZE) -Iinclude $(filter %.c %.a,$^) -o $@

$(BUILD)/random: tests/random.c tests/generate.c tests/model.c $(TESTS)
	@mkdir -p $(BUILD)
	$(CC) $(STRICT) $(SANITIZE) -Iinclude tests/random.c tests/generate.c tests/model.c $(ARCHIVES) -o $@

$(BUILD)/strtod: tests/strtod.c tests/generate.c tests/model.c $(TESTS)
	@mkdir -p $(BUILD)
	$(CC) $(STRICT) $(SANITIZE) -Iinclude $(filter %.c %.a,$^) -lm -o $@

$(BUILD)/tokens: tests/tokens.c $(TESTS)
	@mkdir -p $(BUILD)
	$(CC) $(STRICT) $(CFLAGS) -pthread -Iinclude tests/tokens.c $(ARCHIVES) -o $@

$(BUILD)/empty $(BUILD)/digits $(BUILD)/rows $(BUILD)/kinds: $(BUILD)/%: tests/%.c $(TESTS)
	@mkdir -p $(BUILD)
	$(CC) $(STRICT) $(SANITIZE) -Iinclude $< $(ARCHIVES) -o $@

# the input of the programs that the gate runs
$(BUILD)/inputs: $(wildcard tests/frames/*.c) tests/bytes.c tests/json.c tests/model.c $(wildcard tests/frames/*.h) $(HEADERS)
	@mkdir -p $(BUILD)
	$(CC) $(STRICT) $(SANITIZE) -Iinclude $(filter %.c,$^) -o $@

# their answers are the model's, so that it has to agree with the vectors first
inputs: $(BUILD)/vectors_model $(BUILD)/inputs
	$(BUILD)/vectors_model tests/vectors
	$(BUILD)/vectors_model tests/vectors/w5 before-w6
	$(BUILD)/vectors_model tests/vectors/w4 before-w5
	$(BUILD)/vectors_model tests/vectors/w2 before-w4
	$(BUILD)/vectors_model tests/vectors/w1 before-w2
	$(BUILD)/vectors_model tests/vectors/base before-w1
	$(BUILD)/inputs tests/vectors tests/frames crates

$(BUILD)/%: examples/%.c examples/files.h include/craneholt.h $(ARCHIVES)
	@mkdir -p $(BUILD)
	$(CC) $(STRICT) $(CFLAGS) -Iinclude $< $(ARCHIVES) -o $@

check: $(BUILD)/vectors $(BUILD)/vectors_model $(BUILD)/inputs $(BUILD)/listing $(LISTING) $(BUILD)/peers $(BUILD)/empty $(BUILD)/digits $(BUILD)/rows $(BUILD)/kinds $(BUILD)/random $(BUILD)/strtod $(BUILD)/tokens $(BUILD)/correct $(BUILD)/merge $(BUILD)/poses $(BUILD)/roof $(BUILD)/axes
	$(BUILD)/vectors tests/vectors
	$(BUILD)/vectors tests/vectors/w5 before-w6
	$(BUILD)/vectors tests/vectors/w4 before-w5
	$(BUILD)/vectors tests/vectors/w2 before-w4
	$(BUILD)/vectors tests/vectors/w1 before-w2
	$(BUILD)/vectors tests/vectors/base before-w1
	$(BUILD)/vectors_model tests/vectors
	$(BUILD)/vectors_model tests/vectors/w5 before-w6
	$(BUILD)/vectors_model tests/vectors/w4 before-w5
	$(BUILD)/vectors_model tests/vectors/w2 before-w4
	$(BUILD)/vectors_model tests/vectors/w1 before-w2
	$(BUILD)/vectors_model tests/vectors/base before-w1
	sh tests/frames/compare.sh $(BUILD)
	$(BUILD)/listing $(LISTING) $(BUILD)
	$(BUILD)/peers tests/peers
	$(BUILD)/empty
	$(BUILD)/digits
	$(BUILD)/rows
	$(BUILD)/kinds
	$(BUILD)/random
	$(BUILD)/strtod
	$(BUILD)/tokens
	CC="$(CC)" CXX="$(CXX)" sh tests/install.sh
	sh tests/examples.sh $(BUILD)

teem-unu:
	@command -v $@ > /dev/null || { echo "$@ is not installed (package teem-apps): nothing is compared" >&2; exit 1; }

# also makes the files of tests/peers again, and compares them
peers: teem-unu $(BUILD)/written $(BUILD)/peers
	$(BUILD)/peers tests/peers
	rm -rf $(BUILD)/again && mkdir $(BUILD)/again
	sh tests/peers/make.sh $(BUILD)/again
	diff -r -x README.md -x answers.txt -x make.sh tests/peers $(BUILD)/again
	$(BUILD)/written $(BUILD)

# ---- Install

install: $(ARCHIVES)
	install -d $(DESTDIR)$(PREFIX)/include $(DESTDIR)$(LIBDIR)/pkgconfig
	install -m 644 include/craneholt.h $(DESTDIR)$(PREFIX)/include/craneholt.h
	install -m 644 $(ARCHIVES) $(DESTDIR)$(LIBDIR)
	sed -e 's|@PREFIX@|$(PREFIX)|' -e 's|@LIBDIR@|$(LIBDIR)|' -e 's|@VERSION@|$(VERSION)|' craneholt.pc.in > $(DESTDIR)$(LIBDIR)/pkgconfig/craneholt.pc

uninstall:
	rm -f $(DESTDIR)$(PREFIX)/include/craneholt.h $(DESTDIR)$(LIBDIR)/libcraneholt.a $(DESTDIR)$(LIBDIR)/libcraneholt_roof.a
	rm -f $(DESTDIR)$(LIBDIR)/pkgconfig/craneholt.pc

# ---- Size

size: $(ARCHIVE)
	@sh tools/size.sh $(ARCHIVE)

# ---- Benchmark

TEEM = $(shell printf '\043include <teem/nrrd.h>\n' | $(CC) -E -x c - > /dev/null 2>&1 && echo $(BUILD)/teem)

$(BUILD)/bench: bench/bench.c bench/peers.c bench/peers.h bench/timing.h tests/model.c tests/model.h tests/calls.h include/craneholt.h $(ARCHIVES)
	@mkdir -p $(BUILD)
	$(CC) $(STRICT) -O3 -Iinclude bench/bench.c bench/peers.c tests/model.c $(ARCHIVES) -o $@

$(BUILD)/teem: bench/teem.c bench/timing.h include/craneholt.h $(ARCHIVE)
	@mkdir -p $(BUILD)
	$(CC) -std=c99 -O3 -Iinclude bench/teem.c $(ARCHIVE) -lteem -o $@

bench: $(BUILD)/bench $(TEEM)
	@$(if $(TEEM),,echo "libteem is not installed (libteem-dev): not compared")
	@bench/run.sh $(RUNS) "$(ONLY)" $(BUILD) $(BUILD)/bench $(if $(ONLY),,$(TEEM))

clean:
	rm -rf $(BUILD)
