# The archive for C and Rust, its installation, and what is run over it. The gate is .ci/run and not here.
#
#     make                      prove the kernel and build the archive (needs the Rattle kit)
#     make install PREFIX=DIR   the archive, the header, the pkg-config file
#     make check                the C examples: built, run, compared with what is stored
#     make check-install        the same example over an installation, found by pkg-config
#     make rust-example         the Rust example: built, run, compared with what is stored
#     make rust-test            the Rust crate's tests: its documentation's examples, and some 130,000 cases against oracle/
#     make bench                the measurements against MPFR, with their table and plot (needs MPFR)
PREFIX ?= /usr/local
DESTDIR ?=
CC ?= cc
CFLAGS ?= -O2 -Wall -Wextra
VERSION = 0.1.0

archive = target/staticlib/libsheafbuckle.a
runs = target/staticlib/libbench_run.a
header = include/sheafbuckle.h
built = target/c
cargo = --offline --manifest-path rust/Cargo.toml --target-dir target/rust
cases = target/face/parts.out
sources := $(shell find crates -name out -prune -o \( -name '*.rt' -o -name '*.antt' \) -print)

all: $(archive)

# each archive: the static library of crates/ that it is, under the name that its callers have
$(archive): crate = sheafbuckle_c
$(runs): crate = bench_run

$(archive) $(runs): crates.txt $(sources)
	cd crates/$(crate) && rt lib
	mkdir -p $(@D)
	cp crates/$(crate)/out/lib$(crate).a $@

install: $(archive)
	install -d '$(DESTDIR)$(PREFIX)/lib/pkgconfig' '$(DESTDIR)$(PREFIX)/include'
	install -m 644 $(archive) '$(DESTDIR)$(PREFIX)/lib/'
	install -m 644 $(header) '$(DESTDIR)$(PREFIX)/include/'
	sed -e 's|@PREFIX@|$(PREFIX)|' -e 's|@VERSION@|$(VERSION)|' sheafbuckle.pc.in > '$(DESTDIR)$(PREFIX)/lib/pkgconfig/sheafbuckle.pc'
	chmod 644 '$(DESTDIR)$(PREFIX)/lib/pkgconfig/sheafbuckle.pc'

$(built)/%: examples/c/%.c $(header) $(archive)
	mkdir -p $(built)
	$(CC) -std=c11 $(CFLAGS) -Iinclude -o $@ $< $(archive)

example: $(built)/enclosure
	$(built)/enclosure

check: $(built)/enclosure $(built)/header
	$(built)/enclosure > $(built)/enclosure.out
	diff examples/c/enclosure.out $(built)/enclosure.out
	$(built)/header

check-install: $(archive)
	rm -rf target/stage
	$(MAKE) install PREFIX='$(CURDIR)/target/stage' DESTDIR=
	PKG_CONFIG_PATH='$(CURDIR)/target/stage/lib/pkgconfig' sh -c '$(CC) -std=c11 $(CFLAGS) -o target/stage/enclosure examples/c/enclosure.c $$(pkg-config --cflags --libs sheafbuckle)'
	target/stage/enclosure > target/stage/enclosure.out
	diff examples/c/enclosure.out target/stage/enclosure.out

rust-example: $(archive)
	cargo build $(cargo) --example enclosure
	target/rust/debug/examples/enclosure > target/rust/enclosure.out
	diff rust/examples/enclosure.out target/rust/enclosure.out

# the last of the files that face_cases.py writes
$(cases): $(wildcard oracle/*.py)
	python3 oracle/face_cases.py target/face

rust-test: $(archive) $(cases)
	SHEAFBUCKLE_CASES='$(CURDIR)/target/face' cargo test $(cargo) -- --include-ignored --nocapture

bench: $(archive) $(runs)
	bench/run

# a recipe that fails leaves nothing that passes for up to date
.DELETE_ON_ERROR:

.PHONY: all install example check check-install rust-example rust-test bench
