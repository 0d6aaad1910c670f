# The commands of README.md.

SHELL := bash
CARGO := cargo --offline

# cargo's own folder, where it is not on the path
export PATH := $(PATH):$(shell getent passwd "$$(id -u)" | cut -d: -f6)/.cargo/bin

.PHONY: test lib install example match lines bench promises layers edits units header calls rows differential vectors stored encoder tools

# proves every crate of crates.txt from nothing, tries the must-fail edits, runs the programs, and compares the library with ordinary Rust
test:
	tests/gate

# the static library for hosts: the exports of cap_c, under the name that hosts link
lib:
	cd crates/cap_c && rt lib
	install -D -m 644 crates/cap_c/out/libcap_c.a target/staticlib/libcap.a

# the library, its header and a pkg-config file under PREFIX (and DESTDIR); folders of our own, since another library is named libcap too
VERSION := 0.6.0
PREFIX ?= /usr/local
install: lib
	install -d $(DESTDIR)$(PREFIX)/lib/plentosk $(DESTDIR)$(PREFIX)/include/plentosk $(DESTDIR)$(PREFIX)/share/pkgconfig
	install -m 644 target/staticlib/libcap.a $(DESTDIR)$(PREFIX)/lib/plentosk/libcap.a
	install -m 644 include/cap.h $(DESTDIR)$(PREFIX)/include/plentosk/cap.h
	sed 's,@PREFIX@,$(PREFIX),; s,@VERSION@,$(VERSION),' include/plentosk.pc.in > $(DESTDIR)$(PREFIX)/share/pkgconfig/plentosk.pc

# a host over the library, run end to end
example: lib
	dpkg -s libssl-dev > /dev/null 2>&1 || { echo 'installing libssl-dev, which is missing'; apt-get install -y libssl-dev; }
	examples/host/demo.sh

# the matching tool, over the lines of document 01
match:
	cat crates/match_tool/stdin
	cd crates/match_tool && rt run < stdin

# a million lines through the matching tool: its answers compared, and how many it gives in a second
lines: tools
	cd crates/match_tool && rt run < stdin > /dev/null
	install -D crates/match_tool/out/match_tool target/bin/match_tool
	tests/lines

# the header in C99 and in C++, without a warning
header:
	cc -std=c99 -Wall -Wextra -pedantic -Werror -fsyntax-only -x c include/cap.h
	c++ -Wall -Wextra -pedantic -Werror -fsyntax-only -x c++ include/cap.h

# cargo and python3, from Debian where they are missing
tools:
	command -v cargo > /dev/null || { echo 'installing cargo, which is missing'; apt-get install -y cargo; }
	command -v python3 > /dev/null || { echo 'installing python3, which is missing'; apt-get install -y python3; }

# every promise has its proof and its row
promises: tools
	tests/promises

# no crate cites of a lower one more than its promises and public laws
layers: tools
	tests/layers

# each must-fail edit still fits its file
edits: tools
	tests/edits

# a unit of time is opened where numbers go out, and nowhere else
units: tools
	tests/units

# the encoder of the scripts that make the stored vectors, from Debian where it is missing
encoder:
	/usr/bin/python3 -c 'import cbor2' 2> /dev/null || { echo 'installing python3-cbor2, which is missing'; \
	  apt-get install -y python3-cbor2 || { apt-get update && apt-get install -y python3-cbor2; }; }

# the stored vectors, made anew
VECTORS := /usr/bin/python3 -B tests/make_vectors.py
vectors: encoder
	$(VECTORS) crates/cap_vectors

# the stored vectors are what the scripts make
stored: encoder
	mkdir -p target/vectors
	$(VECTORS) target/vectors > /dev/null
	for f in stdin stdout; do cmp target/vectors/$$f crates/cap_vectors/$$f || exit 1; done
	echo 'stored: cap_vectors has what tests/make_vectors.py makes'

# each call of the header with known input, every field compared
calls: lib
	cc -std=c99 -Wall -Wextra -pedantic -Werror -Iinclude tests/calls.c target/staticlib/libcap.a -o target/calls
	target/calls

# the search in a slice of rows of the revocation list, from C: known answers, and random lists beside a plain loop
rows:
	cd crates/revocation_slice_c && rt lib
	install -D -m 644 crates/revocation_slice_c/out/librevocation_slice_c.a target/staticlib/librevocation_slice.a
	cc -std=c99 -Wall -Wextra -pedantic -Werror tests/rows.c target/staticlib/librevocation_slice.a -o target/rows
	target/rows

# the library compared with the ordinary Rust implementation, and that with the stored vectors
differential: lib tools
	cd reference && $(CARGO) test --release
	cd bindings/rust && $(CARGO) test --release

# the library timed beside the ordinary Rust implementation, and its requests beside one that is written for speed, with a plot
bench: lib tools
	cd bindings/rust && $(CARGO) run --release --example bench
	cd bindings/rust && $(CARGO) run --release --example speed
