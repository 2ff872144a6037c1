# make                  the archive and the command, and what is in the sample capture
# make archive          the proved codec alone, target/staticlib/libnwk.a
# make command          the archive and the command, host/target/release/store-reader
# make test             the gate: every proof and must-fail edit, then the tests of the host and of the C programs
# make programs         the programs that run files of cases, which the tests of the host run on damaged files
# make host-test        the tests of the host and of the C programs alone
# make bench            times beside nettle, mbedtls and wolfSSL, of a journal in a file, stack and memory
# make install          the command, its man page and completion, and what install-codec installs, below PREFIX
# make install-codec    headers, archive and pkg-config file, without Rust; the archive goes to LIBDIR, PREFIX/lib if not given
# make clean            removes what the above made
# make help             this list

SHELL := bash
.SHELLFLAGS := -euo pipefail -c
.ONESHELL:
.DELETE_ON_ERROR:

# The folder where rustup puts cargo, for a shell whose path does not have it.
export PATH := $(PATH):$(shell echo ~)/.cargo/bin

# The toolchain that everything here was proved with, as rt version prints it.
TOOLCHAIN := rattle-kit-13f logic dac8208d650f15bf

PREFIX ?= /usr/local
LIBDIR ?= $(PREFIX)/lib
DESTDIR ?=

ARCHIVE := target/staticlib/libnwk.a
COMMAND := host/target/release/store-reader
PROGRAMS := vectors frame_cases command_cases
RATTLE := crates.txt $(shell find crates -name out -prune -o \( -name '*.rt' -o -name '*.antt' \) -print)
HOST := host/Cargo.toml host/Cargo.lock host/build.rs $(shell find host/src -type f)
VERSION := $(shell sed -n 's/^version = "\(.*\)"/\1/p' host/Cargo.toml)

# Ends with a sentence where a program is missing.
needs = command -v $(1) > /dev/null || { echo "$(1) is missing: $(2)" >&2; exit 1; }
needs_rt = $(call needs,rt,put the Rattle toolchain on the path)
# Says where the toolchain is another; the proofs then decide.
compares_rt = [[ $$(rt version) == "$(TOOLCHAIN)" ]] || echo "rt is another than $(TOOLCHAIN), which this was proved with" >&2
needs_cargo = $(call needs,cargo,put Rust on the path (https://rustup.rs))
# Prints each crate that is proved, and how many there are.
count_crates = { n=0; while read -r first second rest; do \
  [[ $$first != crate ]] || crate=$${second%:}; \
  [[ $$first != logic=proved ]] || echo "$$crate proved, $$((++n)) of $$crates"; done; }

# Fails where rt's line of what it did tells of an edit that could not be applied or read.
finds_bad = ! grep -E '^rt: ok.*, [1-9][0-9]* bad' "$$log" >&2 || { echo "a must-fail edit does not fit the text" >&2; exit 1; }

.PHONY: sample archive command test programs host-test install install-codec clean help

sample: $(COMMAND)
	@$(COMMAND) open --key-file samples/store.key samples/store.pcap

archive: $(ARCHIVE)

command: $(COMMAND)

help:
	@sed -n 's/^# make/make/p' $(firstword $(MAKEFILE_LIST))

# The codec is proved before it is compiled: ten minutes or so the first time. What comes after it is asked for first.
$(ARCHIVE): $(RATTLE)
	@$(needs_rt)
	$(compares_rt)
	$(if $(filter archive bench install-codec,$(MAKECMDGOALS)),,$(needs_cargo))
	echo "proving and compiling the codec, ten minutes or so the first time"
	log=$$(mktemp)
	trap 'rm -f "$$log"' EXIT
	crates=$$(sed '/^nwk_c /q' crates.txt | grep -c '^[a-z]')
	(cd crates/nwk_c && rt lib) 2>&1 | tee "$$log" | $(count_crates) || { cat "$$log"; exit 1; }
	mkdir -p $(@D)
	cp crates/nwk_c/out/libnwk_c.a $@
	echo "nwk proved and compiled, $$crates of $$crates"

$(COMMAND): $(ARCHIVE) $(HOST)
	@$(needs_cargo)
	cd host
	cargo build --release --offline --quiet

# rt's last line, the count, is kept for the end: it is printed only if everything passed. An edit that cannot be tried fails here too.
test:
	@$(needs_rt)
	$(compares_rt)
	$(needs_cargo)
	log=$$(mktemp)
	trap 'rm -f "$$log"' EXIT
	rt ci | tee "$$log" | sed -u '$$d' || { tail -n 1 "$$log"; exit 1; }
	count=$$(tail -n 1 "$$log")
	[[ $$count =~ ^[0-9]+\ passed,\ 0\ failed$$ ]]
	$(finds_bad)
	$(MAKE) --no-print-directory programs host-test
	echo "$$count"

# Each is proved, built and run beside its files of cases.
programs:
	@$(needs_rt)
	log=$$(mktemp)
	trap 'rm -f "$$log"' EXIT
	for program in $(PROGRAMS); do
	  echo "proving and running $$program"
	  (cd crates/$$program && rt run) > "$$log" 2>&1 || { cat "$$log"; exit 1; }
	done

# The host's tests compile and run the C programs too, against the archive of this tree.
host-test: $(COMMAND)
	@cd host
	cargo test --release --offline

install: $(COMMAND) install-codec
	@to=$(DESTDIR)$(PREFIX)
	install -D -m 755 $(COMMAND) $$to/bin/store-reader
	install -D -m 644 host/man/store-reader.1 $$to/share/man/man1/store-reader.1
	install -D -m 644 host/completions/store-reader.bash $$to/share/bash-completion/completions/store-reader

install-codec: $(ARCHIVE)
	@install -D -m 644 include/nwk.h $(DESTDIR)$(PREFIX)/include/nwk.h
	install -D -m 644 include/nwk_null.h $(DESTDIR)$(PREFIX)/include/nwk_null.h
	install -D -m 644 $(ARCHIVE) $(DESTDIR)$(LIBDIR)/libnwk.a
	install -d $(DESTDIR)$(LIBDIR)/pkgconfig
	sed 's|@PREFIX@|$(PREFIX)|; s|@LIBDIR@|$(patsubst $(PREFIX)/%,$${prefix}/%,$(LIBDIR))|; s|@VERSION@|$(VERSION)|' include/nwk.pc.in \
	  > $(DESTDIR)$(LIBDIR)/pkgconfig/nwk.pc

clean:
	rm -rf target host/target

include bench/bench.mk
