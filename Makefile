# Two commands do everything, and say at once what they miss: `make listing` and `make test`.
.PHONY: listing test check library bench install
.NOTPARALLEL: # one rt at a time
MAKEFLAGS += --no-builtin-rules

PREFIX ?= /usr/local
version := $(shell sed -n 's/^.define JK_VERSION "\(.*\)"/\1/p' include/jiskromet.h)
archive := target/staticlib/libjiskromet.a
program := target/bin/listing

# What both are made of; a folder's own time tells that a file of it is gone.
sources := crates.txt $(shell find crates -mindepth 2 \( -name out -o -name must-fail \) -prune -o -print)

# Has rt make FILE in the crate's folder out/ by a command, where a source is newer, and shows what rt prints only if it fails.
define prove # CRATE, COMMAND, FILE, MODE
	@tests/needs rt
	@echo 'Proving and building $@ (some minutes where nothing is proved yet)'
	@mkdir -p $(@D) && (cd crates/$(1) && $(2)) > target/make.log 2>&1 < /dev/null || { cat target/make.log; exit 1; }
	@install $(4) crates/$(1)/out/$(3) $@
endef

# Proves and builds the listing program, and lists a text with damage in it.
listing: $(program)
	@$(program) < examples/damaged-alarm.txt

$(program): $(sources)
	$(call prove,listing,rt run,listing,-m 755)

# Proves every crate, tries every must-fail edit, and compares the library with the second program.
test:
	@tests/run

# Proves what changed since the last check.
check:
	@tests/needs rt
	@rt all check

# Builds the archive, for C and Rust to link: the crate `jiskromet_c`.
library: $(archive)
	@echo $(archive)

$(archive): $(sources)
	$(call prove,jiskromet_c,rt lib,libjiskromet_c.a,-m 644)

# Times the library against other converters, and writes the figures to docs/SPEED.md and docs/speed.svg.
bench: library
	@tests/needs cargo gcc size objdump
	cargo build --quiet --release --offline --manifest-path bench/Cargo.toml
	./bench/target/release/bench
	@echo "README's table:"; tests/speed

# Installs the archive, the header, a pkg-config file and the listing program below PREFIX (with DESTDIR before it, for packagers).
install: $(archive) $(program)
	@install -d $(DESTDIR)$(PREFIX)/lib/pkgconfig $(DESTDIR)$(PREFIX)/include $(DESTDIR)$(PREFIX)/bin
	@install -m 644 $(archive) $(DESTDIR)$(PREFIX)/lib/libjiskromet.a
	@install -m 644 include/jiskromet.h $(DESTDIR)$(PREFIX)/include/jiskromet.h
	@sed 's|@PREFIX@|$(PREFIX)|; s|@VERSION@|$(version)|' jiskromet.pc.in > $(DESTDIR)$(PREFIX)/lib/pkgconfig/jiskromet.pc
	@chmod 644 $(DESTDIR)$(PREFIX)/lib/pkgconfig/jiskromet.pc
	@install -m 755 $(program) $(DESTDIR)$(PREFIX)/bin/jiskromet-listing
	@echo 'Installed jiskromet $(version) below $(DESTDIR)$(PREFIX)'
