# make test   everything that the merge gate runs
# make run    the main job: lists the script on standard input: counts and flag, tree, errors
# make tokens prints the tokens of the script on standard input, one a line
# make text   writes the canonical text of the script on standard input
# make lib    the library for hosts: target/staticlib/libsif_c.a, target/lib/libsif_c.so and its sif.pc
# make sif    the command, hosts/target/release/sif
# make install PREFIX=DIR   library, header, pkg-config file, command and manual page, below DIR
# make hosts-test           the tests of the hosts: C, Rust, Python and the command
# make compare-long, make bench   the long comparison with the Rust, and the benchmark (docs/PERFORMANCE.md:
#             --against OTHER.a for the archive before a change and after it in one run)

PREFIX ?= /usr/local
DESTDIR ?=
ARCHIVE = target/staticlib/libsif_c.a
# What the archive is made from; a file of the code, of a definition or of a proof that is newer has it made again.
CODE = crates.txt $(shell find crates -name out -prune -o \( -name '*.rt' -o -name '*.antt' \) -print)
SONAME = libsif_c.so.0
SHARED = target/lib/$(SONAME)
WHERE = $(if $(filter /%,$(PREFIX)),,$(CURDIR)/)$(PREFIX)
TO = $(DESTDIR)$(WHERE)

.PHONY: test run tokens text lib shared sif install install-lib hosts-test compare-long bench

test:
	@bash .ci/run

lib: $(ARCHIVE)
	@$(MAKE) -s shared

shared: $(SHARED) target/lib/sif.pc

$(ARCHIVE): $(CODE)
	@cd crates/sif_c_c && rt lib
	@mkdir -p $(@D)
	@cp crates/sif_c_c/out/libsif_c_c.a $@

# The archive's objects are position independent. Only the calls of include/sif.h are exported.
$(SHARED): $(ARCHIVE) hosts/c/exports.map
	@mkdir -p target/lib
	@$(CC) -shared -Wl,--whole-archive $(ARCHIVE) -Wl,--no-whole-archive -Wl,-z,defs -Wl,-z,relro,-z,now \
	  -Wl,-soname,$(SONAME) -Wl,--version-script=hosts/c/exports.map -o $@
	@ln -sf $(SONAME) target/lib/libsif_c.so

# For use where it was built; an installed one is written by install-lib.
target/lib/sif.pc: hosts/c/sif.pc.in
	@mkdir -p target/lib
	@sed -e 's|@INCLUDE@|$(CURDIR)/include|' -e 's|@LIB@|$(CURDIR)/target/lib|' $< > $@

sif: $(ARCHIVE)
	@cargo build -q --offline --release --manifest-path hosts/Cargo.toml -p sif-command

install-lib: $(SHARED)
	@install -d '$(TO)/include' '$(TO)/lib/pkgconfig'
	@install -m 644 include/sif.h '$(TO)/include/sif.h'
	@install -m 644 $(ARCHIVE) '$(TO)/lib/libsif_c.a'
	@install -m 755 $(SHARED) '$(TO)/lib/$(SONAME)'
	@ln -sf $(SONAME) '$(TO)/lib/libsif_c.so'
	@sed -e 's|@INCLUDE@|$(WHERE)/include|' -e 's|@LIB@|$(WHERE)/lib|' \
	  hosts/c/sif.pc.in > '$(TO)/lib/pkgconfig/sif.pc'

install: install-lib sif
	@install -d '$(TO)/bin' '$(TO)/share/man/man1'
	@install -m 755 hosts/target/release/sif '$(TO)/bin/sif'
	@install -m 644 hosts/sif/sif.1 '$(TO)/share/man/man1/sif.1'

hosts-test:
	@bash hosts/test

# What `rt` says of the proof and the build goes to standard error, and the program's output to standard output.
run:
	@cd crates/sif_list && rt run

tokens:
	@cd crates/token_list && rt run

text:
	@cd crates/sif_text && rt run

compare-long: lib
	@cargo run -q --release -p compare -- --long

bench: lib
	@cargo run -q --release -p bench
