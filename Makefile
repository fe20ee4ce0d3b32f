# Builds, judges and installs, with GNU make. The Rattle kit has to be there (rt on the path); the rest is looked for first, and installed by apt where
# this is root on Debian.
#
#     make shelf      proves and builds the library, then judges the bundled designs; DESIGNS='a.asc folder' judges others
#     make check      the gate: every crate proved, every edit that must be refused, every test program
#     make lib        the libraries, proved, under the name that they are installed by, with their receipt: target/lib
#     make            the static library and the report program, proved: target/staticlib/libcapi.a, target/bin/report
#     make wasm       the proved library as WebAssembly: target/wasm/ice40.wasm
#     make page       the shelf as one page for any browser: target/page/shelf.html
#     make test       the scripts of tests/, against models in Python; STRICT=1 fails where one was left out for a missing program
#     make install    PREFIX=/usr/local: programs, libraries, header, pkg-config file, tools, manual pages; DESTDIR is put before it
#     make uninstall  the same files away again
#     make dist       what members get who have no kit: the page, manual pages, a .deb and a tarball for Linux on x86-64, SHA256SUMS: target/dist
#     make clean      target/ and what the kit kept of each crate away; the next build proves everything again
#     make help       this list
PREFIX ?= /usr/local
CC ?= cc
RT ?= rt
PYTHON ?= python3
INSTALL ?= install
DESIGNS ?= tests/data

VERSION := $(shell sed -n 's/^.define ICE40_VERSION "\(.*\)"/\1/p' include/ice40.h)
ABI := $(basename $(VERSION))
SOURCES := crates.txt $(shell find $(filter-out %/out,$(wildcard crates/*/*)) -type f)
REPORT := target/bin/report
ARCHIVE := target/staticlib/libcapi.a
ARCHIVE_RECEIPT := target/staticlib/libcapi.receipt
MODULE := target/module/archive.sha256
STATIC := target/lib/libice40.a
SHARED := target/lib/libice40.so.$(VERSION)
RECEIPT := target/lib/ice40.receipt
WASM := target/wasm/ice40.wasm
WASM_RECEIPT := target/wasm/ice40.receipt
PAGE := target/page/shelf.html
DIST := target/dist
TOOLS := shelf explain fights compare names asc_to_frames chipdb_to_frames
SHARE := share/ice40
TO := $(DESTDIR)$(PREFIX)

.NOTPARALLEL:
.DELETE_ON_ERROR:
.PHONY: all lib shelf wasm page check test install uninstall dist clean help

all: $(ARCHIVE) $(REPORT)

lib: $(STATIC) $(SHARED) $(RECEIPT)

shelf: lib
	$(PYTHON) tools/shelf.py $(DESIGNS)

wasm: $(WASM)

page: $(PAGE)

help:
	@sed -n '/^#/!q; s/^# \{0,1\}//p' Makefile

# The recipe looks for a C compiler too, which is wanted only at the end of `make lib`. The module that the archive is compiled from is kept for
# `make wasm`, with the archive's SHA-256.
$(ARCHIVE) $(ARCHIVE_RECEIPT) $(MODULE) &: $(SOURCES)
	@scripts/needs.sh $(RT) $(PYTHON) $(CC)
	$(PYTHON) scripts/prove.py library $(RT) $(ARCHIVE)
	scripts/keep_module.sh $(dir $(MODULE)) $(RT) $(ARCHIVE)
	@touch $(ARCHIVE) $(ARCHIVE_RECEIPT) $(MODULE)

$(REPORT): $(SOURCES)
	@scripts/needs.sh $(RT) $(PYTHON)
	$(PYTHON) scripts/prove.py program $(RT) report $@
	@touch $@

$(STATIC): $(ARCHIVE)
	@mkdir -p $(@D)
	cp $< $@

# its other names are hard links, because the gate refuses symbolic ones below the checkout
$(SHARED): $(ARCHIVE)
	@mkdir -p $(@D)
	@echo '{ global: ice40_*; local: *; };' >target/lib/exported
	$(CC) $(LDFLAGS) -shared -Wl,-soname,libice40.so.$(ABI) -Wl,--version-script,target/lib/exported -Wl,--whole-archive $< -Wl,--no-whole-archive -o $@
	ln -f $@ target/lib/libice40.so.$(ABI)
	ln -f $@ target/lib/libice40.so

# the gate is named where it was passed since
$(RECEIPT): $(STATIC) $(SHARED) $(ARCHIVE_RECEIPT) $(wildcard target/gate)
	$(PYTHON) scripts/prove.py shared $(ARCHIVE_RECEIPT) $(STATIC) $(SHARED) >$@

# the module that the archive is compiled from, compiled a second time
$(WASM): $(MODULE) web/wasm.sh
	@scripts/needs.sh $(RT)
	RT=$(RT) web/wasm.sh $(dir $(MODULE)) $(@D)

$(WASM_RECEIPT): $(WASM) $(ARCHIVE_RECEIPT) $(wildcard target/gate)
	$(PYTHON) scripts/prove.py shared $(ARCHIVE_RECEIPT) $(ARCHIVE) $(WASM) >$@

$(PAGE): $(WASM) $(WASM_RECEIPT) $(wildcard web/*) $(wildcard tools/*.py) $(wildcard tools/chips/*) include/ice40.h
	@mkdir -p $(@D)
	$(PYTHON) web/page.py $(WASM) $@

check:
	@scripts/needs.sh $(RT) $(PYTHON)
	$(PYTHON) scripts/prove.py gate .ci/run

test: all lib wasm page
	@$(PYTHON) tests/all.py $(if $(STRICT),--strict)

install: all lib
	$(INSTALL) -d $(TO)/bin $(TO)/include $(TO)/lib/pkgconfig $(TO)/$(SHARE)/chips $(TO)/share/man/man1
	$(INSTALL) -m 755 $(REPORT) $(TO)/bin/ice40-report
	$(INSTALL) -m 644 include/ice40.h $(TO)/include/ice40.h
	$(INSTALL) -m 644 $(STATIC) $(TO)/lib/libice40.a
	$(INSTALL) -m 755 $(SHARED) $(TO)/lib/libice40.so.$(VERSION)
	ln -sf libice40.so.$(VERSION) $(TO)/lib/libice40.so.$(ABI)
	ln -sf libice40.so.$(VERSION) $(TO)/lib/libice40.so
	$(INSTALL) -m 644 $(RECEIPT) $(TO)/lib/ice40.receipt
	printf 'prefix=%s\nName: ice40\nDescription: proved reader of iCE40 logic tile configurations\nVersion: %s\nLibs: -L$${prefix}/lib -lice40\nCflags: -I$${prefix}/include\n' \
	    '$(PREFIX)' '$(VERSION)' >$(TO)/lib/pkgconfig/ice40.pc
	$(INSTALL) -m 644 include/ice40.rs tools/*.py $(TO)/$(SHARE)
	$(INSTALL) -m 644 tools/chips/*.chip $(TO)/$(SHARE)/chips
	for name in $(TOOLS); do \
	    chmod 755 $(TO)/$(SHARE)/$$name.py; \
	    installed=ice40-$$(echo $$name | tr _ -); \
	    ln -sf ../$(SHARE)/$$name.py $(TO)/bin/$$installed; \
	    $(PYTHON) scripts/man.py tools/$$name.py $$installed $(VERSION) >$(TO)/share/man/man1/$$installed.1 || exit 1; \
	done

uninstall:
	rm -f $(TO)/bin/ice40-report $(foreach name,$(TOOLS),$(TO)/bin/ice40-$(subst _,-,$(name)) $(TO)/share/man/man1/ice40-$(subst _,-,$(name)).1)
	rm -f $(TO)/include/ice40.h $(TO)/lib/libice40.a $(TO)/lib/libice40.so* $(TO)/lib/ice40.receipt $(TO)/lib/pkgconfig/ice40.pc
	rm -rf $(TO)/$(SHARE)

dist: all lib page
	rm -rf $(DIST) target/installed
	@$(MAKE) --silent install PREFIX=/usr DESTDIR=target/installed
	$(PYTHON) scripts/dist.py target/installed/usr $(PAGE) $(DIST)
	@rm -rf target/installed

clean:
	rm -rf target crates/*/out
