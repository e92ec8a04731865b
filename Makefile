# SPDX-License-Identifier: Apache-2.0
# make            proves the library and the program replay, and builds them (README says how long it takes)
# make check      the tests beside the proofs; .ci/run is the whole check
# make install    installs below $(DESTDIR)$(PREFIX) what make built
# make uninstall  removes what make install put there
# make version    writes the number in the file VERSION to where it has to stand beside

PREFIX ?= /usr/local
BINDIR ?= $(PREFIX)/bin
INCLUDEDIR ?= $(PREFIX)/include
LIBDIR ?= $(PREFIX)/lib
DATADIR ?= $(PREFIX)/share
MANDIR ?= $(DATADIR)/man
INSTALL ?= install
# Stores what is piped in, under the mode of an installed file whatever the umask is.
STORE = $(INSTALL) -m 644 /dev/stdin

SHELL := bash
.SHELLFLAGS := -eu -o pipefail -c

VERSION := $(shell cat VERSION)
# The name of the shared library has the first two numbers: with these a call or a struct may change.
SOVERSION := $(basename $(VERSION))
SHARED := libeoswynnor.so.$(VERSION)
CALLS := $(shell scripts/calls include/eoswynnor.h)

PKGCONFIG := $(LIBDIR)/pkgconfig
CMAKE := $(LIBDIR)/cmake/eoswynnor
# The Rust crate, the examples and the notes for an integrator.
SHARE := $(DATADIR)/eoswynnor

# From one folder to another, so that an installed tree can be moved.
between = $$(realpath -sm --relative-to='$(1)' '$(or $(2),/)')
FILL_PC = scripts/fill packaging/eoswynnor.pc.in VERSION=$(VERSION) PREFIX="$(call between,$(PKGCONFIG),$(PREFIX))" \
    INCLUDEDIR="$(call between,$(PKGCONFIG),$(INCLUDEDIR))"

all: target/lib/libeoswynnor.a

# The archive is built last.
target/lib/libeoswynnor.a: $(shell find crates -name out -prune -o -type f -print) crates.txt VERSION packaging/eoswynnor.map scripts/library scripts/program
	scripts/library

check:
	tests/run

install: all
	$(INSTALL) -d '$(DESTDIR)$(INCLUDEDIR)' '$(DESTDIR)$(PKGCONFIG)' '$(DESTDIR)$(CMAKE)' '$(DESTDIR)$(BINDIR)' \
	    '$(DESTDIR)$(MANDIR)/man1' '$(DESTDIR)$(MANDIR)/man3' '$(DESTDIR)$(SHARE)/rust/src' \
	    '$(DESTDIR)$(SHARE)/examples/c' '$(DESTDIR)$(SHARE)/examples/rust'
	$(INSTALL) -m 644 include/eoswynnor.h '$(DESTDIR)$(INCLUDEDIR)'
	$(INSTALL) -m 644 target/lib/libeoswynnor.a '$(DESTDIR)$(LIBDIR)'
	$(INSTALL) -m 755 target/lib/$(SHARED) '$(DESTDIR)$(LIBDIR)'
	ln -sf $(SHARED) '$(DESTDIR)$(LIBDIR)/libeoswynnor.so.$(SOVERSION)'
	ln -sf libeoswynnor.so.$(SOVERSION) '$(DESTDIR)$(LIBDIR)/libeoswynnor.so'
	$(FILL_PC) NAME=eoswynnor LINK=-leoswynnor | $(STORE) '$(DESTDIR)$(PKGCONFIG)/eoswynnor.pc'
	$(FILL_PC) NAME=eoswynnor-static LINK=-l:libeoswynnor.a | $(STORE) '$(DESTDIR)$(PKGCONFIG)/eoswynnor-static.pc'
	scripts/fill packaging/eoswynnorConfig.cmake.in VERSION=$(VERSION) SOVERSION=$(SOVERSION) \
	    INCLUDEDIR="$(call between,$(CMAKE),$(INCLUDEDIR))" | $(STORE) '$(DESTDIR)$(CMAKE)/eoswynnorConfig.cmake'
	scripts/fill packaging/eoswynnorConfigVersion.cmake.in VERSION=$(VERSION) SOVERSION=$(SOVERSION) \
	    | $(STORE) '$(DESTDIR)$(CMAKE)/eoswynnorConfigVersion.cmake'
	$(INSTALL) -m 755 target/bin/replay '$(DESTDIR)$(BINDIR)/eoswynnor-replay'
	scripts/fill man/eoswynnor-replay.1.in VERSION=$(VERSION) | $(STORE) '$(DESTDIR)$(MANDIR)/man1/eoswynnor-replay.1'
	scripts/manual include/eoswynnor.h | $(STORE) '$(DESTDIR)$(MANDIR)/man3/eoswynnor.3'
	for call in $(CALLS); do echo '.so man3/eoswynnor.3' | $(STORE) '$(DESTDIR)$(MANDIR)/man3/'$$call.3; done
	$(INSTALL) -m 644 LICENSE CHANGELOG.md docs/INTEGRATING.md '$(DESTDIR)$(SHARE)'
	$(INSTALL) -m 644 rust/Cargo.toml rust/build.rs '$(DESTDIR)$(SHARE)/rust'
	echo "$(call between,$(SHARE)/rust,$(LIBDIR))" | $(STORE) '$(DESTDIR)$(SHARE)/rust/library-folder'
	$(INSTALL) -m 644 rust/src/*.rs '$(DESTDIR)$(SHARE)/rust/src'
	$(INSTALL) -m 644 examples/c/* '$(DESTDIR)$(SHARE)/examples/c'
	$(INSTALL) -m 644 examples/rust/* '$(DESTDIR)$(SHARE)/examples/rust'
	@echo 'installed below $(DESTDIR)$(PREFIX)$(if $(DESTDIR),,; the loader finds the shared library after ldconfig, or by its own path)'

uninstall:
	rm -f '$(DESTDIR)$(INCLUDEDIR)/eoswynnor.h' '$(DESTDIR)$(LIBDIR)'/libeoswynnor.a \
	    '$(DESTDIR)$(LIBDIR)'/libeoswynnor.so '$(DESTDIR)$(LIBDIR)'/libeoswynnor.so.$(SOVERSION) '$(DESTDIR)$(LIBDIR)'/$(SHARED) \
	    '$(DESTDIR)$(PKGCONFIG)/eoswynnor.pc' '$(DESTDIR)$(PKGCONFIG)/eoswynnor-static.pc' \
	    '$(DESTDIR)$(BINDIR)/eoswynnor-replay' '$(DESTDIR)$(MANDIR)/man1/eoswynnor-replay.1' \
	    $(foreach page,eoswynnor $(CALLS),'$(DESTDIR)$(MANDIR)/man3/$(page).3')
	rm -rf '$(DESTDIR)$(CMAKE)' '$(DESTDIR)$(SHARE)'

version:
	scripts/version

.PHONY: all check install uninstall version
