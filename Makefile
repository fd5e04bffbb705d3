# Proves, builds, tests and installs Dilforec.
#
#   make                  proves and builds what is missing: the program, the archive, the shared object; with -j4, four
#                         libraries at a time, each of which takes up to 4 GB
#   make install          puts them, the header, man pages, completions, docs and examples below DESTDIR and PREFIX
#   make uninstall        takes them away again
#   make check            the merge gate
#   make try CRATE=NAME   runs a crate's cases and tests unproved; CASE='words' the cases with these words alone
#   make prove CRATE=NAME proves a crate; ONLY=NAME a function of it
#   make wheel, make deb  the Python package, and packages for Debian, in out/
#   make clean            removes what was built here, but no proof
#
# What was built elsewhere is taken if it is named, in the environment or here: DILFOREC_PROGRAM, and the two archives
# of bindings/python/link.py, DILFOREC_CRATE_ARCHIVE and DILFOREC_LIBC_ARCHIVE.

SHELL = bash
.SHELLFLAGS = -e -o pipefail -c

DESTDIR =
PREFIX = /usr/local
bindir = $(PREFIX)/bin
libdir = $(PREFIX)/lib
includedir = $(PREFIX)/include
datadir = $(PREFIX)/share
docdir = $(datadir)/doc/dilforec
bashdir = $(datadir)/bash-completion/completions
zshdir = $(datadir)/zsh/site-functions

INSTALL = install
STRIP = strip
PYTHON = python3

VERSION := $(shell cat VERSION)
# That of the release, as CHANGELOG.md has it.
DATE := $(shell sed -n 's/^\#\# $(VERSION) (\(.*\))$$/\1/p' CHANGELOG.md)
# The interface's number: the one in link.py.
SONAME := $(shell sed -n 's/^SONAME = "\(.*\)"$$/\1/p' bindings/python/link.py)

PROGRAM = $(or $(DILFOREC_PROGRAM),crates/fts/out/fts)
ARCHIVE = $(or $(DILFOREC_CRATE_ARCHIVE),crates/fts_c/out/libfts_c.a)
LIBRARY = bindings/out/libdilforec.a bindings/out/$(SONAME)
SOURCES := crates.txt HANDLES $(shell find crates -name out -prune -o \( -name '*.rt' -o -name '*.antt' \) -print)

# Documents and examples keep the folders that they have here, so that their links lead somewhere.
PAGES := README.md CHANGELOG.md $(wildcard docs/*.md docs/*.png bench/*.md bench/*.svg)
EXAMPLES := $(wildcard examples/*.jsonl examples/*/*.py examples/packages/available examples/service/* bindings/c/example.c bindings/python/examples/*.py)
DOCS = $(PAGES) $(EXAMPLES)

FILL = sed -e 's|@VERSION@|$(VERSION)|g' -e 's|@DATE@|$(DATE)|g' -e 's|@PREFIX@|$(PREFIX)|g' \
    -e 's|@docdir@|$(docdir)|g' \
    -e 's|@libdir@|$(patsubst $(PREFIX)/%,$${prefix}/%,$(libdir))|g' \
    -e 's|@includedir@|$(patsubst $(PREFIX)/%,$${prefix}/%,$(includedir))|g' \
    -e "s|@include_from_lib@|$$(realpath -ms --relative-to=$(libdir) $(includedir))|g"

FOLDERS = $(bindir) $(libdir)/pkgconfig $(libdir)/cmake/dilforec $(includedir) $(datadir)/man/man1 $(datadir)/man/man3 \
    $(bashdir) $(zshdir) $(sort $(patsubst %/,%,$(dir $(addprefix $(docdir)/,$(DOCS)))))
OWN = $(DESTDIR)$(docdir) $(DESTDIR)$(libdir)/cmake/dilforec
INSTALLED = $(bindir)/fts $(libdir)/$(SONAME) $(libdir)/libdilforec.so $(libdir)/libdilforec.a \
    $(includedir)/dilforec.h \
    $(libdir)/pkgconfig/dilforec.pc $(libdir)/cmake/dilforec/dilforec-config.cmake \
    $(libdir)/cmake/dilforec/dilforec-config-version.cmake $(datadir)/man/man1/fts.1 $(datadir)/man/man1/dilforec.1 \
    $(datadir)/man/man3/dilforec.3 \
    $(bashdir)/fts $(zshdir)/_fts $(addprefix $(docdir)/,$(DOCS))

HAS_KIT = @command -v rt >/dev/null || \
    { echo "rt, the Rattle kit's command, isn't on the PATH: README.md says where the kit comes from" >&2; exit 1; }

.PHONY: all check try prove libraries install uninstall wheel deb clean
.DELETE_ON_ERROR:

all: $(PROGRAM) $(LIBRARY)

# What each library below the program and the archive stands on, as crates.txt says: fts_merge:fts_segment,fts_pack and so on.
STANDS := $(shell sed -n '/^fts_\(list\|c\)\b/d; s/^\(fts_[a-z_]*\)[^:]*: */\1:/; t one; d; :one; s/ /,/g; p' crates.txt)
comma = ,
LIBRARIES := $(foreach each,$(STANDS),$(firstword $(subst :, ,$(each))))
below = $(addprefix library-,$(filter $(LIBRARIES),$(subst $(comma), ,$(word 2,$(subst :, ,$(1))))))

libraries: $(addprefix library-,$(LIBRARIES))
.PHONY: $(addprefix library-,$(LIBRARIES))
$(foreach each,$(STANDS),$(eval library-$(firstword $(subst :, ,$(each))): $(call below,$(each))))
$(addprefix library-,$(LIBRARIES)):
	cd crates/$(@:library-%=%) && rt lib

crates/fts/out/fts: $(SOURCES)
	$(HAS_KIT)
	@echo "Proving and building what is missing, for up to an hour if nothing was proved before (README.md has the minutes)."
	+$(MAKE) --no-print-directory libraries
	cd crates/fts && rt run -- --version
	touch $@

crates/fts_c/out/libfts_c.a: $(SOURCES) | $(PROGRAM)
	$(HAS_KIT)
	cd crates/fts_c && rt lib
	touch $@

$(LIBRARY) &: $(ARCHIVE) bindings/python/link.py
	$(PYTHON) bindings/python/link.py

try:
	$(HAS_KIT)
	$(PYTHON) tests/try_crate.py $(CRATE) $(if $(CASE),'$(CASE)')

# Errors in the code come first, in seconds.
prove:
	$(HAS_KIT)
	cd crates/$(CRATE) && rt check --only= && rt check $(if $(ONLY),--only $(ONLY))

check:
	$(HAS_KIT)
	@echo "The merge gate: every proof, edit and test, an hour or two on four processors (README.md has more)."
	@echo "It installs packages of Debian that the tests lack, unless DILFOREC_INSTALL=0."
	.ci/run

install: all
	$(INSTALL) -d $(addprefix $(DESTDIR),$(FOLDERS))
	$(INSTALL) -m 755 $(PROGRAM) $(DESTDIR)$(bindir)/fts
	$(INSTALL) -m 644 bindings/out/$(SONAME) $(DESTDIR)$(libdir)/$(SONAME)
	$(STRIP) $(DESTDIR)$(bindir)/fts
	$(STRIP) --strip-unneeded $(DESTDIR)$(libdir)/$(SONAME)
	ln -sf $(SONAME) $(DESTDIR)$(libdir)/libdilforec.so
	$(INSTALL) -m 644 bindings/out/libdilforec.a $(DESTDIR)$(libdir)/libdilforec.a
	$(STRIP) --strip-debug $(DESTDIR)$(libdir)/libdilforec.a
	$(INSTALL) -m 644 bindings/c/dilforec.h $(DESTDIR)$(includedir)/dilforec.h
	$(FILL) packaging/dilforec.pc.in | $(INSTALL) -m 644 /dev/stdin $(DESTDIR)$(libdir)/pkgconfig/dilforec.pc
	$(FILL) packaging/dilforec-config.cmake.in | \
	    $(INSTALL) -m 644 /dev/stdin $(DESTDIR)$(libdir)/cmake/dilforec/dilforec-config.cmake
	$(FILL) packaging/dilforec-config-version.cmake.in | \
	    $(INSTALL) -m 644 /dev/stdin $(DESTDIR)$(libdir)/cmake/dilforec/dilforec-config-version.cmake
	$(FILL) packaging/fts.1.in | $(INSTALL) -m 644 /dev/stdin $(DESTDIR)$(datadir)/man/man1/fts.1
	$(FILL) packaging/dilforec.1.in | $(INSTALL) -m 644 /dev/stdin $(DESTDIR)$(datadir)/man/man1/dilforec.1
	$(PYTHON) packaging/manual.py bindings/c/dilforec.h packaging/dilforec.3.in | $(FILL) | \
	    $(INSTALL) -m 644 /dev/stdin $(DESTDIR)$(datadir)/man/man3/dilforec.3
	$(INSTALL) -m 644 packaging/fts.bash $(DESTDIR)$(bashdir)/fts
	$(INSTALL) -m 644 packaging/fts.zsh $(DESTDIR)$(zshdir)/_fts
	for file in $(DOCS); do $(INSTALL) -m 644 $$file $(DESTDIR)$(docdir)/$$file; done
	$(if $(DESTDIR),,@echo "Installed below $(PREFIX). A program that doesn't find $(SONAME) finds it after ldconfig.")

# Of the folders, those that are Dilforec's own go too, unless something else is in them.
uninstall:
	rm -f $(addprefix $(DESTDIR),$(INSTALLED))
	for folder in $(OWN); do if [ -d $$folder ]; then find $$folder -depth -type d -empty -delete; fi; done

wheel: $(LIBRARY)
	mkdir -p out
	cd bindings/python && $(PYTHON) -c 'import backend; print("out/" + backend.build_wheel("../../out"))'

deb: all
	$(PYTHON) packaging/deb.py out

clean:
	rm -rf out bindings/out bindings/python/dilforec/libdilforec.so
