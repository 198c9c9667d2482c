# SPDX-License-Identifier: Apache-2.0
#
#     make                                           builds the programs and the C library in one go (in the repository)
#     make install [PREFIX=/usr/local] [DESTDIR=]    puts the programs, the C library, the Python package, man pages, completion, documents
#                                                    and examples in place
#     make uninstall [PREFIX=/usr/local] [DESTDIR=]  takes away what was installed there, and nothing else
#     make dist                                      makes all that is released, with checksums, in out/dist (in the repository): the three below
#     make archive                                   makes out/rokdaum-VERSION-x86_64-linux.tar.gz (in the repository)
#     make deb                                       makes Debian packages of it, in out/deb (in the repository)
#     make wheel                                     makes a wheel of the Python package with the library, in out (in the repository)
#     make check                                     tests everything (in the repository), or runs the examples (in a release)
#     make help                                      prints these lines
#
# It is the same file in the repository and in a release, where a bare make prints these lines.

PREFIX ?= /usr/local
DESTDIR ?=
override PREFIX := $(abspath $(PREFIX))
override DESTDIR := $(abspath $(DESTDIR))

root = $(DESTDIR)$(PREFIX)
doc = $(root)/share/doc/rokdaum
man = $(root)/share/man
completion = $(root)/share/bash-completion/completions
# The Python package stands here, and is linked to from where python3 looks below PREFIX, if it looks anywhere there.
package = $(root)/share/rokdaum
PYTHON ?= python3
finds = import os, sys; print(next((it for it in sys.path if it.startswith("$(PREFIX)/") and os.path.basename(it) in ("dist-packages", "site-packages")), ""))
PYTHONDIR ?= $(shell $(PYTHON) -c '$(finds)' 2> /dev/null)
here := $(dir $(lastword $(MAKEFILE_LIST)))
version := $(shell cat $(here)VERSION)
soname := $(shell cat $(here)SONAME)
# Where the loader finds the library's build for processors of this level.
hwcaps = glibc-hwcaps/x86-64-v3
programs = dsp_console gateway_console
commands = dsp_run dsp_design dsp_map

.PHONY: all help install uninstall dist archive deb wheel check
ifneq ($(wildcard tools/release.py),)
all:
	@command -v python3 > /dev/null || { echo 'make: python3 is missing here: apt-get install python3' >&2; exit 69; }
	@tools/build.py
	@$(MAKE) --no-print-directory -C c
else
all: help
endif
help:
	@sed -n 's/^#     //p' Makefile

ifneq ($(wildcard tools/release.py),)
# Whether changes that aren't committed may be installed: make CHANGED=--changed install
CHANGED ?=
stage = out/stage

install:
	tools/release.py $(CHANGED) --stage $(stage)
	$(MAKE) -C $(stage) install PREFIX='$(PREFIX)' DESTDIR='$(DESTDIR)'

dist:
	tools/dist.py $(CHANGED)

archive:
	tools/release.py $(CHANGED)

deb:
	tools/deb.py $(CHANGED)

wheel:
	tools/wheel.py $(CHANGED)

check:
	./check

else
# SHA256SUMS lists the files of a release. What has no place of its own goes where documents are; the programs and the package are linked
# to from there, so that the examples find them.
install:
	@sha256sum --quiet --check SHA256SUMS
	for one in $(programs); do install -D -m 755 $$one '$(root)/bin/'$$one || exit 1; done
	install -D -m 644 -t '$(man)/man1' docs/man/*.1
	install -D -m 644 -t '$(man)/man3' docs/man/*.3
	install -D -m 644 docs/completion/dsp_console '$(completion)/dsp_console'
	ln -sf dsp_console '$(completion)/gateway_console'
	install -D -m 644 c/rokdaum.h '$(root)/include/rokdaum.h'
	install -D -m 644 lib/librokdaum.a '$(root)/lib/librokdaum.a'
	install -D -m 644 lib/librokdaum.so.$(version) '$(root)/lib/librokdaum.so.$(version)'
	ln -sf librokdaum.so.$(version) '$(root)/lib/$(soname)'
	ln -sf $(soname) '$(root)/lib/librokdaum.so'
	[ ! -d lib/$(hwcaps) ] || { install -D -m 644 lib/$(hwcaps)/librokdaum.so.$(version) '$(root)/lib/$(hwcaps)/librokdaum.so.$(version)' && \
	    ln -sf librokdaum.so.$(version) '$(root)/lib/$(hwcaps)/$(soname)'; }
	mkdir -p '$(root)/lib/pkgconfig'
	sed -e 's|^prefix=.*|prefix=$(PREFIX)|' -e 's|^includedir=.*|includedir=$${prefix}/include|' lib/pkgconfig/rokdaum.pc > '$(root)/lib/pkgconfig/rokdaum.pc'
	install -D -m 644 -t '$(root)/lib/cmake/rokdaum' lib/cmake/rokdaum/*.cmake
	@sed 's/^[0-9a-f]*  //' SHA256SUMS | while read -r file; do \
	    case $$file in dsp_console | gateway_console | Makefile | docs/man/* | docs/completion/* | lib/* | c/rokdaum.h) continue ;; \
	        python/*) to='$(package)' ;; *) to='$(doc)' ;; esac; \
	    mode=644; [ ! -x "$$file" ] || mode=755; \
	    install -D -m $$mode "$$file" "$$to/$$file" || exit 1; \
	done
	for one in $(commands); do ln -sf ../share/rokdaum/python/bin/$$one '$(root)/bin/'$$one || exit 1; done
	[ -z '$(PYTHONDIR)' ] || { mkdir -p '$(DESTDIR)$(PYTHONDIR)' && ln -sfnr '$(package)/python/rokdaum' '$(DESTDIR)$(PYTHONDIR)/rokdaum'; }
	install -m 644 SHA256SUMS '$(doc)/SHA256SUMS'
	for one in $(programs); do ln -sf ../../../bin/$$one '$(doc)/'$$one || exit 1; done
	ln -sfn ../../rokdaum/python '$(doc)/python'
	mkdir -p '$(doc)/c' && ln -sf ../../../../include/rokdaum.h '$(doc)/c/rokdaum.h'

dist archive deb wheel:
	@echo 'this is a release; make $@ makes one in the repository' >&2; exit 1

check:
	examples/check
endif

uninstall:
	@[ -f '$(doc)/SHA256SUMS' ] || { echo 'nothing is installed in $(root)' >&2; exit 1; }
	rm -f '$(doc)/python' '$(doc)/c/rokdaum.h'
	@sed 's/^[0-9a-f]*  //' '$(doc)/SHA256SUMS' | while read -r file; do \
	    case $$file in \
	        python/*) rm -f '$(package)'/"$$file" ;; \
	        docs/man/*) rm -f '$(man)'/man"$${file##*.}/$${file#docs/man/}" ;; \
	        lib/pkgconfig/rokdaum.pc | lib/cmake/rokdaum/*.cmake | lib/librokdaum.a | lib/librokdaum.so.* | lib/$(hwcaps)/*) rm -f '$(root)'/"$$file" ;; \
	        *) rm -f '$(doc)'/"$$file" ;; \
	    esac; \
	done
	rm -f '$(doc)/SHA256SUMS' '$(completion)/dsp_console' '$(completion)/gateway_console' '$(root)/include/rokdaum.h' '$(root)/lib/librokdaum.so' '$(root)/lib/$(soname)' '$(root)/lib/$(hwcaps)/$(soname)'
	for one in $(programs) $(commands); do rm -f '$(root)/bin/'$$one; done
	@[ -z '$(PYTHONDIR)' ] || [ ! -L '$(DESTDIR)$(PYTHONDIR)/rokdaum' ] || rm '$(DESTDIR)$(PYTHONDIR)/rokdaum'
	@find '$(package)' -depth -name __pycache__ -exec rm -rf {} +
	@[ ! -d '$(root)/lib/glibc-hwcaps' ] || find '$(root)/lib/glibc-hwcaps' -depth -type d -exec rmdir --ignore-fail-on-non-empty {} +
	@find '$(doc)' '$(package)' '$(root)/lib/cmake/rokdaum' -depth -type d -exec rmdir --ignore-fail-on-non-empty {} +
