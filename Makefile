# SPDX-License-Identifier: Apache-2.0 OR MIT
# `make install PREFIX=/usr/local`: the proved program, the scripts beside it, their manual pages, completion and editors' files.
# `make install-library`, `make install-pack`, `make install-chain`: the library for C, with the compiler of 3D texts, and the walk along
# a virtqueue's chains (capi/Makefile).
# What is proved and built before: `./td` (crates/td/out/td), and `./tdc` (crates/tdc/out/tdc), which is installed if it is there; `rt lib`
# in crates/td_c, crates/td_c_pack and crates/td_c_chain.
PREFIX = /usr/local
DESTDIR =
bindir = $(PREFIX)/bin
libdir = $(PREFIX)/lib
datadir = $(PREFIX)/share
mandir = $(datadir)/man
VERSION := $(shell cat VERSION)
PROGRAM = crates/td/out/td
WRITER = crates/tdc/out/tdc
# The wrappers of the two programs.
WRAPPERS = td tdc
SCRIPTS = td-c td-check td-draw td-explain td-fields td-header td-image td-job td-json td-link td-lint td-run td-second td-test td-why
# What the scripts read, beside themselves.
FILES = VERSION LICENSE docs/report.schema.json
FOLDERS = tools checks/lib/reference errors docs/language
AT = $(DESTDIR)$(libdir)/td
DOCS = README.md LICENSE CHANGELOG.md
CAPI = $(MAKE) -C capi PREFIX=$(PREFIX) DESTDIR=$(DESTDIR) libdir=$(libdir) mandir=$(mandir)

.PHONY: install install-scripts install-library install-pack install-chain uninstall
install: $(PROGRAM) install-scripts
	install -d $(AT)/libexec
	install -m 755 $(PROGRAM) $(AT)/libexec/td
	@if [ -x $(WRITER) ]; then install -m 755 $(WRITER) $(AT)/libexec/tdc; else echo "$(WRITER) isn't built: run ./tdc c x </dev/null first, if you want tdc" >&2; fi

# The scripts alone; td-second answers in the program's place (TD=td-second).
install-scripts:
	install -d $(AT) $(DESTDIR)$(bindir) $(DESTDIR)$(mandir)/man1 $(DESTDIR)$(datadir)/doc/td $(DESTDIR)$(datadir)/td
	install -d $(DESTDIR)$(datadir)/bash-completion/completions
	for folder in $(FOLDERS); do \
	  find $$folder -name __pycache__ -prune -o -type f -exec install -D -m 644 {} $(AT)/{} \; ; \
	done
	for name in instructions limits; do install -m 644 -D checks/lib/$$name.py $(AT)/checks/lib/$$name.py; done
	for file in $(FILES); do install -m 644 -D $$file $(AT)/$$file; done
	for name in $(WRAPPERS) $(SCRIPTS); do \
	  install -m 755 $$name $(AT)/$$name && ln -sf ../$(notdir $(libdir))/td/$$name $(DESTDIR)$(bindir)/$$name; \
	done
	install -m 644 man/td.1 man/tdc.1 man/td-scripts.1 $(DESTDIR)$(mandir)/man1
	for name in $(SCRIPTS); do echo ".so man1/td-scripts.1" >$(DESTDIR)$(mandir)/man1/$$name.1; done
	install -m 644 editors/bash/td $(DESTDIR)$(datadir)/bash-completion/completions/td
	cp -R editors $(DESTDIR)$(datadir)/td/
	install -m 644 $(DOCS) $(DESTDIR)$(datadir)/doc/td

install-library:
	$(CAPI) install

install-pack:
	$(CAPI) install install-pack

install-chain:
	$(CAPI) install-chain

$(PROGRAM):
	@echo "$@ isn't built: run ./td check </dev/null first, or make install-scripts" >&2; exit 1

uninstall:
	rm -rf $(AT) $(DESTDIR)$(datadir)/td $(DESTDIR)$(datadir)/doc/td
	for name in $(WRAPPERS) $(SCRIPTS); do rm -f $(DESTDIR)$(bindir)/$$name $(DESTDIR)$(mandir)/man1/$$name.1; done
	rm -f $(DESTDIR)$(mandir)/man1/td-scripts.1 $(DESTDIR)$(datadir)/bash-completion/completions/td
	$(CAPI) uninstall
