# make install: puts opcplan, opcplan-plan, man pages, completion and pages below PREFIX, in DESTDIR if it is given.
# make uninstall, with the same words: takes them away. make deb: makes a Debian package in the folder out/.
# The program is the one in release/; ./opcplan proves and builds sources that are no longer those of the release.
# make test: runs the worked streams, the examples of the pages and the tests of ./plan over the program in release/,
# some five minutes on four cores. It needs Python and sqlite3, and no kit; tests that lack another package are skipped.
# make gate: proves everything and runs all tests, 70 to 90 minutes on four cores. It needs the Rattle kit.
PREFIX = /usr/local
DESTDIR =
PYTHON = /usr/bin/env python3
ZSH = share/zsh/site-functions
WORDS = --prefix '$(PREFIX)' --destdir '$(DESTDIR)'

help:
	@sed -n 's/^# //p' Makefile

install:
	@tools/package/install $(WORDS) --python '$(PYTHON)' --zsh '$(ZSH)'

uninstall:
	@tools/package/install $(WORDS) --remove

deb:
	@tools/package/deb out

test:
	@failed=0; \
	tools/gate/worked-streams || failed=1; \
	tools/gate/guide-examples release/opcplan || failed=1; \
	OPCPLAN='$(CURDIR)/release/opcplan' tools/gate/plan-commands || failed=1; \
	exit $$failed

gate:
	@.ci/run

.PHONY: help install uninstall deb test gate
