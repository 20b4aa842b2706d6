# Builds, installs and tests winnathey, by the scripts in packaging/ and .ci/.
PREFIX = /usr/local
DESTDIR =
# A text as one word for the shell, whatever it has in it.
quoted = '$(subst ','\'',$(1))'

all: ## proves the library, builds it for every target, the command and the page
	@packaging/build

install: ## installs what was built, below PREFIX, with DESTDIR before it
	@packaging/install --prefix $(call quoted,$(PREFIX)) --destdir $(call quoted,$(DESTDIR))

uninstall: ## removes what was installed there, and nothing else
	@packaging/install --prefix $(call quoted,$(PREFIX)) --destdir $(call quoted,$(DESTDIR)) --remove

packages: ## writes every package to target/package
	@packaging/package

check: ## the gate: proves everything and runs every test
	@.ci/run

help: ## this text
	@sed -n 's/^\([a-z]*\):.*## /make \1\t/p' Makefile | expand -t 16
	@echo PREFIX is $(call quoted,$(PREFIX))"; 'make install PREFIX=~/.local' needs no root."

.PHONY: all install uninstall packages check help
