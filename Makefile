# `make` alone lists the targets.
prefix ?= /usr/local
PREFIX ?= $(prefix)
# A folder in front of PREFIX, for those who make packages; installed files don't name it.
DESTDIR ?=
PROGRAMS ?= $(patsubst crates/%_main,%,$(wildcard crates/*_main))
# The processors that programs are built for: those with AVX2 if this is one; CPU= stands for any x86-64.
CPU := $(shell grep -qw avx2 /proc/cpuinfo 2>/dev/null && echo x86-64-v3)
# The command by which files are copied and removed again, if that needs another user.
SUDO ?=
TO = '$(DESTDIR)' '$(PREFIX)'

ifeq ($(strip $(PREFIX)),)
$(error PREFIX is empty: name the folder to install into, as in PREFIX=/usr)
endif

.PHONY: help demo test build install uninstall deb check toolchain

help:
	@echo 'make demo                    makes an observation, finds its pulses and folds them, in a minute or two'
	@echo 'make test                    the gate: every proof, must-fail edit, test and program'
	@echo 'make install PREFIX=DIR      proves, builds and installs $(PROGRAMS) (PREFIX: $(PREFIX))'
	@echo '     PROGRAMS=psr_search     some programs alone; SUDO=sudo: who copies; CPU=: for any x86-64 processor'
	@echo '     DESTDIR=ROOT            into ROOT/PREFIX, to make a package of it'
	@echo 'make uninstall PREFIX=DIR    removes what that put there'
	@echo 'make deb                     the same as a Debian package, in out/; CPU=: for any x86-64 processor'
	@echo 'make check                   tries together the programs that were last built here; PREFIX=DIR: those there'

toolchain:
	@command -v rt >/dev/null || { echo 'this needs rt, the command of the Rattle toolchain, on the PATH' >&2; exit 1; }

demo: toolchain
	@packaging/demo

test: toolchain
	@.ci/run

build: toolchain
	@CPU='$(CPU)' packaging/build $(PROGRAMS)

install: toolchain
	@$(if $(SUDO),,packaging/copy --try $(TO))
	@CPU='$(CPU)' packaging/build $(PROGRAMS)
	@$(SUDO) packaging/copy $(TO) $(PROGRAMS)

uninstall:
	@$(SUDO) packaging/remove $(TO)

deb: build
	@CPU='$(CPU)' packaging/deb $(PROGRAMS)

check:
	@tests/check.sh $(if $(filter-out file undefined,$(origin PREFIX) $(origin prefix)),'$(DESTDIR)$(PREFIX)/bin')
