# Thin over rt: proves, builds and installs. `make help` says what there is. No step needs the network.
.NOTPARALLEL:
.DELETE_ON_ERROR:
.SUFFIXES:

PREFIX ?= /usr/local
DESTDIR ?=
BINDIR ?= $(PREFIX)/bin
INCLUDEDIR ?= $(PREFIX)/include
LIBDIR ?= $(PREFIX)/lib
MANDIR ?= $(PREFIX)/share/man
DOCDIR ?= $(PREFIX)/share/doc/dhcpopt

version := $(shell packaging/version)
libraries := $(sort $(filter-out %_c,$(filter dhcpopt_%,$(notdir $(wildcard crates/dhcpopt_*)))))
programs := list_options report_captures
scripts := take-messages make-captures
pages := $(patsubst man/%.in,%,$(wildcard man/*.in))

proved := $(libraries:%=target/staticlib/lib%.a)
linked := $(programs:%=target/bin/%)
archives := $(libraries:%=target/dist/lib/lib%.a) target/dist/lib/libdhcpopt.a
delivered := $(archives) $(programs:%=target/dist/bin/%) $(scripts:%=target/dist/bin/%) $(pages:%=target/dist/man/%)
folders = PREFIX='$(PREFIX)' BINDIR='$(BINDIR)' INCLUDEDIR='$(INCLUDEDIR)' LIBDIR='$(LIBDIR)' MANDIR='$(MANDIR)' DOCDIR='$(DOCDIR)'
files = LIBRARIES='$(libraries)' PROGRAMS='$(programs) $(scripts)' $(folders) packaging/files

.PHONY: all help test check install uninstall deb clean

all: $(delivered)

help:
	@echo "dhcpopt $(version)"
	@echo "make            archives, programs and manual pages, in target/dist; proved first, some ten minutes on two processors"
	@echo "make test       the gate of proofs, .ci/run: some 35 minutes"
	@echo "make check      what no proof reaches, tests/run: some 10 minutes"
	@echo "make install    into PREFIX (now $(PREFIX)), below DESTDIR; also BINDIR, INCLUDEDIR, LIBDIR, MANDIR, DOCDIR"
	@echo "make uninstall  takes the same files away"
	@echo "make deb        Debian packages, in target/deb"
	@echo "make clean      takes target/dist and target/deb away, and leaves what is proved"

# rt proves before it writes. What it has proved, and what has not changed since, it does not prove again.
define proves
$(1): packaging/build $(shell packaging/sources $(2))
	@echo "dhcpopt $(version): proves and writes $(1) (packaging/build $(2)): minutes the first time, up to one after that"
	@mkdir -p target/make
	@packaging/build $(2) >target/make/$(2).log 2>&1 || { tail -n 20 target/make/$(2).log; echo "failed: packaging/build $(2): target/make/$(2).log"; exit 1; }
	@touch $(1)
endef
$(foreach name,$(libraries),$(eval $(call proves,target/staticlib/lib$(name).a,$(name))))
$(foreach name,$(programs),$(eval $(call proves,target/bin/$(name),$(name))))

# What is installed, in target/dist: seconds.
target/dist/lib/libdhcpopt_%.a: target/staticlib/libdhcpopt_%.a include/dhcpopt.h packaging/archive
	@echo "the version into $@"
	@mkdir -p $(@D)
	@packaging/archive $@ $<

target/dist/lib/libdhcpopt.a: $(proved) include/dhcpopt.h packaging/archive
	@echo "one archive of all: $@"
	@mkdir -p $(@D)
	@packaging/archive $@ $(proved)

$(programs:%=target/dist/bin/%): target/dist/bin/%: target/bin/% include/dhcpopt.h packaging/program packaging/version
	@mkdir -p $(@D)
	@packaging/program $< $@

$(scripts:%=target/dist/bin/%): target/dist/bin/%: examples/%
	@mkdir -p $(@D)
	@cp $< $@

$(pages:%=target/dist/man/%): target/dist/man/%: man/%.in include/dhcpopt.h packaging/manual packaging/header.awk $(proved) $(linked) examples/lease_time.c
	@echo "the manual page $@"
	@mkdir -p $(@D)
	@packaging/manual $< $@

test:
	.ci/run

check:
	tests/run

install: all
	@$(files) | $(folders) packaging/install '$(DESTDIR)'
	@echo "installed: dhcpopt $(version), $$($(files) | wc -l) files, in $(DESTDIR)$(PREFIX)"

uninstall:
	@$(files) | while read -r _ _ _ to; do rm -f "$(DESTDIR)$$to"; done
	@echo "taken away: dhcpopt $(version), from $(DESTDIR)$(PREFIX)"

# The owner has named no maintainer: give one by MAINTAINER='Name <address>'.
MAINTAINER ?= The owner of dhcpopt <owner@dhcpopt.invalid>
debian := PREFIX=/usr BINDIR=/usr/bin INCLUDEDIR=/usr/include LIBDIR=/usr/lib/x86_64-linux-gnu MANDIR=/usr/share/man DOCDIR=/usr/share/doc/dhcpopt

deb: all
	@rm -rf target/deb && mkdir -p target/deb
	@$(MAKE) --no-print-directory install $(debian) DESTDIR=target/deb/root >target/deb/log
	@LIBRARIES='$(libraries)' PROGRAMS='$(programs) $(scripts)' $(debian) packaging/files >target/deb/files
	@MAINTAINER='$(MAINTAINER)' packaging/deb target/deb

clean:
	rm -rf target/dist target/deb
