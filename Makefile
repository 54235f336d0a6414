# snapc: a verified SNAP compiler and simulator. `make help` lists what can be made; each target's line begins with #:.
PREFIX ?= /usr/local
JOBS ?= $(shell nproc)
SOURCES = crates.txt $(shell find crates -name out -prune -o \( -name '*.rt' -o -name '*.antt' \) ! -path '*_tests/*' -print)
CODE = $(filter-out %.antt,$(SOURCES))

.PHONY: all run check test install install-unproved uninstall dist pictures html clean help
.DELETE_ON_ERROR:

# What proves or builds begins with this.
need_kit = @command -v rt > /dev/null || { echo "Rattle's kit isn't there: rt must be on the path"; exit 1; }

#: make                    proves snapc and builds bin/snapc; JOBS=N: N crates side by side, or else one for each processor
all: bin/snapc

bin/snapc: $(SOURCES)
	$(need_kit)
	tools/prove $(JOBS)
	mkdir -p bin
	install -m 755 crates/snapc/out/snapc bin/snapc

#: make run                in minutes: builds bin/snapc-unproved, compiled and not proved, and shows the main job with it
# Where a kit doesn't let the program be built so, tools/run has the kit run it.
run:
	-@$(MAKE) --no-print-directory bin/snapc-unproved
	@tools/run bin/snapc-unproved

bin/snapc-unproved: $(CODE) tools/build-unproved
	$(need_kit)
	mkdir -p bin
	tools/build-unproved $@

#: make check              in minutes: all that runs, with bin/snapc-unproved; JOBS=N: N checks side by side
check: bin/snapc-unproved
	JOBS=$(JOBS) tools/check bin/snapc-unproved

#: make test               the gate: all proofs, tests and must-fail edits, then the list of make check, with bin/snapc
test:
	$(need_kit)
	rt ci
	mkdir -p bin
	install -m 755 crates/snapc/out/snapc bin/snapc
	JOBS=$(JOBS) tools/check bin/snapc

# tools/install knows what goes where. Nothing is built or proved here, so that it may run under sudo.
# Words: the built program, and what builds it.
define install_it
	@test -f $(1) || { echo '$(1) is not there: $(2) builds it'; exit 1; }
	tools/install $(1) $(DESTDIR)$(PREFIX)
endef

#: make install            installs bin/snapc, man page, completions and tools under DESTDIR and PREFIX=/usr/local
install:
	$(call install_it,bin/snapc,make)

#: make install-unproved   the same with bin/snapc-unproved, as snapc
install-unproved:
	$(call install_it,bin/snapc-unproved,make run)

#: make uninstall          removes what was installed
uninstall:
	tools/install --remove $(DESTDIR)$(PREFIX)

#: make dist               makes a tarball and a Debian package of bin/snapc, in dist/
dist:
	@test -f bin/snapc || { echo 'bin/snapc is not there: make builds it'; exit 1; }
	@tools/dist bin/snapc dist

#: make pictures           draws the pictures of docs/GALLERY.md anew, with bin/snapc and Graphviz's dot
pictures:
	tools/pictures bin/snapc

#: make html               makes the pages a site in out/html, by pandoc
html:
	tools/html out/html

#: make clean              removes what was built and what is kept of proofs
clean:
	rm -rf bin dist out crates/*/out

#: make help               this list
help:
	@sed -n 's/^#: //p' Makefile
