# kalah: an exact solver of small positions of Kalah, proved.

PREFIX ?= /usr/local
# How many processors a check may use: by default all of them, but at most one for each 2 GB of memory.
JOBS ?= $(shell awk -v all="$$(nproc)" '/^MemTotal/ { some = int($$2 / 2000000); print some < 1 ? 1 : some < all ? some : all }' /proc/meminfo)

.PHONY: all help try check test exhaust test-web test-peer install uninstall dist deb wheel bench clean

# Ends a recipe that needs the toolchain, if it is missing.
NEEDS_RT = $(if $(shell command -v rt 2> /dev/null),,$(error `make $@` needs `rt`, the command of the Rattle toolchain (README.md, "Build and test")))

# Proves the program and all that it depends on, and builds ./kalah.
all: kalah

kalah: FORCE
	$(NEEDS_RT)
	JOBS=$(JOBS) packaging/build

FORCE:

# Lists what can be made.
help:
	@awk '/^# / { text = text " " substr($$0, 3); next } /^[a-z-]+:/ && text { target = $$1; sub(/:.*/, "", target); sub(/\. .*/, ".", text); \
		printf "make %-10s%s\n", target, text } { text = "" }' Makefile

# Gives a first answer, before the proofs. It compiles the program with the toolchain's run-time checks, and runs it on a position and on a file.
try:
	$(NEEDS_RT)
	@packaging/try

# Proves and tests what has changed, over the results that earlier checks kept. With CRATES=.. it stops after these crates.
check:
	$(NEEDS_RT)
	JOBS=$(JOBS) tests/check $(CRATES)

# Runs the test suite. That is every proof, from nothing unless an earlier run here did it, the tests and the program's stored run; and, over
# what that has built, seeded mistakes that the prover must refuse, refused memory, the steps by which threads wait, and random trials. At
# the end it prints the time of each stage.
test:
	$(NEEDS_RT)
	tests/suite

# Compares the program with the values of all 42 million positions of up to 15 seeds, in some 15 minutes of processor.
exhaust: kalah
	tests/exhaust --program kalah

# Plays on the page of `python3 -m kalah web` in a browser, and leaves pictures of it in out/. It needs Chromium, and says so if there is none.
test-web: kalah
	tests/web --program kalah --screenshots out

# Compares the program with Debian's package mancala, and grades the engine of that. It needs apt and the network.
test-peer: kalah
	tests/peer --program kalah

# The files that are installed, and the folder of pages, examples and licences.
INSTALLED = bin/kalah share/man/man1/kalah.1 share/bash-completion/completions/kalah share/zsh/site-functions/_kalah \
	share/fish/vendor_completions.d/kalah.fish
PAGES = share/doc/kalah
# The folder of the Python package: Debian's python3 looks there if PREFIX is /usr, any other if PYTHONPATH names it.
PYTHON_PACKAGES = lib/python3/dist-packages

# Installs the program as `make` built it, its manual page, the completions for bash, zsh and fish, the Python package, and
# its pages. It needs no prover.
install:
	@test -x kalah || { echo 'make install: there is no ./kalah yet: `make` builds it, with `rt` of the Rattle toolchain' >&2; exit 1; }
	install -d $(addprefix $(DESTDIR)$(PREFIX)/,$(dir $(INSTALLED)) $(PAGES)/docs $(PAGES)/examples)
	install -d $(addprefix $(DESTDIR)$(PREFIX)/$(PYTHON_PACKAGES)/,kalah kalah/tools kalah/web)
	install -m 755 kalah $(DESTDIR)$(PREFIX)/bin/kalah
	install -m 644 docs/kalah.1 $(DESTDIR)$(PREFIX)/share/man/man1/kalah.1
	install -m 644 completions/kalah.bash $(DESTDIR)$(PREFIX)/share/bash-completion/completions/kalah
	install -m 644 completions/kalah.zsh $(DESTDIR)$(PREFIX)/share/zsh/site-functions/_kalah
	install -m 644 completions/kalah.fish $(DESTDIR)$(PREFIX)/share/fish/vendor_completions.d/kalah.fish
	install -m 644 packaging/copyright LICENSE-APACHE LICENSE-MIT $(DESTDIR)$(PREFIX)/$(PAGES)
	install -m 644 packaging/installed-README.md $(DESTDIR)$(PREFIX)/$(PAGES)/README.md
	install -m 644 docs/*.md docs/growth.svg $(DESTDIR)$(PREFIX)/$(PAGES)/docs
	install -m 644 $(wildcard examples/*.*) $(DESTDIR)$(PREFIX)/$(PAGES)/examples
	install -m 644 $(wildcard python/kalah/*.*) $(DESTDIR)$(PREFIX)/$(PYTHON_PACKAGES)/kalah
	install -m 644 $(wildcard python/kalah/tools/*.*) $(DESTDIR)$(PREFIX)/$(PYTHON_PACKAGES)/kalah/tools
	install -m 644 $(wildcard python/kalah/web/*.*) $(DESTDIR)$(PREFIX)/$(PYTHON_PACKAGES)/kalah/web

# Removes what `make install` has installed.
uninstall:
	rm -f $(addprefix $(DESTDIR)$(PREFIX)/,$(INSTALLED))
	rm -rf $(DESTDIR)$(PREFIX)/$(PAGES) $(DESTDIR)$(PREFIX)/$(PYTHON_PACKAGES)/kalah

# Packs the program as `make` built it for machines without the toolchain: an archive in dist/.
dist:
	@packaging/pack tar

# Packs it for Debian.
deb:
	@packaging/pack deb

# Packs it for Python, as a wheel with the Python package.
wheel:
	@packaging/pack wheel

# Measures how long the program takes on the position files of bench/, and how many instructions.
bench: kalah
	bench/run.sh ./kalah

# Removes what was built, proved and packed.
clean:
	rm -rf kalah dist out crates/*/out crates/kalah_cli/*.txt
