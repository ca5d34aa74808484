.PHONY: try demo test build install uninstall deb package check strength refusals beside program pages kill9 memory clients journal renumber gateway fuzz bench

PREFIX = /usr/local
DESTDIR =

# To look at: the whole program without a proof, as out/try/office, a store with the day of examples/day, and how to serve it. Some
# four minutes of one processor.
try:
	@scripts/try

# The main job on a real interchange, by a build that proves nothing (`make build` leaves the proved program).
demo:
	@echo "(an unproved build: 'make build' leaves the proved one)"
	@scripts/demo

# The gate: every proof, the edits that must fail, every test, the program as two compilers build it, and that
# program beside a plain slow model.
test:
	scripts/gate

# The proved program, as crates/office/out/office, which then answers the example: an hour or two. Proofs are kept, so that the
# next build proves what has changed.
build:
	@scripts/build

# The proved program with its manual page, completions and a unit of systemd, once it is built:
# `make install PREFIX=/usr/local DESTDIR=`.
install:
	@scripts/install "$(PREFIX)" "$(DESTDIR)"

uninstall:
	@scripts/install --remove "$(PREFIX)" "$(DESTDIR)"

# The same as a package of Debian 12, out/office_VERSION_ARCHITECTURE.deb, once it is built.
deb:
	@scripts/package

# The manual page and the completions beside what `--help` prints, and the package in a clean root of Debian 12: as root, once it is
# built, some minutes.
package:
	scripts/manual --try $(or $(OFFICE),crates/office/out/office)
	scripts/package --try

# One crate, and those above it that its change reaches, over the proofs that are kept: `make check NAME=yard_core`.
check:
	@scripts/check $(NAME)

# The planted edits, which the gate does not try: `make strength` or `make strength NAME=yard_core`.
strength:
	scripts/strength $(NAME)

# The orders of a terminal with each allocation refused in turn: some twenty minutes.
refusals:
	scripts/refusals

# The program beside a plain slow model, on the worked rows, changed stores and random streams: a minute or two, once it is
# built.
beside:
	scripts/beside

# What the program prints, tells and ends with, on files of its own: once it is built.
program:
	scripts/program

# The pages that the program serves, and the picture of the yard, in Debian's Chromium without a window, beside the model: a walk
# over each kind of link, numbers typed into the form, how all of it looks. Once it is built, some minutes.
pages:
	scripts/pages

# The program killed 1,000 times while deliveries are under way, and killed or refused at each call of the system; what a loss
# of power may leave; no room, files that are read-only or gone, two on one store, single bits turned over. Beside the model:
# once it is built.
kill9:
	scripts/kill9

# The program with each allocation refused in turn, beside the model: once it is built.
memory:
	scripts/memory

# Real clients against `office serve`, curl, sockets and a browser, kind ones and others: once it is built, a minute or two.
clients:
	scripts/clients

# Offices that are rebuilt of another one's texts or follow it, with kills of either, stores of old versions and restore drills,
# beside the model: once it is built. `make journal` or `make journal COUNT=5 SEED=7`.
journal:
	scripts/journal $(or $(COUNT),60) $(SEED)

# examples/renumber beside the program, killed at each line and at random: once it is built, some minutes.
renumber:
	scripts/renumber

# The gateway of examples/gateway with nginx, HAProxy, OpenSSL and curl before the program, beside the model: once it is built.
gateway:
	scripts/gateway

# A million mutated inputs beside the model, in rounds: `make fuzz` or `make fuzz COUNT=1000 SEED=7`. Once it is built.
fuzz:
	scripts/fuzz $(or $(COUNT),1000000) $(SEED)

# What the office costs, in one table, with a plain C program over libsqlite3 beside it.
bench: build
	bench/bench
