# `make run` runs a script through the program, proving and building it first; `make test` is the gate (docs/GATE.md).
# `make unproved` leaves a program without proofs and prints its path; `make try` runs a script through such a program.
# `make check`, `make rows`, `make docs` and `make fmt` are for a change in progress (CONTRIBUTING.md).
# `make install` and `make dist` take the proved program and library; PROGRAM and LIBRARY name others that are built already.
# `make mount DIR=path` proves and builds the program and serves a folder by it, until it is unmounted or a signal comes.

SCRIPT ?= tests/rows/stat-of-root.script

.PHONY: run try unproved test build mount watch vectors lib install uninstall dist dist-tests bench explore explore-servers drive-tests watch-tests watch-times wrong-bodies check rows docs fmt

run: build
	@crates/fuseworld/out/fuseworld run "$(SCRIPT)"

# `rt try` builds the program anew each time, and ends with the program's own status.
try:
	@script=$$(realpath -- "$(SCRIPT)") && cd crates/fuseworld && rt try -- run "$$script"; status=$$?; \
		echo "Built without proofs: nothing was proved in this run." >&2; exit $$status

# The program without proofs. It is slow, and what proofs would rule out stops it.
unproved:
	@python3 tests/unproved.py

# `rt run` builds only to run: here an empty script. Each crate that is proved has a line; from nothing that takes long.
build:
	@cd crates/fuseworld && python3 ../../tests/proving.py rt run -- run /dev/null

# ARGS has further words for the command `serve`.
mount: build
	@cc -O2 -Wall -Wextra -o crates/fuseworld/out/mount examples/mount.c
	@crates/fuseworld/out/mount "$(DIR)" crates/fuseworld/out/fuseworld $(ARGS)

# A mount by a server of your own, which SERVER runs with the word MOUNT in the place of its mount point: what Linux and it
# say is judged as it goes, until the mount or the server ends. ARGS has further words for examples/watch.
watch: build
	@cc -O1 -Wall -Wextra -o crates/fuseworld/out/watch examples/watch/watch.c -pthread
	@crates/fuseworld/out/watch $(ARGS) "$(DIR)" -- $(SERVER) | crates/fuseworld/out/fuseworld check

# The codec's verdict on frames of each kind, a JSON object a line.
vectors: build
	@crates/fuseworld/out/fuseworld vectors > vectors.jsonl && echo "$$(wc -l < vectors.jsonl) vectors in vectors.jsonl"

PREFIX ?= /usr/local

# The codec as a library for C, proved and built: an archive, a shared object, and what pkg-config reads. LIBRARY names an
# archive that is built already.
CODEC = crates/fuseworld_codec/out
CODEC_VERSION = 1.0.0
SHARED = libfuseworld_codec.so
ARCHIVE = $(or $(LIBRARY),$(CODEC)/libfuseworld_codec.a)

lib:
	@mkdir -p $(CODEC)
	@[ -n "$(LIBRARY)" ] || { cd crates/fuseworld_codec && python3 ../../tests/proving.py rt lib; }
	@cc -shared -o $(CODEC)/$(SHARED).$(CODEC_VERSION) -Wl,-soname,$(SHARED).1 \
		-Wl,--whole-archive $(ARCHIVE) -Wl,--no-whole-archive
	@ln -sf $(SHARED).$(CODEC_VERSION) $(CODEC)/$(SHARED).1
	@ln -sf $(SHARED).1 $(CODEC)/$(SHARED)
	@printf '%s\n' 'prefix=$${pcfiledir}/../..' 'libdir=$${prefix}/lib' 'includedir=$${prefix}/include' '' 'Name: fuseworld' \
		'Description: Frames of FUSE 7.31 and 7.15, read and written, with proofs' 'Version: $(CODEC_VERSION)' \
		'Libs: -L$${libdir} -lfuseworld_codec' 'Cflags: -I$${includedir}' > $(CODEC)/fuseworld.pc
	@echo "$(ARCHIVE); in $(CODEC) $(SHARED) and fuseworld.pc"

# The program, its man pages, completions and documents, the examples as sources, and the library with its header, below
# PREFIX; DESTDIR goes in front. PROGRAM names a program that is built already.
INSTALL ?= install
BUILT = $(or $(PROGRAM),crates/fuseworld/out/fuseworld)
BIN = $(DESTDIR)$(PREFIX)/bin
SHARE = $(DESTDIR)$(PREFIX)/share
LIB = $(DESTDIR)$(PREFIX)/lib
DOC = $(SHARE)/doc/fuseworld

install: $(if $(PROGRAM),,build) lib
	$(INSTALL) -D -m 755 "$(BUILT)" "$(BIN)/fuseworld"
	$(INSTALL) -D -m 644 -t "$(SHARE)/man/man1" man/*.1
	$(INSTALL) -D -m 644 -t "$(SHARE)/man/man5" man/*.5
	$(INSTALL) -D -m 644 completions/fuseworld.bash "$(SHARE)/bash-completion/completions/fuseworld"
	$(INSTALL) -D -m 644 completions/_fuseworld "$(SHARE)/zsh/site-functions/_fuseworld"
	$(INSTALL) -D -m 644 completions/fuseworld.fish "$(SHARE)/fish/vendor_completions.d/fuseworld.fish"
	$(INSTALL) -D -m 644 -t "$(DOC)" *.md LICENSE-*
	$(INSTALL) -D -m 644 -t "$(DOC)/docs" docs/*
	for file in $$(find examples -type f ! -path '*/__pycache__/*' ! -path '*/target/*' ! -name Cargo.lock); do \
		$(INSTALL) -D -m 644 "$$file" "$(DOC)/$$file" || exit 1; done
	$(INSTALL) -D -m 644 include/fuseworld.h "$(DESTDIR)$(PREFIX)/include/fuseworld.h"
	$(INSTALL) -D -m 644 "$(ARCHIVE)" "$(LIB)/libfuseworld_codec.a"
	$(INSTALL) -D -m 755 $(CODEC)/$(SHARED).$(CODEC_VERSION) "$(LIB)/$(SHARED).$(CODEC_VERSION)"
	ln -sf $(SHARED).$(CODEC_VERSION) "$(LIB)/$(SHARED).1"
	ln -sf $(SHARED).1 "$(LIB)/$(SHARED)"
	$(INSTALL) -D -m 644 $(CODEC)/fuseworld.pc "$(LIB)/pkgconfig/fuseworld.pc"

uninstall:
	rm -f "$(BIN)/fuseworld" "$(SHARE)/man/man1/fuseworld.1" "$(SHARE)"/man/man5/fuseworld-*.5 \
		"$(SHARE)/bash-completion/completions/fuseworld" \
		"$(SHARE)/zsh/site-functions/_fuseworld" "$(SHARE)/fish/vendor_completions.d/fuseworld.fish" \
		"$(DESTDIR)$(PREFIX)/include/fuseworld.h" "$(LIB)/libfuseworld_codec.a" "$(LIB)/$(SHARED)" "$(LIB)/$(SHARED).1" \
		"$(LIB)/$(SHARED).$(CODEC_VERSION)" "$(LIB)/pkgconfig/fuseworld.pc"
	rm -rf "$(DOC)"

# The packages for whoever has no toolchain, in dist/: an archive and a .deb. `make dist-tests` tries both in a Debian
# without the toolchain, for which it takes root, debootstrap and a mirror of Debian.
dist: $(if $(PROGRAM),,build) lib
	@sh packaging/make.sh "$(BUILT)" "$(ARCHIVE)"

dist-tests: dist
	@sh tests/try_package.sh

# What a line of a script costs, and how that grows with what the script lets grow; then what keys cost that a peer picks.
# ARGS has further words, as --beside FILE.
bench: build
	@python3 tests/bench.py $(ARGS)
	@python3 tests/colliding_keys.py

# The scripts of examples/drive, on the servers of others whose packages are there.
drive-tests: build
	@python3 tests/drive_servers.py

# Random events before `serve`, and before the same behind a peer that has one bug of counts.
explore: build
	@python3 tests/explore.py

explore-servers: build
	@python3 tests/explore_servers.py

# A small server on a watched mount, whose frames examples/watch writes down; one with each of 27 bugs; then servers of
# others whose packages are there, under load. ARGS has further words for tests/watch_servers.py.
watch-tests: build
	@sh tests/watch.sh
	@python3 tests/watch_bugs.py
	@python3 tests/watch_servers.py $(ARGS)

# What the watcher and the judge cost.
watch-times: build
	@python3 tests/watch_times.py

# Whether each wrong body of tests/wrong_bodies is refused; CRATES names the crates whose bodies are tried, or none for all.
wrong-bodies:
	@python3 tests/wrong_bodies.py $(CRATES)

# The developer's loop: one crate proved, the rows whose name has the word ROW (or all), the documents, and the layout of
# the crate CRATE, or of all crates.
check:
	@cd "crates/$(CRATE)" && rt check

rows: build
	@sh tests/run_rows.sh $(ROW)

docs:
	@python3 tests/check_docs.py
	@python3 tests/check_runs.py
	@python3 tests/test_rows.py --check
	@python3 tests/man_pages.py --check
	@if [ -x "$(BUILT)" ]; then FUSEWORLD="$(BUILT)" python3 tests/run_tutorial.py; else echo "skipped: their commands, as no program is built"; fi

fmt:
	@for crate in $(or $(CRATE),$(notdir $(wildcard crates/*))); do (cd "crates/$$crate" && rt fmt) || exit 1; done

# The gate's count is the last line again.
test:
	@python3 tests/check_docs.py
	@python3 tests/check_runs.py
	@python3 tests/test_rows.py --check
	@python3 tests/man_pages.py --check
	@log=$$(mktemp); rt ci > "$$log" 2>&1; status=$$?; cat "$$log"; \
		if [ $$status = 0 ]; then sh tests/run_rows.sh; status=$$?; fi; \
		if [ $$status = 0 ]; then sh tests/run_frames.sh; status=$$?; fi; \
		if [ $$status = 0 ]; then sh tests/run_check.sh; status=$$?; fi; \
		if [ $$status = 0 ]; then sh tests/check_mount.sh; status=$$?; fi; \
		if [ $$status = 0 ]; then sh tests/run_sides.sh; status=$$?; fi; \
		if [ $$status = 0 ]; then sh tests/run_draw.sh; status=$$?; fi; \
		if [ $$status = 0 ]; then python3 tests/run_tutorial.py; status=$$?; fi; \
		if [ $$status = 0 ]; then sh tests/protocol_sizes.sh; status=$$?; fi; \
		if [ $$status = 0 ]; then python3 tests/row_frames.py; status=$$?; fi; \
		if [ $$status = 0 ]; then python3 tests/colliding_keys.py; status=$$?; fi; \
		if [ $$status = 0 ]; then sh tests/codec_library.sh; status=$$?; fi; \
		if [ $$status = 0 ]; then python3 tests/check_commands.py; status=$$?; fi; \
		if [ $$status = 0 ]; then python3 tests/serve_frames.py; status=$$?; fi; \
		if [ $$status = 0 ]; then python3 tests/run_drive.py; status=$$?; fi; \
		if [ $$status = 0 ]; then python3 tests/orders.py; status=$$?; fi; \
		if [ $$status = 0 ]; then sh tests/real_mount.sh; status=$$?; fi; \
		tail -n 1 "$$log"; rm -f "$$log"; exit $$status
