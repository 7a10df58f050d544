# What capvet does with a sample, all proofs and tests, what is installed, and how fast it is.
.PHONY: run build guard inspector install install-guard uninstall wheel dist check test prove gate plant allocations fuzz times bench

# Where things are installed. DESTDIR goes before each of these paths, and no installed file has it in its text.
PREFIX ?= /usr/local
bindir ?= $(PREFIX)/bin
libdir ?= $(PREFIX)/lib
includedir ?= $(PREFIX)/include
pkgconfigdir ?= $(libdir)/pkgconfig
cmakedir ?= $(libdir)/cmake/capvet
mandir ?= $(PREFIX)/share/man
completionsdir ?= $(PREFIX)/share/bash-completion/completions
zshdir ?= $(PREFIX)/share/zsh/site-functions
fishdir ?= $(PREFIX)/share/fish/vendor_completions.d
INSTALL ?= install

# What is proved and built, and the files that it is made from. Where build/ is newer, `rt` isn't needed to install.
SOURCES = crates.txt $(shell find crates -name out -prune -o \( -name '*.rt' -o -name '*.antt' \) -print)
BUILT_PROGRAM = build/capvet
BUILT_ARCHIVE = build/libcapvet.a

# The first line of a recipe that proves something: without `rt` it is the end, before anything is done. What installs says how cargo builds
# the same.
NEEDS_RT = $(if $(shell command -v rt),,$(error make $(MAKECMDGOALS) needs `rt` of Rattle's kit, which is not on the path: \
  docs/install.md says more, and has packages that need no `rt`$(if $(filter install guard install-guard wheel,$(MAKECMDGOALS)),$(BY_CARGO))))
BY_CARGO = . To install what cargo builds, tested and not proved, run `make plain`, and then make $(MAKECMDGOALS) \
  BUILT_PROGRAM=build/cargo/capvet BUILT_ARCHIVE=build/cargo/libcapvet.a
# The same for one that builds by cargo, or else by `rt`. (as Debian's superuser it installs cargo)
NEEDS_CARGO = $(if $(shell command -v rt || command -v cargo || { test "$$(id -u)" = 0 && command -v apt-get; }),,$(error \
  make $(or $(MAKECMDGOALS),run) needs cargo, or `rt` of Rattle's kit, and neither is on the path: docs/install.md says more))
# Whether the proved program is in build/ and no source is newer.
IS_CURRENT = $(shell $(MAKE) -sq '$(BUILT_PROGRAM)' 2> /dev/null && echo yes)

# The version of the calls, as their header has it.
VERSION = $(shell sed -n 's/^.define CAPVET_VERSION_[A-Z]* \([0-9]*\)$$/\1/p' include/capvet.h | paste -sd.)

# Shows what the program writes for a stream of four sample messages. It takes the proved program of build/ if that is current. Otherwise
# cargo builds the program from the same text. Without cargo `rt` builds it without a proof.
SHOWN = examples/stream-of-four.bin
run:
	$(if $(IS_CURRENT),,$(NEEDS_CARGO))
	@if test -n '$(IS_CURRENT)'; then '$(BUILT_PROGRAM)' vet $(SHOWN) && echo "This build is proved."; exit; fi; \
	if python3 packaging/by_cargo.py --can-build || ! command -v rt > /dev/null; then \
	  python3 packaging/by_cargo.py --install --program && build/cargo/capvet vet $(SHOWN) && \
	  echo "This build is the proved text without its contracts. 'make test' tests it, and 'make prove' proves it."; exit; fi; \
	folder=$$(mktemp -d) && trap 'rm -r "$$folder"' EXIT && cp $(SHOWN) "$$folder/vet" && echo vet > "$$folder/vet.args" && \
	cd crates/capvet && rt try --cases "$$folder" && echo "This build is not proved. 'make test' tests it, and 'make prove' proves it."

# Proves the program and the library, and builds both into build/. TARGET names other machines to build for as
# well, as in `make build TARGET=aarch64`: see packaging/targets.py.
build: build/capvet build/libcapvet.a
ifdef TARGET
	python3 packaging/targets.py $(TARGET)
endif

build/capvet build/libcapvet.a &: $(SOURCES)
	$(NEEDS_RT)
	python3 tools/prove.py --code

# Builds the proxy in front of services, in Go, by the libraries that Debian has as packages (docs/install.md names them). Nothing
# comes from a network: Debian's libraries are no modules, so `go` looks for all packages below folders. (CGO_LDFLAGS is
# something that the build cache of Go looks at, other than what pkg-config answers.) No file has the folder in it, so two
# builds give the same bytes. GUARD_FLAGS are further words for `go build`.
BUILT_GUARD = build/capvet-guard
GUARD_FLAGS ?=
GOCODE ?= /usr/share/gocode
GUARD_SOURCES = capvet.pc.in $(shell find guard bindings/go include -name '*.go' -o -name '*.h' 2> /dev/null)
define BUILD_GUARD
@folder=$$(mktemp -d) && trap 'rm -r "$$folder"' EXIT && mkdir -p "$$folder/src/capvet.invalid" "$$folder/lib" && \
cp -r bindings/go "$$folder/src/capvet.invalid/capvet" && cp -r guard "$$folder/src/capvet.invalid/guard" && \
cp -r include "$$folder/" && cp '$(BUILT_ARCHIVE)' "$$folder/lib/libcapvet.a" && \
sed -e "s|@prefix@|$$folder|; s|@libdir@|$$folder/lib|; s|@includedir@|$$folder/include|; s|@version@|$(VERSION)|" \
  capvet.pc.in > "$$folder/lib/capvet.pc" && \
to=$$(realpath -m '$(BUILT_GUARD)') && cd "$$folder/src/capvet.invalid/guard" && \
GO111MODULE=off GOFLAGS= GOPATH="$$folder:$(GOCODE)" PKG_CONFIG_PATH="$$folder/lib" CGO_LDFLAGS="-L$$folder/lib" \
go build -trimpath -ldflags '-s -w -buildid=' $(GUARD_FLAGS) -o "$$to" .
endef
guard: $(BUILT_ARCHIVE)
	$(BUILD_GUARD)
$(BUILT_GUARD): $(BUILT_ARCHIVE) $(GUARD_SOURCES)
	$(BUILD_GUARD)
# (without Go the end comes before the library is proved)
ifneq ($(filter guard install-guard,$(MAKECMDGOALS)),)
$(if $(shell command -v go)$(wildcard $(BUILT_GUARD)),,$(error make $(filter guard install-guard,$(MAKECMDGOALS)) needs `go`, \
  which is not on the path: docs/install.md names what else it needs))
endif

# Builds the page that shows messages: build/inspector.html, with the package for JavaScript and the module inside.
inspector: $(BUILT_ARCHIVE)
	$(NEEDS_RT)
	@python3 packaging/targets.py wasm
	python3 packaging/make_inspector.py

# What a description says about this installation. The package for CMake has its folders as paths from its own.
DESCRIBED = -e 's|@prefix@|$(PREFIX)|' -e 's|@libdir@|$(libdir)|' -e 's|@includedir@|$(includedir)|' \
  -e 's|@version@|$(VERSION)|' -e "s|@to_libdir@|$$(realpath -ms --relative-to='$(cmakedir)' '$(libdir)')|" \
  -e "s|@to_includedir@|$$(realpath -ms --relative-to='$(cmakedir)' '$(includedir)')|"
PC_FILES = capvet.pc capvet-kj.pc
CMAKE_FILES = capvetConfig.cmake capvetConfigVersion.cmake

# The headers for programs over libcapnp.
KJ_HEADERS = kj.h kj-message.h kj-stream.h kj-server.h

# The folders that files are put into.
FOLDERS = '$(DESTDIR)$(bindir)' '$(DESTDIR)$(mandir)/man1' '$(DESTDIR)$(mandir)/man3' '$(DESTDIR)$(completionsdir)' \
  '$(DESTDIR)$(zshdir)' '$(DESTDIR)$(fishdir)' '$(DESTDIR)$(includedir)/capvet' '$(DESTDIR)$(libdir)' \
  '$(DESTDIR)$(pkgconfigdir)' '$(DESTDIR)$(cmakedir)'
GUARD_FOLDERS = '$(DESTDIR)$(bindir)' '$(DESTDIR)$(mandir)/man1'
# Which of both targets is asked for, and the first of its folders that can't be made or written, by what is there of it. (then make
# ends before it proves anything)
INSTALLS = $(filter install install-guard,$(MAKECMDGOALS))
NO_FOLDER = $(shell for folder in $(if $(filter install,$(INSTALLS)),$(FOLDERS),$(GUARD_FOLDERS)); do \
  until test -e "$$folder"; do folder=$$(dirname "$$folder"); done; \
  test -d "$$folder" && test -w "$$folder" && test -x "$$folder" || { echo "$$folder"; break; }; done)
ifneq ($(INSTALLS),)
$(if $(filter /%,$(firstword $(PREFIX))),,$(error PREFIX has to be a path from /, and is '$(PREFIX)'))
$(if $(NO_FOLDER),$(error make $(INSTALLS) can write nothing into $(NO_FOLDER): name a folder of yours, as in make $(INSTALLS) PREFIX=$$HOME/x))
endif

# Puts the program and its completions under PREFIX, the library with its headers and what pkg-config and CMake want to
# know, and the manual pages of both; builds first what has a newer source.
install: $(BUILT_PROGRAM) $(BUILT_ARCHIVE)
	$(INSTALL) -d $(FOLDERS)
	$(INSTALL) -m 755 '$(BUILT_PROGRAM)' '$(DESTDIR)$(bindir)/capvet'
	$(INSTALL) -m 644 docs/capvet.1 '$(DESTDIR)$(mandir)/man1/capvet.1'
	$(INSTALL) -m 644 docs/capvet.3 '$(DESTDIR)$(mandir)/man3/capvet.3'
	$(INSTALL) -m 644 completions/capvet.bash '$(DESTDIR)$(completionsdir)/capvet'
	$(INSTALL) -m 644 completions/_capvet '$(DESTDIR)$(zshdir)/_capvet'
	$(INSTALL) -m 644 completions/capvet.fish '$(DESTDIR)$(fishdir)/capvet.fish'
	$(INSTALL) -m 644 include/capvet.h '$(DESTDIR)$(includedir)/capvet.h'
	for file in $(KJ_HEADERS); do $(INSTALL) -m 644 "include/capvet/$$file" '$(DESTDIR)$(includedir)/capvet/'"$$file" || exit 1; done
	$(INSTALL) -m 644 '$(BUILT_ARCHIVE)' '$(DESTDIR)$(libdir)/libcapvet.a'
	for file in $(PC_FILES); do sed $(DESCRIBED) "$$file.in" > '$(DESTDIR)$(pkgconfigdir)/'"$$file" || exit 1; done
	for file in $(CMAKE_FILES); do sed $(DESCRIBED) "cmake/$$file.in" > '$(DESTDIR)$(cmakedir)/'"$$file" || exit 1; done
	cd '$(DESTDIR)$(pkgconfigdir)' && chmod 644 $(PC_FILES)
	cd '$(DESTDIR)$(cmakedir)' && chmod 644 $(CMAKE_FILES)

# Puts the proxy and its manual page under PREFIX; builds first what has a newer source.
install-guard: $(BUILT_GUARD)
	$(INSTALL) -d $(GUARD_FOLDERS)
	$(INSTALL) -m 755 '$(BUILT_GUARD)' '$(DESTDIR)$(bindir)/capvet-guard'
	$(INSTALL) -m 644 docs/capvet-guard.1 '$(DESTDIR)$(mandir)/man1/capvet-guard.1'

# Takes away just these files, and leaves their folders.
uninstall:
	rm -f '$(DESTDIR)$(bindir)/capvet-guard' '$(DESTDIR)$(mandir)/man1/capvet-guard.1'
	rm -f '$(DESTDIR)$(bindir)/capvet' '$(DESTDIR)$(completionsdir)/capvet'
	rm -f '$(DESTDIR)$(zshdir)/_capvet' '$(DESTDIR)$(fishdir)/capvet.fish'
	rm -f '$(DESTDIR)$(mandir)/man1/capvet.1' '$(DESTDIR)$(mandir)/man3/capvet.3'
	rm -f '$(DESTDIR)$(includedir)/capvet.h' '$(DESTDIR)$(libdir)/libcapvet.a'
	for file in $(KJ_HEADERS); do rm -f '$(DESTDIR)$(includedir)/capvet/'"$$file"; done
	for file in $(PC_FILES); do rm -f '$(DESTDIR)$(pkgconfigdir)/'"$$file"; done
	for file in $(CMAKE_FILES); do rm -f '$(DESTDIR)$(cmakedir)/'"$$file"; done

# Packs all for users into dist/: see packaging/make_dist.py, and there DIST_FLAGS.
DIST_FLAGS ?=
dist: $(BUILT_PROGRAM) $(BUILT_ARCHIVE)
	$(NEEDS_RT)
	python3 packaging/make_dist.py $(DIST_FLAGS)

# Builds the wheel of the package for Python, with the archive linked in, and with the inspector where esbuild is. It takes cffi, setuptools and wheel from the first
# interpreter that has them, and nothing from a network. (pip builds a copy, so the sources stay as they are)
wheeldir ?= build
wheel: $(BUILT_ARCHIVE)
	@python=$$(for it in /usr/bin/python3 python3; do $$it -c 'import cffi, setuptools, wheel' 2> /dev/null && echo $$it && break; done); \
	test -n "$$python" || { echo 'make wheel: no python3 has cffi, setuptools and wheel' >&2; exit 2; }; \
	folder=$$(mktemp -d) && trap 'rm -r "$$folder"' EXIT && mkdir "$$folder/lib" && cp -r include "$$folder/" && \
	cp '$(BUILT_ARCHIVE)' "$$folder/lib/libcapvet.a" && cp -r bindings/python "$$folder/python" && \
	rm -rf "$$folder/python/build" "$$folder/python/capvet.egg-info" "$$folder"/python/capvet/*.so && \
	{ $(MAKE) -s --no-print-directory inspector && cp build/inspector.html "$$folder/python/capvet/" || \
	  echo 'make wheel: without the page of python -m capvet map' >&2; } && \
	CAPVET_LIB_DIR="$$folder/lib" "$$python" -m pip --disable-pip-version-check wheel -q --no-index --no-deps \
	  --no-build-isolation -w '$(wheeldir)' "$$folder/python"

# Writes the pages that are made from the definitions, the contracts and the comments of the tests.
.PHONY: pages
pages:
	python3 tools/pages/write.py

# Writes the text of the crates without contracts, as plain Rust: rust/core and rust/capvet-cli.
.PHONY: erase
erase:
	python3 tools/erase/erase.py

# Builds the program and the library for C by cargo, of that text, into build/cargo. `make capvet-c` builds the library alone. TARGET is
# another target of Rust, as in `make capvet-c TARGET=x86_64-pc-windows-gnu`: see packaging/by_cargo.py.
.PHONY: plain capvet-c
plain:
	python3 packaging/by_cargo.py $(TARGET)
capvet-c:
	python3 packaging/by_cargo.py --library $(TARGET)

# Checks a change of one crate, as in `make check CRATE=cap_vet`. First cargo tests the plain text, without a proof. Then the crate and
# those above it are proved. Last come the must-fail edits that the change reaches, and the scripts that test it.
check:
	$(NEEDS_RT)
	@python3 tools/check.py $(CRATE)

# Builds the program and the library by cargo, and tests them as their users run them. Where `rt` is, the tests in Rattle run too. Debian's
# superuser gets cargo and the crates installed, where they are missing.
test:
	$(NEEDS_CARGO)
	python3 tools/all.py

# Proves all crates of code, runs the tests in Rattle, tests the proved program and library as their users run them, and compares them
# with those by cargo.
prove:
	$(NEEDS_RT)
	python3 tools/all.py --prove

# The same, and then what `make test` does. The tests in Rattle are proved too, and the prover has to refuse each must-fail edit;
# ANEW=1 takes nothing of that from earlier gates on this machine. Coq checks its proofs. Then each allocation fails in turn, and a
# node that outlives its message is refused. It fails if anything isn't tested, unless it is for lack of one of the names of
# tests/shared/needs.py in SKIP, as in `make gate SKIP="go wheel"`.
SKIP ?=
gate:
	$(NEEDS_RT)
	python3 tools/all.py --gate $(if $(ANEW),--anew) --skip "$(SKIP)"
	@$(MAKE) --no-print-directory allocations
	python3 tests/calls/lifetimes.py

# Tries wrong bodies of public functions, and compares those that the contracts let through with tools/planted.txt.
plant:
	$(NEEDS_RT)
	python3 tools/plant.py

# What takes longer than a gate: the scripts over the proved build make all of their cases. For 1,000,000 messages each call of the
# text without contracts does what the proved library does, and the comparisons see changes that are planted in the text. On
# machines of 32 bits and on a big-endian one the calls do the same. coqchk checks the proofs in Coq, and both builds of the program
# are compared with the vetter of these over 80,000 messages. Coq or this comparison refuses each change of a definition. Coq also
# checks them in fresh roots of Debian 12 and 13. Clients fill up to 1 GiB of the guard's memory. Good ones make calls beside
# hostile ones for ten minutes, and for one minute with Go's race detector. The plain program over the clap of Debian 13 and of
# unstable has the texts of the proved one. Runs over 10,000 files are stopped nine times. The library for Windows runs under wine,
# and packages are installed in fresh roots of Debian. Scripts run in roots of Debian 13 and of unstable, over the libcapnp, the
# compilers and the interpreters of these.
.PHONY: long
long: $(BUILT_PROGRAM) $(BUILT_ARCHIVE)
	python3 tools/all.py --prove --full
	python3 tests/plain/plain_targets.py
	python3 tests/plain/plain_faults.py '$(BUILT_PROGRAM)' '$(BUILT_ARCHIVE)'
	python3 tests/plain/plain.py '$(BUILT_PROGRAM)' '$(BUILT_ARCHIVE)' --long
	python3 tools/build.py
	python3 tests/mirror/mirror.py '$(BUILT_PROGRAM)' build/cargo/capvet --long
	python3 tests/mirror/mirror_faults.py '$(BUILT_PROGRAM)'
	python3 tests/mirror/mirror_chroots.py '$(BUILT_PROGRAM)'
	python3 tests/network/guard_attacks.py '$(BUILT_PROGRAM)' '$(BUILT_ARCHIVE)' --long
	python3 tests/plain/plain_program.py '$(BUILT_PROGRAM)' --long
	python3 tests/bindings/scale.py '$(BUILT_PROGRAM)' '$(BUILT_ARCHIVE)' --full --long
	python3 tests/machines/windows.py '$(BUILT_PROGRAM)' --full
	python3 tests/packages/windows_zip.py '$(BUILT_PROGRAM)' --full
	python3 tests/packages/dist.py '$(BUILT_PROGRAM)' '$(BUILT_ARCHIVE)' --full --long
	python3 tools/releases.py '$(BUILT_PROGRAM)' '$(BUILT_ARCHIVE)' --long

# Out-of-memory tests: each allocation fails in turn, first of the calls that allocate, then of the built program.
allocations:
	$(NEEDS_RT)
	python3 tests/program/allocations.py
	python3 tests/program/program_allocations.py build/capvet

# Searches with each fuzz target for SECONDS seconds, side by side: see tests/fuzz/fuzz.py. What reaches something new is kept in
# build/fuzz, where the next search begins.
SECONDS ?= 600
fuzz: $(BUILT_PROGRAM) $(BUILT_ARCHIVE)
	python3 tests/fuzz/fuzz.py '$(BUILT_PROGRAM)' '$(BUILT_ARCHIVE)' --seconds $(SECONDS)

# Compares times of the packages for Go and Python, of the guard and of archives, for which the machine may do nothing else.
times:
	python3 tests/bindings/go.py build/capvet build/libcapvet.a --idle
	python3 tests/network/guard.py build/capvet build/libcapvet.a --idle
	python3 tests/inspector/inspector.py build/capvet build/libcapvet.a --full --idle
	python3 tests/bindings/js.py build/capvet build/libcapvet.a --idle
	python3 tests/bindings/python.py build/capvet build/libcapvet.a --idle
	python3 tests/bindings/scale.py build/capvet build/libcapvet.a --idle

# Times the built program beside plain copying of the same bytes. Where Cap'n Proto's own C++ library and Rust
# crate are installed, it times them too. With PEERS=FOLDER they are those of a root of another release of Debian. Then it times the
# library's calls beside the C++ library, in one process. It times the program over small messages that take long, and the calls that
# read nodes and find paths. Last come the calls and the program as rustc builds them.
bench:
	python3 bench/bench.py $(if $(PEERS),--peers '$(PEERS)')
	python3 bench/in_process.py
	python3 bench/amplified.py
	python3 bench/hashes.py
	python3 bench/node_times.py
	python3 bench/path_times.py
	python3 bench/plain_times.py
	python3 bench/plain_program_times.py
