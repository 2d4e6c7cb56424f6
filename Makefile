# make try                 runs the script program and covers a face, with nothing proved: under a minute. SCRIPT=path runs that script alone
# make run [SCRIPT=path]   proves and builds the program, and runs it on a script
# make check [CRATE=name]  proves and tests what has changed, of one crate with all below it or of all: what to run while writing
# make setup               installs what the tests need and this machine lacks, by apt-get (tools/needs.txt)
# make test [SETUP=no]     runs every test, proves and builds the product, and tries all that was built. It first does what `make setup` does
#                          for it, where it may
# make gate [BUGS=..]      everything from nothing: also the proofs of the tests, both builds, and the planted bugs. BUGS=changed: those
#                          that a change affects. BUGS=landing goes on over what `make test` cached, as .ci/run does
# make times [TIMES=..]    seconds of proof a function; TIMES: options of tools/times.py, as the names of crates, --waits or --modules
#
# make frames              proves and builds both programs: crates/imgref_frames/out/imgref_frames is for video and pictures
# make c                   proves and builds the library for C: out/c/libimgref.a, libimgref.so, imgref.pc
# make python              builds the package for Python over it: out/python/imgref-..whl
# make install PREFIX=..   builds and installs the library with both headers, both programs, man pages, and files for pkg-config and CMake
# make web                 proves and builds the page that covers parts of a picture: out/web/index.html
# make web-serve [PORT=..] the same, and serves it on this machine alone
# make release             tries every planted bug, and builds all that a user has without the toolchain: out/release/ (docs/RELEASE.md)
# make docs                writes docs/API.md and out/INNER.md, every public call with its contract, docs/CRATES.md, each crate with its
#                          files, and the numbers that pages have
# make exports             writes the exports for cells of 2, 4 and 8 bytes from those for one byte
# make bench [BENCH=..]    times the calls and the program beside plain loops; BENCH: options of tools/bench.py
#
# SCRIPT=- takes the script from standard input. With DESTDIR=.., make install puts its files below that folder.

# (an older Python can't read all tools)
ifneq ($(shell { python3 -c 'import sys; print(sys.version_info >= (3, 10))'; } 2>&1 || :),True)
$(error Python 3.10 or later is needed as `python3`, and here it is: $(shell { python3 --version; } 2>&1 || :))
endif

SCRIPT ?= examples/first.script
PREFIX ?= /usr/local
export SCRIPT BUGS CRATE SETUP

.PHONY: setup try run check test gate times frames c python install web web-serve release docs exports bench

try:
	@python3 tools/program.py try $(if $(findstring file,$(origin SCRIPT)),face)

run:
	@python3 tools/program.py run

check:
	@python3 .ci/gate.py check

setup:
	@python3 tools/setup.py

test:
	@python3 .ci/gate.py test

gate:
	@python3 .ci/gate.py gate

times:
	@python3 tools/times.py $(TIMES)

frames:
	@python3 tools/program.py build imgref_frames imgref_run

c:
	@python3 tools/c_library.py build

python:
	@python3 tools/python_package.py build

install:
	@python3 tools/c_library.py install "$(PREFIX)" "$(DESTDIR)"

web:
	@python3 tools/web.py build

web-serve:
	@python3 tools/web.py serve $(PORT)

release:
	@python3 .ci/planted_bugs.py --once
	@python3 tools/release.py build

docs:
	@python3 tools/api_page.py
	@python3 tools/crates_page.py
	@python3 .ci/checks/page_numbers.py --write

exports:
	@python3 tools/exports.py

bench:
	@python3 tools/bench.py $(BENCH)
