# What stands beside the proofs: installing, tests of the Python package, pages and pictures. The proofs are `rt ci`'s.
#
#   make lib                          build/libsubgraph.a and build/libsubgraph.so, for C and C++ (proved and built first)
#   make install PREFIX=/usr/local    the program (proved and built first), its manual page, the Python package, and the library
#                                     with its header and subgraph.pc; install-program and install-lib are its two halves
#   make uninstall PREFIX=..          takes them away again
#   make wheel                        build/*.whl: the Python package with the program inside, and the library if build/ has it. `pip install`
#                                     takes it without a network, and `pip install ./python` the package alone
#   make quick                        each test of the crates, the answers on the pages and the Python tests, by builds without
#                                     proofs: a first look, which proves nothing
#   make test                         the package's tests, the library's (c/test.sh), each answer that a page tells, both checkers of logs
#                                     against each other, what is made from other files, and that no page or sentence is too long
#   make hostile TEXTS=10000          the program on hostile texts, each held against a plain reading; with each allocation refused; and
#                                     over files and streams that fail
#   make docs                         makes the manual page, the pictures of crates and workers and the lists of statements anew
#   make house MOST=20                lists what is longer than it should be and what stands twice, the longest first

PREFIX ?= /usr/local
DESTDIR ?=
PYTHON ?= python3
# Another program may be named, and is then taken as it is.
PROGRAM ?= crates/subgraph/out/subgraph
# What `rt` builds of the library; another archive may be named, and is then taken as it is. Beside it the kit's calls of `malloc`.
ARCHIVE ?= crates/subgraph_c/out/libsubgraph_c.a
HEAP ?= $(dir $(realpath $(shell command -v rt)))../c/liblibc_c.a
VERSION := $(shell cat VERSION)
CC ?= cc
AR ?= ar
OBJCOPY ?= objcopy
# How many hostile texts of each kind.
TEXTS ?= 10000
# How many rows of each list.
MOST ?= 20

MODULES = $(wildcard python/subgraph_solver/*.py) python/subgraph_solver/py.typed VERSION
FOLDER := $(shell $(PYTHON) tools/package_folder.py $(PREFIX) 2>/dev/null)
PACKAGES = $(DESTDIR)$(or $(FOLDER),$(error $(PYTHON) does not run))/subgraph_solver

LIBRARIES = $(DESTDIR)$(PREFIX)/lib

.PHONY: build lib install install-program install-lib uninstall wheel quick test hostile docs house

build:
ifeq ($(PROGRAM),crates/subgraph/out/subgraph)
	./subgraph demo 7 >/dev/null
endif

# One object whose only names are those of the header; all else of the archive is local.
lib:
ifeq ($(ARCHIVE),crates/subgraph_c/out/libsubgraph_c.a)
	$(PYTHON) tools/build.py subgraph_c
endif
	install -d build
	$(CC) -r -nostdlib -o build/subgraph.o -Wl,--whole-archive $(ARCHIVE) -Wl,--no-whole-archive $(HEAP)
	$(OBJCOPY) --wildcard --keep-global-symbol='subgraph_*' build/subgraph.o
	rm -f build/libsubgraph.a
	$(AR) rcs build/libsubgraph.a build/subgraph.o
	$(CC) -shared -s -o build/libsubgraph.so build/subgraph.o -Wl,-soname,libsubgraph.so.1
	ln -sf libsubgraph.so build/libsubgraph.so.1

install: install-program install-lib

install-lib: lib
	install -d $(LIBRARIES)/pkgconfig $(DESTDIR)$(PREFIX)/include
	install -m 644 build/libsubgraph.a $(LIBRARIES)/libsubgraph.a
	install -m 755 build/libsubgraph.so $(LIBRARIES)/libsubgraph.so.$(VERSION)
	ln -sf libsubgraph.so.$(VERSION) $(LIBRARIES)/libsubgraph.so.1
	ln -sf libsubgraph.so.1 $(LIBRARIES)/libsubgraph.so
	install -m 644 include/subgraph.h $(DESTDIR)$(PREFIX)/include/subgraph.h
	sed 's#@PREFIX@#$(abspath $(PREFIX))#; s#@VERSION@#$(VERSION)#' include/subgraph.pc.in >$(LIBRARIES)/pkgconfig/subgraph.pc

install-program: build
	install -d $(DESTDIR)$(PREFIX)/bin $(DESTDIR)$(PREFIX)/share/man/man1 $(PACKAGES)
	install -m 755 $(PROGRAM) $(DESTDIR)$(PREFIX)/bin/subgraph
	install -m 644 docs/subgraph.1 $(DESTDIR)$(PREFIX)/share/man/man1/subgraph.1
	install -m 644 $(MODULES) $(PACKAGES)
	@$(PYTHON) tools/package_folder.py $(PREFIX) >/dev/null

uninstall:
	rm -f $(DESTDIR)$(PREFIX)/bin/subgraph $(DESTDIR)$(PREFIX)/share/man/man1/subgraph.1
	rm -f $(LIBRARIES)/libsubgraph.a $(LIBRARIES)/libsubgraph.so $(LIBRARIES)/libsubgraph.so.1 $(LIBRARIES)/libsubgraph.so.$(VERSION)
	rm -f $(DESTDIR)$(PREFIX)/include/subgraph.h $(LIBRARIES)/pkgconfig/subgraph.pc
	rm -rf $(PACKAGES)

wheel: build
	$(PYTHON) tools/wheel.py $(PROGRAM) $(wildcard build/libsubgraph.so) --to build

quick:
	$(PYTHON) tools/quick.py

test: build lib
	c/test.sh build
	$(PYTHON) bench/library.py $(PROGRAM) build/libsubgraph.so
	cd python && SUBGRAPH_PROGRAM=$(abspath $(PROGRAM)) SUBGRAPH_LIBRARY=$(abspath build/libsubgraph.so) $(PYTHON) -m tests
	$(PYTHON) examples/check.py --program $(PROGRAM)
	$(PYTHON) tools/test_plain_check.py
	$(PYTHON) bench/check_logs.py '$(PROGRAM) check' '$(PYTHON) tools/plain_check.py' --cases --mutants 1
	$(PYTHON) tools/man.py --check
	$(PYTHON) tools/man.py --run $(PROGRAM)
	$(PYTHON) docs/crates.py --check
	$(PYTHON) docs/two_workers.py --check
	$(PYTHON) tools/claims.py --check
	$(PYTHON) tools/pages.py --check

hostile: build
	$(PYTHON) bench/hostile.py $(PROGRAM) --texts $(TEXTS)
	$(PYTHON) bench/refused_memory.py $(PROGRAM)
	$(PYTHON) bench/refused_memory.py $(PROGRAM) --full --threads 1
	bench/real_edge.sh $(PROGRAM)

docs:
	$(PYTHON) tools/man.py
	$(PYTHON) docs/crates.py
	$(PYTHON) docs/two_workers.py
	$(PYTHON) tools/claims.py

house:
	@$(PYTHON) tools/house.py --most $(MOST)
