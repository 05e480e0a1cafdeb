# The command, the libraries for C and their installation. The library is the proved crate `host_c`.
CC ?= cc
CFLAGS ?= -O2
PREFIX ?= /usr/local
LIBDIR ?= $(PREFIX)/lib
DESTDIR ?=

# A warning is an error for `make check` alone: another compiler may have others.
WARN = -std=c11 -Wall -Wextra
STRICT = $(WARN) -Werror
ARCHIVE = target/staticlib/libhost.a
VERSION = $(shell sed -n 's/^.define UFF_VERSION "\(.*\)"/\1/p' include/uff.h)
VALGRIND = $(shell command -v valgrind)
FOUND_CXX = $(shell command -v $(CXX))

# What is missing on this machine is only named: for what is asked, and not where nothing is built.
PURPOSE = $(if $(filter check bench target/bench,$(MAKECMDGOALS)),tests,build)
ifneq ($(filter-out clean install,$(or $(MAKECMDGOALS),all)),)
MISSING := $(shell bash .ci/missing $(PURPOSE) | sed 's/^only //' | paste -s -d ';' | sed 's/;/; /g')
$(if $(MISSING),$(error missing on this machine: $(MISSING) (.ci/packages has the Debian packages)))
endif

SHARED = target/libuff.so.1
DIST = target/uff-$(VERSION)-x86_64-linux.tar.gz

all: target/uff $(SHARED)

# Proves the calls; `rt` proves again only the crates that have changed.
$(ARCHIVE): crates.txt $(wildcard crates/*/src/*.rt crates/*/specs/*.antt crates/*/proofs/*.antt crates/*/proofs/*/*.antt)
	bash tools/archive

COMMAND = $(wildcard cmd/*.c)
COMMAND_NEEDS = $(COMMAND) $(wildcard cmd/*.h) include/uff.h $(ARCHIVE)

target/uff: $(COMMAND_NEEDS)
	$(CC) $(WARN) $(CFLAGS) $(CPPFLAGS) -Iinclude -o $@ $(COMMAND) $(ARCHIVE) $(LDFLAGS)

# The archive as it is: its code may stand anywhere, and a relocation that would change that code is an error.
$(SHARED): $(ARCHIVE) uff.map
	$(CC) -shared -Wl,-soname,libuff.so.1 -Wl,--version-script=uff.map -Wl,-z,text,-z,defs,-z,relro,-z,now \
		-o $@ -Wl,--whole-archive $(ARCHIVE) -Wl,--no-whole-archive $(filter-out -static,$(LDFLAGS))

CANARIES = $(wildcard tests/host/canaries/*.c)

target/canaries: $(CANARIES) tests/host/canaries/canaries.h include/uff.h $(ARCHIVE)
	$(CC) $(STRICT) $(CFLAGS) $(CPPFLAGS) -g -Iinclude -o $@ $(CANARIES) $(ARCHIVE) $(LDFLAGS)

# The command once more, for its warnings alone.
target/uff-strict: $(COMMAND_NEEDS)
	$(CC) $(STRICT) $(CFLAGS) $(CPPFLAGS) -Iinclude -o $@ $(COMMAND) $(ARCHIVE) $(LDFLAGS)

check: all target/uff-strict target/canaries $(DIST)
	echo '#include <uff.h>' | $(CC) -std=c99 -pedantic -Wall -Wextra -Werror -Iinclude -fsyntax-only -x c -
	$(if $(FOUND_CXX),echo '#include <uff.h>' | $(CXX) -std=c++11 -pedantic -Wall -Wextra -Werror -Iinclude -fsyntax-only -x c++ -,@echo 'no C++ compiler: the header was not tried with one')
	target/canaries samples/bearing.uff
	$(if $(VALGRIND),$(VALGRIND) -q --error-exitcode=1 --leak-check=full target/canaries samples/bearing.uff,@echo 'no valgrind: canaries were run without it')
	bash tests/host/command target/uff
	bash tests/host/field target/uff
	bash tests/host/watch target/uff
	bash tests/host/faults target/uff
	bash tests/host/many target/uff
	bash tests/host/words target/uff
	bash tests/host/install
	bash tests/host/dist $(DIST)
	bash tests/host/stack $(ARCHIVE) $(SHARED)
	bash tests/host/powers $(ARCHIVE)

# What is installed as the command, and where pkg-config is told that it all stands: `dist` has others.
INSTALLED = target/uff
STANDS = $(PREFIX)
TO = $(DESTDIR)$(PREFIX)
TO_LIB = $(DESTDIR)$(LIBDIR)

install: $(INSTALLED) $(SHARED)
	install -d '$(TO)/bin' '$(TO)/include' '$(TO_LIB)/pkgconfig' '$(TO)/share/man/man1' '$(TO)/share/doc/uff'
	install -m 755 $(INSTALLED) '$(TO)/bin/uff'
	install -m 644 include/uff.h '$(TO)/include/uff.h'
	install -m 644 $(ARCHIVE) '$(TO_LIB)/libuff.a'
	install -m 755 $(SHARED) '$(TO_LIB)/libuff.so.1'
	ln -sf libuff.so.1 '$(TO_LIB)/libuff.so'
	sed -e 's|@LIBDIR@|$(LIBDIR)|' -e 's|^libdir=$(PREFIX)/|libdir=$${prefix}/|' -e 's|@PREFIX@|$(STANDS)|' -e 's|@VERSION@|$(VERSION)|' \
		uff.pc.in >'$(TO_LIB)/pkgconfig/uff.pc'
	chmod 644 '$(TO_LIB)/pkgconfig/uff.pc'
	install -m 644 cmd/uff.1 '$(TO)/share/man/man1/uff.1'
	install -m 644 docs/FORMAT.md samples/host.c '$(TO)/share/doc/uff'
	$(if $(wildcard cmd/completion/uff.bash),install -D -m 644 cmd/completion/uff.bash '$(TO)/share/bash-completion/completions/uff')
	$(if $(wildcard cmd/completion/_uff),install -D -m 644 cmd/completion/_uff '$(TO)/share/zsh/site-functions/_uff')

# All of it in one file, to be unpacked at any place of an x86-64 Linux: the command needs no library of that machine, and pkg-config goes
# from where uff.pc stands. It has files and no folders, so that folders and links to folders that stand there stay as they are. The same
# sources, compiler and SOURCE_DATE_EPOCH give the same bytes.
SOURCE_DATE_EPOCH ?= $(shell git log -1 --format=%ct 2>/dev/null || echo 0)
PACKED = $(notdir $(DIST:.tar.gz=))

dist: $(DIST)

target/uff-static: $(COMMAND_NEEDS)
	$(CC) $(WARN) $(CFLAGS) $(CPPFLAGS) -Iinclude -static -o $@ $(COMMAND) $(ARCHIVE) $(LDFLAGS)

$(DIST): target/uff-static $(SHARED) uff.pc.in cmd/uff.1 docs/FORMAT.md samples/host.c $(wildcard cmd/completion/*)
	rm -rf target/dist
	umask 022 && $(MAKE) --no-print-directory install INSTALLED=target/uff-static DESTDIR=target/dist PREFIX=/$(PACKED) LIBDIR=/$(PACKED)/lib STANDS='$$$${pcfiledir}/../..'
	cd target/dist && find $(PACKED) ! -type d | LC_ALL=C sort | \
		tar --owner=0 --group=0 --numeric-owner --mtime=@$(SOURCE_DATE_EPOCH) -I 'gzip -9n' -T - -cf '$(CURDIR)/$@.new'
	mv $@.new $@
	rm -rf target/dist

# The speeds of the calls beside plain Rust, C's strtod and, where there is gfortran, its formatted READ; with BEFORE=ARCHIVE also beside
# the calls of that archive, in each round.
GFORTRAN = $(shell command -v gfortran)
BENCH = $(wildcard bench/* tests/common/*.rs) tests/field/field.rs tests/judge/judge.rs tests/reader/reader.rs include/uff.h samples/bearing.uff
TIMED = target/bench$(if $(BEFORE),-before)

# The other archive's calls, by names that begin with before_.
target/libbefore.a: $(BEFORE) FORCE
	objcopy $$(nm -g --defined-only $(BEFORE) | sed -n 's/.* T \(uff_[a-z_]*\)$$/--redefine-sym \1=before_\1/p') $(BEFORE) $@

# All values of all sets of a file, beside a plain reader in C; with BEFORE_UFF=COMMAND set by set by that command.
target/bench-values: bench/values.c bench/plain.c bench/plain.h include/uff.h $(ARCHIVE)
	$(CC) $(WARN) -O2 -Iinclude -o $@ bench/values.c bench/plain.c $(ARCHIVE)

$(TIMED): $(BENCH) $(ARCHIVE) target/bench-values $(if $(BEFORE),target/libbefore.a)
	$(CC) $(WARN) -O2 -c -o target/strtod.o bench/strtod.c
	$(if $(GFORTRAN),$(GFORTRAN) -std=f2018 -Wall -Wextra -O2 -c -o target/read.o bench/read.f90)
	rustc --edition 2021 -O -D warnings -L target/staticlib -l static=host -C link-arg=target/strtod.o \
		$(if $(BEFORE),--cfg before -L target -l static=before) \
		$(if $(GFORTRAN),--cfg fortran -C link-arg=target/read.o -C link-arg=$(shell $(GFORTRAN) -print-file-name=libgfortran.so)) -o $@ bench/bench.rs

bench: $(TIMED) target/uff
	$(TIMED)
	target/bench-values target/uff $(BEFORE_UFF)

# The archive stays: its proofs take long, and `rt` made it.
clean:
	rm -f target/uff target/uff-strict target/uff-static $(SHARED) $(DIST) target/canaries
	rm -f target/bench target/bench-before target/bench-values target/libbefore.a target/strtod.o target/read.o
	rm -rf target/dist

FORCE:

.PHONY: all check install dist bench clean FORCE
