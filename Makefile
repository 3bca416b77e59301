# Builds and installs the reader for programs outside this tree, on x86-64 and AArch64 Linux.
#
#   make                                    builds what is installed from dist/: a C compiler is needed, and nothing else
#   make install PREFIX=/usr/local          installs it:
#
#       PREFIX/include/wumbyra.h
#       PREFIX/lib/libwumbyra.a
#       PREFIX/lib/libwumbyra.so            -> libwumbyra.so.1 -> libwumbyra.so.1.7.0; version and soname are those of the header
#       PREFIX/lib/pkgconfig/wumbyra.pc
#       PREFIX/lib/cmake/wumbyra            for CMake's find_package(wumbyra)
#       PREFIX/bin/tapelist                 the command
#       PREFIX/libexec/wumbyra/tapelist     the proved program that it runs
#
#   make uninstall PREFIX=/usr/local        removes exactly these; folders that others may use stay, even if they are empty
#   make prove                              proves what has changed of library and program, and builds from that; needs `rt`. While it proves, it
#                                           tells which crate of how many is proved
#   make dist                               proves, and writes dist/ anew; needs `rt`. Each change to what the library is made of ends with this
#   make check-dist                         the same beside it, and compares every byte
#   make release                            writes target/release/wumbyra-VERSION.tar.gz: all that a caller needs, without the proofs
#
# dist/ is what the proved code was compiled to, and its manifest says of which sources. Where these are others, make takes what `make prove`
# built of them, and stops with a sentence if that was not run. FROM=proved takes it even if dist/ fits.
#
# CC, CFLAGS and LDFLAGS are the compiler and its options, and `make CC=aarch64-linux-gnu-gcc` builds for the other processor. DESTDIR is put
# before each of the paths above and into no file: packagers install there what will later lie under PREFIX. The command finds its
# program and the header beside it, so the folders under PREFIX are not for choosing. PREFIX may have spaces in it; what pkg-config
# tells then has backslashes before them, so a shell has to read it by `eval`.

SHELL = /bin/sh
PREFIX = /usr/local
DESTDIR =
RT ?= rt
INSTALL = install
FROM := $(shell packaging/manifest check 2>/dev/null; test $$? -eq 1 && echo proved || echo dist)
export CC CFLAGS LDFLAGS RT

part = $(shell sed -n 's/^\#define WUMBYRA_VERSION_$(1) //p' include/wumbyra.h)
major := $(call part,MAJOR)
version := $(major).$(call part,MINOR).$(call part,PATCH)
soname := libwumbyra.so.$(major)
shared := libwumbyra.so.$(version)
sources := $(wildcard crates.txt) $(shell test ! -d crates || find crates \( -path '*/must-fail' -o -path 'crates/*/out' \) -prune -o -type f -print)

ifeq ($(FROM),dist)
built := target/dist/$(shell CC='$(CC)' CFLAGS='$(CFLAGS)' packaging/build processor 2>/dev/null || echo none)
archive = $(built)/libwumbyra.a
program = $(built)/tapelist
else
built = target/install
archive = target/staticlib/libwumbyra.a
program = target/bin/tapelist
endif
library = $(built)/$(shared)

to = $(DESTDIR)$(PREFIX)
# All that is installed, under PREFIX.
installed = include/wumbyra.h lib/libwumbyra.a lib/$(shared) lib/$(soname) lib/libwumbyra.so lib/pkgconfig/wumbyra.pc \
	lib/cmake/wumbyra/wumbyra-config.cmake lib/cmake/wumbyra/wumbyra-config-version.cmake bin/tapelist libexec/wumbyra/tapelist
filled = sed 's|@PREFIX@|$(PREFIX)|; s|@VERSION@|$(version)|; s|@MAJOR@|$(major)|'

.PHONY: all prove dist check-dist release install uninstall check-prefix
.DELETE_ON_ERROR:
# Two runs of `rt` would write to the same folder.
.NOTPARALLEL:

all: $(archive) $(library) $(program)

ifeq ($(FROM),dist)
from = $(wildcard dist/*) $(sources) packaging/build packaging/manifest include/wumbyra.h

$(archive): $(from)
	packaging/build archive $@

$(library): $(from) packaging/wumbyra.map
	packaging/build shared $@

$(program): $(from)
	packaging/build program $@
else
$(archive) $(program): $(sources)
	@packaging/manifest check || :
	@echo 'make: $@ is not built from these sources yet: `make prove` proves and builds it, with `$(RT)` of the Rattle toolchain' >&2; exit 2

# What is seen from outside, and why all is bound when the library is loaded: packaging/build.
$(library): $(archive) packaging/wumbyra.map include/wumbyra.h
	mkdir -p $(@D)
	$(CC) $(CFLAGS) $(LDFLAGS) -shared -o $@ -Wl,-soname,$(soname) -Wl,--version-script=packaging/wumbyra.map -Wl,-z,defs,-z,now \
		-Wl,--whole-archive $(archive) -Wl,--no-whole-archive
endif

# `rt` knows by itself what it has proved. What it builds lies in the crates' own folders, and is copied from there.
prove:
	@packaging/prove wumbyra_c
	@packaging/prove tapelist
	$(MAKE) FROM=proved all

dist:
	packaging/emit dist

check-dist:
	rm -rf target/emitted
	packaging/emit target/emitted
	@diff -rq dist target/emitted || { echo 'make: dist/ is not what these sources are compiled to: run make dist' >&2; exit 1; }
	@echo 'dist/ is what these sources are compiled to, byte for byte'

release:
	packaging/release

# PREFIX and DESTDIR are quoted here, in wumbyra.pc, and for sed: characters that end a quotation or mean something inside it are refused. So
# is a space at PREFIX's end, which pkg-config would cut off.
check-prefix: export prefix_given = $(PREFIX)
check-prefix: export stage_given = $(DESTDIR)
check-prefix:
	@case "$$prefix_given" in *[\'\"\\\$$\`\#\|\&[:cntrl:]]* | *' ') \
		printf 'PREFIX must not have any of %s or a control character in it, nor end with a space, and it is "%s"\n' \
			"'"' " \ $$ ` # | &' "$$prefix_given" >&2; exit 2 ;; esac
	@case "$$stage_given" in *[\'\"\\\$$\`[:cntrl:]]*) \
		printf 'DESTDIR must not have any of %s or a control character in it, and it is "%s"\n' "'"' " \ $$ `' "$$stage_given" >&2; exit 2 ;; esac
	@case '$(PREFIX)' in /*) ;; *) echo 'PREFIX must begin with /, and it is "$(PREFIX)"' >&2; exit 2 ;; esac
	@! test -e '$(to)/dist/MANIFEST' || { echo '$(to) is a tree of sources: install elsewhere' >&2; exit 2; }

install: check-prefix all
	$(INSTALL) -d '$(to)/include' '$(to)/lib/pkgconfig' '$(to)/lib/cmake/wumbyra' '$(to)/bin' '$(to)/libexec/wumbyra'
	$(INSTALL) -m 644 include/wumbyra.h '$(to)/include/wumbyra.h'
	$(INSTALL) -m 644 $(archive) '$(to)/lib/libwumbyra.a'
	$(INSTALL) -m 755 $(library) '$(to)/lib/$(shared)'
	ln -sf $(shared) '$(to)/lib/$(soname)'
	ln -sf $(soname) '$(to)/lib/libwumbyra.so'
	$(filled) packaging/wumbyra.pc.in >'$(to)/lib/pkgconfig/wumbyra.pc'
	for name in config config-version; do $(filled) packaging/$$name.cmake.in >'$(to)'/lib/cmake/wumbyra/wumbyra-$$name.cmake; done
	chmod 644 '$(to)/lib/pkgconfig/wumbyra.pc' '$(to)'/lib/cmake/wumbyra/*.cmake
	$(INSTALL) -m 755 bin/tapelist '$(to)/bin/tapelist'
	$(INSTALL) -m 755 $(program) '$(to)/libexec/wumbyra/tapelist'

uninstall: check-prefix
	for file in $(installed); do rm -f '$(to)'/$$file; done
	for folder in libexec/wumbyra lib/cmake/wumbyra; do test ! -d '$(to)'/$$folder || rmdir '$(to)'/$$folder; done
