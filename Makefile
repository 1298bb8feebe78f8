# make: the program and the library for C, all in build/. make install PREFIX=..: them, with the header, where a C user expects them.
# make test: the gate. What is proved is what is built: rt proves a crate before it compiles it, and the first time takes some minutes.
PREFIX = /usr/local
CC = gcc
VERSION = 0.2.0
# who was linked to another of these must be linked anew: a call has other arguments
ABI = 0.2
KIT = rattle-kit-13f logic dac8208d650f15bf

ifneq ($(MAKECMDGOALS),clean)
ifeq ($(shell command -v rt),)
$(error there is no rt on the path: this needs the Rattle toolchain whose `rt version` says $(KIT))
endif
endif

CRATES = $(shell find crates crates.txt -name out -prune -o \( -name '*.rt' -o -name '*.antt' -o -name crates.txt \) -print)

all: build/equalizer build/libequalizer.a build/libequalizer.so build/equalizer.pc

# two rt at once in a tree wait for one another, so that make does one thing after another; rt itself uses a second core
.NOTPARALLEL:

# the functions that the static library capi_c exports
build/libequalizer.a: $(CRATES)
	@mkdir -p build
	@echo 'each crate is proved before it is compiled: the first time takes some minutes'
	(cd crates/capi_c && rt lib) > build/capi_c.log 2>&1 || { tail -n 20 build/capi_c.log; false; }
	cp crates/capi_c/out/libcapi_c.a $@

build/libequalizer.so: build/libequalizer.a
	$(CC) -shared -Wl,-soname,libequalizer.so.$(ABI) -Wl,--whole-archive $< -Wl,--no-whole-archive -o $@

# rt runs what it built, which here says its version
build/equalizer: $(CRATES)
	@mkdir -p build
	@echo 'each crate is proved before it is compiled: the first time takes some minutes'
	(cd crates/equalizer && rt run -- --version) > build/equalizer.log 2>&1 < /dev/null || { tail -n 20 build/equalizer.log; false; }
	cp crates/equalizer/out/equalizer $@

build/equalizer.pc: program/equalizer.pc.in Makefile
	@mkdir -p build
	sed -e 's|@PREFIX@|$(PREFIX)|' -e 's|@VERSION@|$(VERSION)|' $< > $@

install: all
	install -d $(DESTDIR)$(PREFIX)/bin $(DESTDIR)$(PREFIX)/include $(DESTDIR)$(PREFIX)/lib/pkgconfig
	install -m 755 build/equalizer $(DESTDIR)$(PREFIX)/bin/equalizer
	install -m 644 include/equalizer.h $(DESTDIR)$(PREFIX)/include/equalizer.h
	install -m 644 build/libequalizer.a $(DESTDIR)$(PREFIX)/lib/libequalizer.a
	install -m 755 build/libequalizer.so $(DESTDIR)$(PREFIX)/lib/libequalizer.so.$(VERSION)
	ln -sf libequalizer.so.$(VERSION) $(DESTDIR)$(PREFIX)/lib/libequalizer.so.$(ABI)
	ln -sf libequalizer.so.$(ABI) $(DESTDIR)$(PREFIX)/lib/libequalizer.so
	sed -e 's|@PREFIX@|$(PREFIX)|' -e 's|@VERSION@|$(VERSION)|' program/equalizer.pc.in > $(DESTDIR)$(PREFIX)/lib/pkgconfig/equalizer.pc

test:
	.ci/run

clean:
	rm -rf build

.PHONY: all install test clean
