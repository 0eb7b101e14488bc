# The C library, for x86-64 Linux: 'make', 'make check', 'make install DESTDIR= PREFIX=/usr/local'. Everything that is made stands in target/, but for the
# archive of the proved crates, which rt puts into the crate's out/.
# On another machine Debian's cross tools (gcc-x86-64-linux-gnu) make the same library.

VERSION := $(shell cat VERSION)
# the number in the shared library's name: it changes where a program that was linked no longer works, or gets another report of a run text
ABI := 1
CRATE := run_report_c# the crate that exports the C function, a static library
PREFIX := /usr/local

ifneq ($(shell uname -m),x86_64)
CROSS := x86_64-linux-gnu-
endif
CC := $(CROSS)gcc
AR := $(CROSS)ar
LD := $(CROSS)ld
OBJCOPY := $(CROSS)objcopy
CFLAGS := -std=c11 -O2 -Wall -Wextra -Werror

ARCHIVE := crates/$(CRATE)/out/lib$(CRATE).a
OUT := target/c
SHARED := libfunkenrille.so.$(VERSION)
FILLED := sed -e 's|@VERSION@|$(VERSION)|g' -e 's|@PREFIX@|$(PREFIX)|g'

all: $(OUT)/libfunkenrille.a $(OUT)/$(SHARED) $(OUT)/funkenrille.pc $(OUT)/funkenrille.1

# proves the crate and all that it stands on
$(ARCHIVE): crates.txt $(shell find crates -name out -prune -o '(' -name '*.rt' -o -name '*.antt' ')' -print)
	cd crates/$(CRATE) && rt lib
	@touch $@ # rt does not write an archive anew whose sources' times alone have changed

$(OUT)/funkenrille.h: include/funkenrille.h.in VERSION
	@mkdir -p $(OUT)
	$(FILLED) $< >$@

$(OUT)/version.o: c/version.c $(OUT)/funkenrille.h Makefile
	$(CC) $(CFLAGS) -fPIC -I$(OUT) -c -o $@ $<

# one object of both; only what the header names stays visible
$(OUT)/funkenrille.o: $(ARCHIVE) $(OUT)/version.o
	$(LD) -r -o $@ --whole-archive $^
	$(OBJCOPY) --wildcard --keep-global-symbol='funkenrille_*' --strip-unneeded $@

$(OUT)/libfunkenrille.a: $(OUT)/funkenrille.o
	rm -f $@
	$(AR) rcsD $@ $<

$(OUT)/$(SHARED): $(OUT)/funkenrille.o
	$(CC) -shared -nostartfiles -Wl,-soname,libfunkenrille.so.$(ABI),-z,relro,-z,now,-z,noexecstack,--no-undefined -o $@ $<

# made anew each time, since PREFIX may be another
$(OUT)/funkenrille.pc: c/funkenrille.pc.in VERSION .ALWAYS
	@mkdir -p $(OUT)
	$(FILLED) $< >$@

$(OUT)/funkenrille.1: docs/funkenrille.1.in VERSION
	@mkdir -p $(OUT)
	$(FILLED) $< >$@

# the man page alone, for which nothing has to be proved
man: $(OUT)/funkenrille.1

check: all
	python3 -B tests/c_library.py

install: all
	install -d $(DESTDIR)$(PREFIX)/include $(DESTDIR)$(PREFIX)/lib/pkgconfig
	install -m 644 $(OUT)/funkenrille.h $(DESTDIR)$(PREFIX)/include/
	install -m 644 $(OUT)/libfunkenrille.a $(DESTDIR)$(PREFIX)/lib/
	install -m 755 $(OUT)/$(SHARED) $(DESTDIR)$(PREFIX)/lib/
	ln -sf $(SHARED) $(DESTDIR)$(PREFIX)/lib/libfunkenrille.so.$(ABI)
	ln -sf libfunkenrille.so.$(ABI) $(DESTDIR)$(PREFIX)/lib/libfunkenrille.so
	install -m 644 $(OUT)/funkenrille.pc $(DESTDIR)$(PREFIX)/lib/pkgconfig/

clean:
	rm -rf $(OUT)

.PHONY: all man check install clean .ALWAYS
