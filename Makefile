# make          this list
# make test     the gate: trace, every proof, every must-fail edit, every program, a bounded comparison with the Rust, the library from C
# make demo     the hub's morning over the rollover of the stamp, on a simulated clock, and what judging lateness on the stamp leads to
# make figures  builds what is proved and prints document 01's figures that it decides
# make compare  the whole comparison with the Rust, some minutes
# make bench    times the library and the Rust on the same calls, some minutes, and writes docs/SPEED.md; on x86-64 alone
# make fuzz     fuzzes the library's entries for FUZZ_SECONDS (60); what is found is kept in fuzz/cases/; on x86-64 alone
# make lib      the static library that a host links: target/staticlib/libphelgomrit.a
# make ctest    the library tried from C: tests/run
# make example  builds and runs examples/picture.c
# make install  the header, the library and phelgomrit.pc below PREFIX (/usr/local), below DESTDIR where that is given
.PHONY: help test demo figures compare bench fuzz lib ctest example install

# the archive holds code for x86-64, whatever machine this is: tools/x86 compiles and runs it
CC = tools/x86 cc
RUN = tools/x86 run
CFLAGS = -std=c99 -O1 -g -Wall -Wextra -pedantic
PREFIX = /usr/local
DESTDIR =
VERSION := $(shell sed -n 's/^.define PHEL_VERSION "\(.*\)"$$/\1/p' include/phelgomrit.h)
LIB = target/staticlib/libphelgomrit.a
# what bench and fuzz need: nothing where x86-64 is emulated, since they refuse there
NATIVE_LIB = $(shell tools/x86 emulated || echo $(LIB))
RT = command -v rt > /dev/null || { echo "make: rt, the Rattle kit, is not at hand: it proves the crates and builds the library" >&2; exit 1; }

help:
	@sed -n 's/^# \(make .*\)/\1/p' Makefile

test:
	.ci/run

demo: target/demo/story
	$(RUN) target/demo/story target/demo/whole.csv
	$(RUN) target/demo/story --on-stamp target/demo/on-stamp.csv
	demo/picture target/demo/whole.csv target/demo/on-stamp.csv target/demo/story.svg

target/demo/story: $(wildcard demo/*.c) demo/story.h include/phelgomrit.h $(LIB)
	mkdir -p target/demo
	$(CC) -std=c99 -O2 -Wall -Wextra -pedantic -Wconversion -Iinclude -o $@ $(filter %.c %.a,$^)

figures:
	@$(RT)
	cd crates/print_figures && rt run

compare:
	compare/run full

bench: $(NATIVE_LIB)
	bench/run

fuzz: $(NATIVE_LIB)
	fuzz/run

lib:
	@$(RT)
	tools/archive phelgomrit

# Where there is no library yet it is made; `make lib` makes it anew.
$(LIB):
	@$(RT)
	tools/archive phelgomrit

ctest: $(LIB)
	tests/run

target/c/picture: examples/picture.c include/phelgomrit.h $(LIB)
	mkdir -p target/c
	$(CC) $(CFLAGS) -Iinclude -o $@ examples/picture.c $(LIB)

example: target/c/picture
	$(RUN) target/c/picture

install: $(LIB)
	install -d $(DESTDIR)$(PREFIX)/include $(DESTDIR)$(PREFIX)/lib/pkgconfig
	install -m 644 include/phelgomrit.h $(DESTDIR)$(PREFIX)/include/phelgomrit.h
	install -m 644 $(LIB) $(DESTDIR)$(PREFIX)/lib/libphelgomrit.a
	sed 's|@VERSION@|$(VERSION)|' phelgomrit.pc.in > $(DESTDIR)$(PREFIX)/lib/pkgconfig/phelgomrit.pc
	chmod 644 $(DESTDIR)$(PREFIX)/lib/pkgconfig/phelgomrit.pc
