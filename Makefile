# demo proves the demonstration program, runs it on its file stdin and prints what it writes; test is the gate, which holds that to its file stdout, behind a look whether
# a written file is stale and a proof of entry points over a struct that holds another one (tests/generate); generate writes include/zilborteka.h from the list of
# the device's fields (crates/zilborteka/entries.txt).
# archive proves and compiles the archive for a process; kernel-archive that one and the one for a kernel, from one module.
# host builds the archive and runs the example host in C; host-test also compiles the header alone under four language
# versions, runs the example as C++, and runs tests/host (SEED=n: with another seed). ARCHIVE=path: over that archive, as
# it stands.
# install puts header, both archives and a pkg-config file under DESTDIR and PREFIX; dist packs these and HOST.md into
# target/dist/zilborteka-VERSION.tar.gz; install-test tries both in temporary directories.
# bench times the archive on this machine's own processor (BEFORE=an older archive: beside it, in one run; BEFORE_INCLUDE=the folder
# of its header).
.PHONY: demo test generate archive kernel-archive host host-test install dist install-test bench

SEED ?= 1
ARCHIVE ?=
PREFIX ?= /usr/local
DESTDIR ?=
VERSION = $(shell git describe --always)
DIST = zilborteka-$(VERSION)
AGAINST_MODEL = $(addprefix tests/host/, dice.c lent.c pair.c reached.c model.c)
export ARCHIVE

demo:
	cd crates/demo && rt run <stdin

test:
	tools/generate --check
	tests/generate/run
	.ci/run

generate:
	tools/generate

archive:
	tools/archive

kernel-archive:
	tools/kernel-archive

host: $(if $(ARCHIVE),,archive)
	tests/host/run host examples/host.c

host-test: host
	tests/host/headers
	STD=c++11 tests/host/run host-as-c++ examples/host.c
	tests/host/run host-examples tests/host/examples.c $(AGAINST_MODEL)
	ARGS=$(SEED) tests/host/run host-stream tests/host/stream.c tests/host/dice.c tests/host/lent.c
	ARGS=$(SEED) tests/host/run host-generated tests/host/generated.c tests/host/ledger.c tests/host/hits.c tests/host/strict.c tests/host/making.c $(AGAINST_MODEL)

install: kernel-archive
	install -d "$(DESTDIR)$(PREFIX)/include" "$(DESTDIR)$(PREFIX)/lib/pkgconfig"
	install -m 644 include/zilborteka.h "$(DESTDIR)$(PREFIX)/include"
	install -m 644 target/staticlib/libzilborteka.a target/kernel/libzilborteka-kernel.a "$(DESTDIR)$(PREFIX)/lib"
	sed 's/@VERSION@/$(VERSION)/' tools/zilborteka.pc.in >"$(DESTDIR)$(PREFIX)/lib/pkgconfig/zilborteka.pc"

# -o: the archives were made just now
dist: kernel-archive
	rm -rf target/dist
	$(MAKE) -o kernel-archive install DESTDIR= PREFIX=target/dist/$(DIST)
	install -m 644 docs/HOST.md target/dist/$(DIST)
	tar -C target/dist --sort=name --owner=0 --group=0 -czf target/dist/$(DIST).tar.gz $(DIST)

install-test: dist
	tests/host/installed target/dist/$(DIST).tar.gz

ifeq ($(shell uname -m),x86_64)
bench: archive
	bench/run target/staticlib/libzilborteka.a $(BEFORE) $(BEFORE_INCLUDE)
else
bench:
	tools/native
	bench/run target/native/libzilborteka.a $(BEFORE) $(BEFORE_INCLUDE)
endif
