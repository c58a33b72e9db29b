# The C side: the archives, their installation, releases, and the programs that try them. `.ci/run` is the gate of the proofs.
#
#   make                    prove link, tags and parity and write their archives below target/staticlib (needs the Rattle kit's rt)
#   make archive TARGET=T   the same for a board, below target/boards/T (boards/targets.txt, docs/BOARDS.md); FLAGS go to the compiler
#   make install            headers, archives, manual, files for pkg-config and CMake below PREFIX (default /usr/local; DESTDIR is put
#                           before it); with TARGET=T those of a board. Proves nothing where the archives are there
#   make dist               a release for every target below target/dist, usable without the kit (dist/make.sh);
#                           VERDICT='N passed, 0 failed' where the gate has not run here
#   make dist-check         unpacks the releases, builds against them without the kit and runs what was built
#   make man                target/man/ampferweg.3, from the comments of include/ampferweg.h: man -l target/man/ampferweg.3
#   make test               the C checks (tests/host)
#   make demo               two stations on loopback over a bad network (examples/udp)
#   make test-examples      the stations' options, endings and restarts, by scripts (examples/udp)
#   make bare               two links on a Cortex-M4 without an operating system, under QEMU (examples/bare)
#   make dissector-check    the Wireshark dissector, by tshark (examples/wireshark)
#   make boards             every board's archives, made and tried under QEMU, and the figures of docs/BOARDS.md (boards)
#   make bench              the workloads beside kcp-go's core, docs/PERFORMANCE.md and its pictures (bench)
#   make pictures           docs/pictures, from the data that is there (docs/pictures/draw.py)
#   make interop            a station against kcp-go (tests/interop; installs Debian packages)
#
# ARCHIVE names another archive to install or to try, as that of a release.

PREFIX = /usr/local
DESTDIR =
RT = rt
TARGET = x86_64-linux
FLAGS =
VERDICT =
FOLDER = $(if $(filter x86_64-linux,$(TARGET)),target/staticlib,target/boards/$(TARGET))
ARCHIVE = $(FOLDER)/libampferweg.a
TAGS = $(dir $(ARCHIVE))libampferweg_tags.a
PARITY = $(dir $(ARCHIVE))libampferweg_parity.a
ARCHIVES = $(ARCHIVE) $(TAGS) $(PARITY)
NAMES = ampferweg ampferweg_tags ampferweg_parity
TARGETS := $(shell sed -n 's/^\([a-z0-9_-]*\) *|.*/\1/p' boards/targets.txt)
VERSION := $(shell sed -n 's/^\#define AMPFERWEG_VERSION "\(.*\)"$$/\1/p' include/ampferweg.h)
SOURCES := $(shell find crates crates.txt -regex 'crates/[^/]*/out' -prune -o -name '*.rt' -print -o -name '*.antt' -print -o -name crates.txt -print)
RELEASES = $(TARGETS:%=target/dist/ampferweg-$(VERSION)-%.tar.gz)
MODULES = $(NAMES:%=target/module/%.bc)
BOARDS = $(foreach target,$(filter-out x86_64-linux,$(TARGETS)),$(NAMES:%=target/boards/$(target)/lib%.a))

all: $(ARCHIVES)

# What is written by the kit needs the kit.
define kit
@command -v $(RT) >/dev/null || { printf '%s\n' \
    "make: $@ is proved and compiled by the Rattle kit, and there is no '$(RT)' on the PATH (README.md, 'The kit')." \
    "Without the kit: unpack a release, ampferweg-$(VERSION)-TARGET.tar.gz, which needs no building, or try its archive from here:" \
    "    make demo ARCHIVE=FOLDER/lib/libampferweg.a" >&2; exit 2; }
endef

$(NAMES:%=target/staticlib/lib%.a): target/staticlib/lib%.a: $(SOURCES)
	$(kit)
	RT=$(RT) tools/archive.sh $*

target/module/%.bc: $(SOURCES)
	$(kit)
	RT=$(RT) boards/module.sh $*

target/bin/lister target/bin/replay: target/bin/%: $(SOURCES)
	$(kit)
	cd crates/$* && $(RT) run --cpu=x86-64 </dev/null >/dev/null
	install -D -t target/bin crates/$*/out/$*

archive: $(MODULES)
	boards/archive.py $(TARGET) $(FLAGS)

target/boards/%/libampferweg.a target/boards/%/libampferweg_tags.a target/boards/%/libampferweg_parity.a: $(MODULES) \
    $(NAMES:%=include/%.h) boards/targets.txt boards/archive.py
	boards/archive.py $*

# An archive that is there is installed as it is.
install: $(filter-out $(wildcard $(ARCHIVES)),$(ARCHIVES))
	dist/install.sh $(DESTDIR)$(PREFIX) $(PREFIX) $(VERSION) $(ARCHIVES)

uninstall:
	for name in $(NAMES); do \
	    rm -f $(DESTDIR)$(PREFIX)/include/$$name.h $(DESTDIR)$(PREFIX)/lib/lib$$name.a $(DESTDIR)$(PREFIX)/lib/pkgconfig/$$name.pc; \
	done
	rm -rf $(DESTDIR)$(PREFIX)/lib/cmake/ampferweg $(DESTDIR)$(PREFIX)/share/man/man3/ampferweg.3

verdict:
	@VERDICT='$(VERDICT)' dist/verdict.sh

dist: verdict $(ARCHIVES) $(BOARDS) target/bin/lister target/bin/replay
	VERDICT='$(VERDICT)' dist/make.sh $(VERSION) $(TARGETS)

dist-check:
	dist/check.sh $(RELEASES)

man:
	dist/man.py

test: $(ARCHIVES)
	tests/host/run.sh $(ARCHIVE)

demo: $(ARCHIVE)
	examples/udp/run.sh $(ARCHIVE)

test-examples: $(ARCHIVE)
	examples/udp/check.sh $(ARCHIVE)

bare: target/boards/thumbv7em/libampferweg.a
	examples/bare/run.sh $<

dissector-check: $(ARCHIVE)
	examples/wireshark/check.py $(ARCHIVE)

boards: $(MODULES)
	boards/run.sh

bench: $(ARCHIVE)
	bench/run.py $(ARCHIVE)

pictures:
	docs/pictures/draw.py

interop: $(ARCHIVE)
	tests/interop/run.sh $(ARCHIVE)

.PHONY: all archive install uninstall man verdict dist dist-check test demo test-examples bare dissector-check boards bench pictures interop
.SECONDARY:
