# `make` proves the crates, builds the report program and the C library, and shows the report of the sample image; `make library` builds
# the C library and shows its check of that image; `make install PREFIX=DIR` puts header, library and programs into DIR; `make release` makes
# what is handed out; `make test` is the gate; `make edits` tries the further must-fail edits; `make reproduce` builds all a second time and
# compares.
.PHONY: all library install release test edits reproduce clean kit
.DELETE_ON_ERROR:

PREFIX = /usr/local
prefix = $(abspath $(PREFIX))
to = $(DESTDIR)$(prefix)
version := $(shell sed -n 's/^.define BRAWNESK_VERSION_M[AIJN]*OR //p' include/brawnesk.h | paste -sd.)
released = target/release/brawnesk-$(version)
sources := KIT crates.txt $(shell find crates \( -name must-fail -o -name out \) -prune -o -type f -print)

all: kit
	@bash scripts/prove.sh
	@$(MAKE) --no-print-directory target/staticlib/libabi.a
	@echo "The C library is target/staticlib/libabi.a."
	target/bin/report < sample/cooperative.img

library: target/brawnesk-check
	target/brawnesk-check sample/cooperative.img

target/staticlib/libabi.a: $(sources) | kit
	@bash scripts/prove.sh library

target/bin/report: $(sources) | kit target/staticlib/libabi.a
	@bash scripts/prove.sh

target/brawnesk-check: examples/check.c include/brawnesk.h target/staticlib/libabi.a
	gcc -std=c99 -O2 -Wall -Wextra -Iinclude examples/check.c target/staticlib/libabi.a -o $@

install: target/staticlib/libabi.a target/bin/report target/brawnesk-check
	install -d $(to)/include $(to)/lib/pkgconfig $(to)/bin
	install -m 644 include/brawnesk.h $(to)/include/brawnesk.h
	install -m 644 target/staticlib/libabi.a $(to)/lib/libbrawnesk.a
	sed 's|@PREFIX@|$(prefix)|; s|@VERSION@|$(version)|' scripts/brawnesk.pc.in > $(to)/lib/pkgconfig/brawnesk.pc
	install -m 755 target/brawnesk-check $(to)/bin/brawnesk-check
	install -m 755 target/bin/report $(to)/bin/brawnesk-report

release: target/staticlib/libabi.a
	rm -rf $(released)
	install -d $(released)
	install -m 644 target/staticlib/libabi.a $(released)/libbrawnesk.a
	install -m 644 include/brawnesk.h $(released)/brawnesk.h
	cd $(released) && sha256sum libbrawnesk.a brawnesk.h > SHA256SUMS
	@echo "$(released) has the release:" && cat $(released)/SHA256SUMS

docs/crates.svg: crates.txt scripts/crates-svg.awk
	awk -f scripts/crates-svg.awk crates.txt > $@

test: kit
	bash .ci/run

edits: kit
	bash more-edits/run

reproduce: target/staticlib/libabi.a target/bin/report
	bash scripts/check-reproducible.sh whole

# The kit that all is proved with is named in the file KIT.
kit:
	@command -v rt >/dev/null || { echo "rt is not on the path: it is the command of the Rattle kit $$(cat KIT), which is needed" >&2; exit 1; }
	@test "$$(rt version)" = "$$(cat KIT)" || echo "warning: rt is of the kit $$(rt version), and not of $$(cat KIT)" >&2

clean:
	rm -rf target crates/*/out
