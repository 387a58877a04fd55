# make            proves and builds the programs and the library
# make install    copies them, the header, the manual pages and yezsdolak.pc below PREFIX, which may stand below DESTDIR
# make uninstall  removes what install has copied
# make check      runs what the gate runs
PREFIX = /usr/local
DESTDIR =
VERSION := $(shell cat VERSION)
programs = linkreport linksolve cardcheck
# where rt run leaves them
built = $(foreach program,$(programs),crates/$(program)/out/$(program))
archive = target/lib/libyezsdolak.a
# where tools/sheet/run builds
sheet = $${YEZSDOLAK_BUILD:-target}/tools/sheet
pages1 = $(programs:%=man/%.1) man/linksheet.1
calls = solve check report panel_check write_system shape kind lookup version number place count modulus rows columns sides message
links3 = $(calls:%="$(to)/share/man/man3/yezsdolak_%.3")
to = $(DESTDIR)$(PREFIX)

all:
	for program in $(programs); do (cd crates/$$program && rt run </dev/null >/dev/null) || exit; done
	examples/archive
	tools/sheet/run --help >/dev/null

check:
	.ci/run

install:
	@for file in $(built) "$(sheet)" $(archive); do \
	    test -e "$$file" || { echo "make install: $$file is not there; run make first" >&2; exit 2; }; \
	done
	@newer=$$(find VERSION crates.txt crates -path 'crates/*/out' -prune -o -type f -newer $(archive) -print | head -n 1); \
	test -z "$$newer" || { echo "make install: $$newer is newer than $(archive); run make first" >&2; exit 2; }
	install -d "$(to)/bin" "$(to)/lib/pkgconfig" "$(to)/include" "$(to)/share/man/man1" "$(to)/share/man/man3" "$(to)/share/man/man5"
	install $(built) "$(to)/bin"
	install "$(sheet)" "$(to)/bin/linksheet"
	install -m 644 $(archive) "$(to)/lib"
	install -m 644 include/yezsdolak.h include/yezsdolak_refusals.h "$(to)/include"
	install -m 644 $(pages1) "$(to)/share/man/man1"
	install -m 644 man/yezsdolak.3 "$(to)/share/man/man3"
	for link in $(links3); do echo .so man3/yezsdolak.3 >"$$link" && chmod 644 "$$link" || exit; done
	install -m 644 man/yezsdolak.5 "$(to)/share/man/man5"
	sed -e 's|@PREFIX@|$(PREFIX)|' -e 's|@VERSION@|$(VERSION)|' yezsdolak.pc.in >"$(to)/lib/pkgconfig/yezsdolak.pc"

uninstall:
	rm -f $(programs:%="$(to)/bin/%") "$(to)/bin/linksheet" "$(to)/lib/libyezsdolak.a" "$(to)/lib/pkgconfig/yezsdolak.pc"
	rm -f "$(to)/include/yezsdolak.h" "$(to)/include/yezsdolak_refusals.h"
	rm -f $(pages1:man/%="$(to)/share/man/man1/%") $(links3) "$(to)/share/man/man3/yezsdolak.3" "$(to)/share/man/man5/yezsdolak.5"

.PHONY: all check install uninstall
