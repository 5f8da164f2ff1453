# Builds the C library and puts it in place.
#
#   make                       the archive, crates/harpdapple/out/libharpdapple.a
#   make install PREFIX=DIR    header, archive and pkg-config file below DIR, /usr/local if not given
#   make uninstall PREFIX=DIR  takes them away
#
# DESTDIR goes before PREFIX where a package is built.
PREFIX = /usr/local
DESTDIR =
ARCHIVE = crates/harpdapple/out/libharpdapple.a
VERSION := $(shell sed -n 's/^.define HARPDAPPLE_VERSION "\(.*\)"/\1/p' include/harpdapple.h)

.PHONY: all install uninstall

all:
	cd crates/harpdapple && rt lib

$(ARCHIVE):
	cd crates/harpdapple && rt lib

install: $(ARCHIVE)
	install -d "$(DESTDIR)$(PREFIX)/include" "$(DESTDIR)$(PREFIX)/lib/pkgconfig"
	install -m 644 include/harpdapple.h "$(DESTDIR)$(PREFIX)/include/"
	install -m 644 $(ARCHIVE) "$(DESTDIR)$(PREFIX)/lib/"
	sed -e 's|@PREFIX@|$(PREFIX)|' -e 's|@VERSION@|$(VERSION)|' harpdapple.pc.in >"$(DESTDIR)$(PREFIX)/lib/pkgconfig/harpdapple.pc"

uninstall:
	rm -f "$(DESTDIR)$(PREFIX)/include/harpdapple.h" "$(DESTDIR)$(PREFIX)/lib/libharpdapple.a"
	rm -f "$(DESTDIR)$(PREFIX)/lib/pkgconfig/harpdapple.pc"
