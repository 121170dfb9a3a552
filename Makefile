# make              proves and builds the archive, target/lib/MACHINE/libsofa.a; MACHINE=aarch64 or x86_64 where it is not this machine's
# make install      puts it below PREFIX, with the header, a pkg-config file, a CMake package and the licences
# make uninstall    takes these away again
# make check        the tests of the hosts over the archive
#
# The package is called bondaskrig, and header and archive stand in folders of that name: another sofa.h (of the astronomers' SOFA) or libsofa may
# be installed beside it. Only a proved archive is installed.
PREFIX ?= /usr/local
LIBDIR ?= $(PREFIX)/lib
INCLUDEDIR ?= $(PREFIX)/include
DOCDIR ?= $(PREFIX)/share/doc/bondaskrig
DESTDIR ?=
$(foreach v,PREFIX LIBDIR INCLUDEDIR DOCDIR DESTDIR,$(if $(word 2,$($(v))),$(error $(v) must not have a space in it: $($(v)))))

SHELL := bash
version := $(shell . .ci/steps && header_version)
MACHINE ?= $(shell uname -m)
archive := target/lib/$(MACHINE)/libsofa.a
package := $(DESTDIR)$(LIBDIR)/cmake/bondaskrig
fill := sed -e 's|@PREFIX@|$(abspath $(PREFIX))|' -e 's|@LIBDIR@|$(abspath $(LIBDIR))|' \
    -e 's|@INCLUDEDIR@|$(abspath $(INCLUDEDIR))|' -e 's|@VERSION@|$(version)|'

.PHONY: all install uninstall check
all:
	@bin/archive $(MACHINE)

install: all
	@grep -qaF 'rattle logic=' $(archive) || { echo "install: $(archive) is not a proved one" >&2; exit 1; }
	install -d $(DESTDIR)$(INCLUDEDIR)/bondaskrig $(DESTDIR)$(LIBDIR)/bondaskrig $(DESTDIR)$(LIBDIR)/pkgconfig $(package) $(DESTDIR)$(DOCDIR)
	install -m 644 include/sofa.h $(DESTDIR)$(INCLUDEDIR)/bondaskrig/sofa.h
	install -m 644 $(archive) $(DESTDIR)$(LIBDIR)/bondaskrig/libsofa.a
	$(fill) install/bondaskrig.pc.in > $(DESTDIR)$(LIBDIR)/pkgconfig/bondaskrig.pc
	$(fill) install/bondaskrig-config.cmake.in > $(package)/bondaskrig-config.cmake
	$(fill) install/bondaskrig-config-version.cmake.in > $(package)/bondaskrig-config-version.cmake
	install -m 644 LICENSE LICENSE-MIT LICENSE-APACHE NOTICE $(DESTDIR)$(DOCDIR)

uninstall:
	rm -rf $(DESTDIR)$(INCLUDEDIR)/bondaskrig $(DESTDIR)$(LIBDIR)/bondaskrig $(DESTDIR)$(LIBDIR)/pkgconfig/bondaskrig.pc $(package) $(DESTDIR)$(DOCDIR)

check: all
	SOFA_MACHINE=$(MACHINE) tests/hosts
