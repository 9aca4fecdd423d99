# make install: the header, the library as an archive and as a shared object, reelbook.pc, the tool, and a man page for each
# of the two, below PREFIX. DESTDIR, for packages, goes before every path and into no file. BINDIR, INCLUDEDIR, LIBDIR and
# MANDIR are other folders. make uninstall: takes the same files out again.
# make check-install: installs into empty folders, and compiles and runs examples/ against what is there, by pkg-config alone.
.PHONY: shared man install uninstall check-install

PREFIX ?= /usr/local
BINDIR ?= $(PREFIX)/bin
INCLUDEDIR ?= $(PREFIX)/include
LIBDIR ?= $(PREFIX)/lib
MANDIR ?= $(PREFIX)/share/man
INSTALL ?= install

VERSION := $(shell sed -n 's/^.define REELBOOK_VERSION "\(.*\)"$$/\1/p' include/reelbook.h)
SHARED = build/libreelbook.so.$(VERSION)
SHARED_NAME = $(notdir $(SHARED))
SONAME = libreelbook.so.$(firstword $(subst ., ,$(VERSION)))
PAGES = build/man/reelbook.1 build/man/reelbook.3
INSTALLED = $(BINDIR)/reelbook $(INCLUDEDIR)/reelbook.h $(LIBDIR)/libreelbook.a $(LIBDIR)/$(SHARED_NAME) $(LIBDIR)/$(SONAME) \
    $(LIBDIR)/libreelbook.so $(LIBDIR)/pkgconfig/reelbook.pc $(MANDIR)/man1/reelbook.1 $(MANDIR)/man3/reelbook.3

shared: $(SHARED)

# The proved objects as they are in the archive. No startup files, so that nothing in it is writable; -z text refuses code that is
# not position independent, -z now leaves no binding to the first call, which would need stack.
$(SHARED): $(LIBRARY) install/reelbook.map include/reelbook.h
	$(CC) $(LDFLAGS) -shared -nostartfiles -Wl,-soname,$(SONAME) -Wl,--version-script=install/reelbook.map \
	    -Wl,-z,defs -Wl,-z,text -Wl,-z,now -o $@ -Wl,--whole-archive $(LIBRARY) -Wl,--no-whole-archive

man: $(PAGES)

build/man/reelbook.1: $(TOOL) man/tool.sh man/tool.awk man/reelbook.1.in
	@mkdir -p build/man
	sh man/tool.sh $(TOOL) $(VERSION) >$@.new
	@mv $@.new $@

build/man/reelbook.3: include/reelbook.h examples/first.c man/library.awk man/reelbook.3.in
	@mkdir -p build/man
	awk -v version=$(VERSION) -f man/library.awk include/reelbook.h examples/first.c man/reelbook.3.in >$@.new
	@mv $@.new $@

# reelbook.pc has the paths as they are given: a relative one would mean another folder wherever it is read.
folders = $(BINDIR) $(INCLUDEDIR) $(LIBDIR) $(MANDIR)
absolute = $(if $(filter-out /%,$(folders)),$(error $@: to absolute paths without spaces only, not: $(folders)))
below_prefix = $(patsubst $(PREFIX)/%,$${prefix}/%,$(1))

install: $(LIBRARY) $(SHARED) $(TOOL) $(PAGES)
	$(absolute)$(INSTALL) -d $(patsubst %/,'$(DESTDIR)%',$(sort $(dir $(INSTALLED))))
	$(INSTALL) -m 755 $(TOOL) '$(DESTDIR)$(BINDIR)/reelbook'
	$(INSTALL) -m 644 include/reelbook.h '$(DESTDIR)$(INCLUDEDIR)/reelbook.h'
	$(INSTALL) -m 644 $(LIBRARY) '$(DESTDIR)$(LIBDIR)/libreelbook.a'
	$(INSTALL) -m 644 $(SHARED) '$(DESTDIR)$(LIBDIR)/$(SHARED_NAME)'
	ln -sf $(SHARED_NAME) '$(DESTDIR)$(LIBDIR)/$(SONAME)'
	ln -sf $(SONAME) '$(DESTDIR)$(LIBDIR)/libreelbook.so'
	$(INSTALL) -m 644 install/reelbook.pc.in '$(DESTDIR)$(LIBDIR)/pkgconfig/reelbook.pc'
	sed -e 's|@PREFIX@|$(PREFIX)|' -e 's|@LIBDIR@|$(call below_prefix,$(LIBDIR))|' -e 's|@VERSION@|$(VERSION)|' \
	    -e 's|@INCLUDEDIR@|$(call below_prefix,$(INCLUDEDIR))|' install/reelbook.pc.in >'$(DESTDIR)$(LIBDIR)/pkgconfig/reelbook.pc'
	$(INSTALL) -m 644 build/man/reelbook.1 '$(DESTDIR)$(MANDIR)/man1/reelbook.1'
	$(INSTALL) -m 644 build/man/reelbook.3 '$(DESTDIR)$(MANDIR)/man3/reelbook.3'

uninstall:
	$(absolute)rm -f $(INSTALLED:%='$(DESTDIR)%')

check-install: $(LIBRARY) $(SHARED) $(TOOL) $(PAGES)
	MAKE='$(MAKE)' CC='$(CC)' CXX='$(CXX)' sh tests/install.sh
