# What a C program needs, built and installed: the header, libchronicle.a, libchronicle.so and chronicle.pc.
#
#     make                          builds them into target/c; the archive that they are made of by tools/build.sh, where it is missing
#     make install [PREFIX=/usr] [DESTDIR=/tmp/package]
#     make uninstall
#
# The functions that the shared library has, and its version, are those that include/chronicle.h declares.

PREFIX = /usr/local
INCLUDEDIR = $(PREFIX)/include
LIBDIR = $(PREFIX)/lib
PKGCONFIGDIR = $(LIBDIR)/pkgconfig
DESTDIR =
CC = cc
INSTALL = install
ARCHIVE = target/staticlib/libpage.a
BUILD = target/c

HEADER = include/chronicle.h
VERSION := $(shell sed -n 's/^.define CHRONICLE_VERSION "\(.*\)"/\1/p' $(HEADER))
MAJOR := $(shell sed -n 's/^.define CHRONICLE_VERSION_MAJOR //p' $(HEADER))
SONAME = libchronicle.so.$(MAJOR)
SHARED = libchronicle.so.$(VERSION)

all: $(BUILD)/$(SHARED) $(BUILD)/chronicle.pc

$(ARCHIVE):
	bash tools/build.sh

$(BUILD):
	mkdir -p $@

$(BUILD)/exported: $(HEADER) Makefile | $(BUILD)
	{ echo '{ global:'; sed -n 's/^int64_t \([a-z_]*\)(.*/    \1;/p' $(HEADER); echo 'local: *; };'; } > $@

$(BUILD)/$(SHARED): $(ARCHIVE) $(BUILD)/exported
	$(CC) -shared -o $@ -Wl,--whole-archive $(ARCHIVE) -Wl,--no-whole-archive -Wl,-soname,$(SONAME) \
	    -Wl,--version-script=$(BUILD)/exported -Wl,--no-undefined-version -Wl,-z,defs -Wl,-z,noexecstack -Wl,-z,relro -Wl,-z,now
	ln -sf $(SHARED) $(BUILD)/$(SONAME)
	ln -sf $(SONAME) $(BUILD)/libchronicle.so

$(BUILD)/chronicle.pc: include/chronicle.pc.in $(HEADER) Makefile FORCE | $(BUILD)
	sed 's|@PREFIX@|$(PREFIX)|; s|@INCLUDEDIR@|$(INCLUDEDIR)|; s|@LIBDIR@|$(LIBDIR)|; s|@VERSION@|$(VERSION)|' $< > $@

install: all
	$(INSTALL) -d $(DESTDIR)$(INCLUDEDIR) $(DESTDIR)$(LIBDIR) $(DESTDIR)$(PKGCONFIGDIR)
	$(INSTALL) -m 644 $(HEADER) $(DESTDIR)$(INCLUDEDIR)/chronicle.h
	$(INSTALL) -m 644 $(ARCHIVE) $(DESTDIR)$(LIBDIR)/libchronicle.a
	$(INSTALL) -m 755 $(BUILD)/$(SHARED) $(DESTDIR)$(LIBDIR)/$(SHARED)
	ln -sf $(SHARED) $(DESTDIR)$(LIBDIR)/$(SONAME)
	ln -sf $(SONAME) $(DESTDIR)$(LIBDIR)/libchronicle.so
	$(INSTALL) -m 644 $(BUILD)/chronicle.pc $(DESTDIR)$(PKGCONFIGDIR)/chronicle.pc

uninstall:
	rm -f $(DESTDIR)$(INCLUDEDIR)/chronicle.h $(DESTDIR)$(PKGCONFIGDIR)/chronicle.pc
	rm -f $(DESTDIR)$(LIBDIR)/libchronicle.a $(DESTDIR)$(LIBDIR)/libchronicle.so
	rm -f $(DESTDIR)$(LIBDIR)/$(SONAME) $(DESTDIR)$(LIBDIR)/$(SHARED)

clean:
	rm -rf $(BUILD)

FORCE:

.PHONY: all install uninstall clean FORCE
