# Installs the release: the libraries, the header and feshangul.pc, the Python package and the command. Nothing is built:
# release/ has it, proved. `make install PREFIX=/usr DESTDIR=/tmp/tree`, `make deb`, `make uninstall`.

PREFIX = /usr/local
DESTDIR =
LIBDIR = $(PREFIX)/lib
PYTHONDIR = $(PREFIX)/lib/python3/dist-packages
INSTALL = install

VERSION := $(shell sed -n 's/^\#define FESHANGUL_VERSION "\(.*\)"/\1/p' release/feshangul.h)
DEB = target/feshangul_$(VERSION)_amd64.deb

.PHONY: all install uninstall deb
all:
	@echo "nothing to build; make install, make deb or make uninstall"

install:
	$(INSTALL) -d $(DESTDIR)$(LIBDIR)/pkgconfig $(DESTDIR)$(PREFIX)/lib/feshangul $(DESTDIR)$(PREFIX)/include
	$(INSTALL) -d $(DESTDIR)$(PYTHONDIR)/feshangul $(DESTDIR)$(PREFIX)/bin
	$(INSTALL) -m 644 release/libfeshangul.a $(DESTDIR)$(LIBDIR)
	$(INSTALL) -m 644 release/libfeshangul.so $(DESTDIR)$(LIBDIR)/libfeshangul.so.0
	ln -sf libfeshangul.so.0 $(DESTDIR)$(LIBDIR)/libfeshangul.so
	$(INSTALL) -m 755 release/feshangul-serve $(DESTDIR)$(PREFIX)/lib/feshangul
	$(INSTALL) -m 644 release/feshangul.h $(DESTDIR)$(PREFIX)/include
	sed -e 's,^prefix=.*,prefix=$(PREFIX),' -e 's,^libdir=.*,libdir=$(LIBDIR),' release/feshangul.pc \
		> $(DESTDIR)$(LIBDIR)/pkgconfig/feshangul.pc
	chmod 644 $(DESTDIR)$(LIBDIR)/pkgconfig/feshangul.pc
	$(INSTALL) -m 644 python/feshangul/*.py $(DESTDIR)$(PYTHONDIR)/feshangul
	$(INSTALL) -m 755 bin/feshangul $(DESTDIR)$(PREFIX)/bin

uninstall:
	rm -f $(DESTDIR)$(LIBDIR)/libfeshangul.a $(DESTDIR)$(LIBDIR)/libfeshangul.so $(DESTDIR)$(LIBDIR)/libfeshangul.so.0
	rm -f $(DESTDIR)$(LIBDIR)/pkgconfig/feshangul.pc $(DESTDIR)$(PREFIX)/include/feshangul.h $(DESTDIR)$(PREFIX)/bin/feshangul
	rm -rf $(DESTDIR)$(PREFIX)/lib/feshangul $(DESTDIR)$(PYTHONDIR)/feshangul

# The tree is made in a folder of its own each time, so that two runs do not meet.
deb:
	@mkdir -p target; tree=$$(mktemp -d) && trap 'rm -rf "$$tree"' EXIT && mkdir "$$tree/DEBIAN" && chmod 755 "$$tree" "$$tree/DEBIAN" && \
	$(MAKE) --no-print-directory -s install DESTDIR="$$tree" PREFIX=/usr LIBDIR=/usr/lib/x86_64-linux-gnu && \
	sed 's/@VERSION@/$(VERSION)/' tools/control > "$$tree/DEBIAN/control" && \
	echo 'activate-noawait ldconfig' > "$$tree/DEBIAN/triggers" && \
	dpkg-deb --root-owner-group --build "$$tree" $(DEB) > /dev/null && echo $(DEB)
