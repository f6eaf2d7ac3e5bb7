# make                      proves and builds the library and the loading tool (seven to ten minutes the first time)
# make install PREFIX=DIR   installs the library, its header, a file for pkg-config and the tool `vexil-compat`; DESTDIR goes before it
# make uninstall PREFIX=DIR
# make test                 all tests, ./test
PREFIX = /usr/local
DESTDIR =
# Only the library that is proved here is installed.
unexport VEXIL_COMPAT_LIB

ifneq ($(words $(PREFIX)),1)
$(error PREFIX is one path, without spaces)
endif
prefix := $(abspath $(PREFIX))
root := $(DESTDIR)$(prefix)
header := include/vexil_compat.h
version = $(shell sed -n 's/^\#define VEXIL_COMPAT_VERSION "\(.*\)"/\1/p' $(header))
kit = $(shell sed -n 's/^kit //p' target/staticlib/made-of)

all:
	@bash tools/loader/build.sh

install: all
	install -d '$(root)/bin' '$(root)/include' '$(root)/lib/pkgconfig'
	install -m 755 target/loader/loader '$(root)/bin/vexil-compat'
	sed 's|^\(#define VEXIL_COMPAT_KIT\) .*|\1 "$(kit)"|' $(header) > '$(root)/include/vexil_compat.h'
	install -m 644 target/staticlib/libvexil_compat.a '$(root)/lib/libvexil_compat.a'
	sed -e 's|@PREFIX@|$(prefix)|' -e 's|@VERSION@|$(version)|' -e 's|@KIT@|$(kit)|' \
		tools/loader/vexil_compat.pc.in > '$(root)/lib/pkgconfig/vexil_compat.pc'
	chmod 644 '$(root)/include/vexil_compat.h' '$(root)/lib/pkgconfig/vexil_compat.pc'

uninstall:
	rm -f '$(root)/bin/vexil-compat' '$(root)/include/vexil_compat.h' '$(root)/lib/libvexil_compat.a' '$(root)/lib/pkgconfig/vexil_compat.pc'

test:
	./test

.PHONY: all install uninstall test
