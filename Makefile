# Builds, checks and installs Fannavy, on Linux with GNU make and coreutils.
#
# PREFIX   where it is installed (default: /usr/local). The folders below it can be set one by one
# DESTDIR  a folder to gather the files in instead, for a package: it stands before every path, and nothing installed names it

PREFIX ?= /usr/local
DESTDIR ?=
bindir = $(PREFIX)/bin
libexecdir = $(PREFIX)/libexec
libdir = $(PREFIX)/lib
includedir = $(PREFIX)/include
mandir = $(PREFIX)/share/man
pkgconfigdir = $(libdir)/pkgconfig
helpers = $(libexecdir)/fannavy

program = target/bin/stemlist
archive = target/staticlib/libfannavy.a
version := $(shell sed -n 's/^.define FANNAVY_VERSION "\(.*\)"$$/\1/p' include/fannavy.h)

.PHONY: all check folders install uninstall
.NOTPARALLEL:

# Proves and builds what is installed. rt goes by content: what is proved and did not change is not proved again.
all:
	libexec/build stemlist fannavy

check: $(program) $(archive)
	tests/run

# These two only where the file is missing, however old it is: an install, perhaps by root, is no time to prove.
$(program):
	libexec/build stemlist

$(archive):
	libexec/build fannavy

# The launcher looks for its helpers at ../libexec/fannavy, seen from the folder that it really is in.
folders:
	@for folder in "$(bindir)" "$(libexecdir)" "$(libdir)" "$(includedir)" "$(mandir)" "$(pkgconfigdir)"; do \
	    case $$folder in /*) ;; *) echo "not an absolute path: $$folder" >&2; exit 1 ;; esac; \
	done
	@[ "$$(realpath -m "$(DESTDIR)$(libexecdir)")" = "$$(realpath -m "$(DESTDIR)$(bindir)/../libexec")" ] || { \
	    echo "libexecdir has to be the folder libexec beside bindir, where stemlist looks: $(libexecdir), $(bindir)" >&2; exit 1; }

# What pkg-config reads. The quotes are for a path with a space in it.
define pc
prefix=$(PREFIX)
libdir=$(subst $(PREFIX)/,$${prefix}/,$(libdir))
includedir=$(subst $(PREFIX)/,$${prefix}/,$(includedir))

Name: fannavy
Description: Turkish stemming with proved contracts
Version: $(version)
Libs: -L"$${libdir}" -lfannavy
Cflags: -I"$${includedir}"
endef
export pc

install: folders $(program) $(archive)
	install -D -m 755 stemlist "$(DESTDIR)$(bindir)/stemlist"
	install -D -m 755 "$(program)" "$(DESTDIR)$(helpers)/stemlist"
	install -D -m 755 libexec/clashes "$(DESTDIR)$(helpers)/clashes"
	install -D -m 644 docs/stemlist.1 "$(DESTDIR)$(mandir)/man1/stemlist.1"
	install -D -m 644 include/fannavy.h "$(DESTDIR)$(includedir)/fannavy.h"
	install -D -m 644 "$(archive)" "$(DESTDIR)$(libdir)/libfannavy.a"
	printf '%s\n' "$$pc" | install -D -m 644 /dev/stdin "$(DESTDIR)$(pkgconfigdir)/fannavy.pc"

# Takes the same variables as the install; leaves every folder but our own, and that too where something else is in it.
uninstall:
	rm -f "$(DESTDIR)$(bindir)/stemlist" \
	    "$(DESTDIR)$(helpers)/stemlist" \
	    "$(DESTDIR)$(helpers)/clashes" \
	    "$(DESTDIR)$(mandir)/man1/stemlist.1" \
	    "$(DESTDIR)$(includedir)/fannavy.h" \
	    "$(DESTDIR)$(libdir)/libfannavy.a" \
	    "$(DESTDIR)$(pkgconfigdir)/fannavy.pc"
	[ ! -d "$(DESTDIR)$(helpers)" ] || rmdir --ignore-fail-on-non-empty "$(DESTDIR)$(helpers)"
