# make             builds the library and the program, by the launcher; the first time that takes minutes
# make install     puts below PREFIX the program, the library, its header, a file for pkg-config, man pages and the bash completion
# make uninstall   takes these files away again; folders stay
#
# The variables below may be given on the command line. DESTDIR stands before every path and in no file, for who makes a package.
# Folders may have spaces and quotes in their names; make takes a $ for its own. cc $(pkg-config ...) splits a PREFIX at its
# spaces, which no file can change: there it is eval "cc ... $(pkg-config --cflags --libs runvestol)".

PREFIX = /usr/local
DESTDIR =
bindir = $(PREFIX)/bin
includedir = $(PREFIX)/include
libdir = $(PREFIX)/lib
pkgconfigdir = $(libdir)/pkgconfig
datarootdir = $(PREFIX)/share
mandir = $(datarootdir)/man
completionsdir = $(datarootdir)/bash-completion/completions
INSTALL = install

# a path as one word of the shell, whatever is in it
quoted = '$(subst ','\'',$(1))'
# where a file goes, DESTDIR before it
at = $(call quoted,$(DESTDIR)$(1))

.PHONY: all install uninstall check-paths

all:
	@./runvestol --version >/dev/null

# a path that goes by where make is called would be wrong in the file for pkg-config
check-paths:
	@for path in $(call quoted,$(PREFIX)) $(call quoted,$(includedir)) $(call quoted,$(libdir)); do \
	    case $$path in /*) ;; *) echo "make: PREFIX and the folders have to begin with /: $$path" >&2; exit 1 ;; esac; done

install: check-paths all
	$(INSTALL) -d $(call at,$(bindir)) $(call at,$(includedir)) $(call at,$(libdir)) $(call at,$(pkgconfigdir)) \
	    $(call at,$(mandir)/man1) $(call at,$(mandir)/man3) $(call at,$(completionsdir))
	$(INSTALL) -m 755 target/host/runvestol $(call at,$(bindir)/runvestol)
	$(INSTALL) -m 644 include/runvestol.h $(call at,$(includedir)/runvestol.h)
	$(INSTALL) -m 644 target/staticlib/librunvestol.a $(call at,$(libdir)/librunvestol.a)
	install/write-pc $(call quoted,$(PREFIX)) $(call quoted,$(includedir)) $(call quoted,$(libdir)) >target/host/runvestol.pc
	$(INSTALL) -m 644 target/host/runvestol.pc $(call at,$(pkgconfigdir)/runvestol.pc)
	$(INSTALL) -m 644 man/runvestol.1 $(call at,$(mandir)/man1/runvestol.1)
	$(INSTALL) -m 644 man/runvestol.3 $(call at,$(mandir)/man3/runvestol.3)
	$(INSTALL) -m 644 install/runvestol.bash $(call at,$(completionsdir)/runvestol)

uninstall:
	rm -f $(call at,$(bindir)/runvestol) $(call at,$(includedir)/runvestol.h) $(call at,$(libdir)/librunvestol.a) \
	    $(call at,$(pkgconfigdir)/runvestol.pc) $(call at,$(mandir)/man1/runvestol.1) $(call at,$(mandir)/man3/runvestol.3) \
	    $(call at,$(completionsdir)/runvestol)
