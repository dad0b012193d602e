# Where things are installed, for both Makefiles: by GNU's names, said on make's command line, or by those in capitals, which may stand in the
# environment too. DESTDIR is put before each of them, and told nowhere in what is installed.
PREFIX ?= /usr/local
prefix = $(PREFIX)
exec_prefix = $(prefix)
BINDIR ?= $(exec_prefix)/bin
bindir = $(BINDIR)
LIBDIR ?= $(exec_prefix)/lib
libdir = $(LIBDIR)
INCLUDEDIR ?= $(prefix)/include
includedir = $(INCLUDEDIR)
datarootdir = $(prefix)/share
datadir = $(datarootdir)
MANDIR ?= $(datarootdir)/man
mandir = $(MANDIR)
PYTHONDIR ?= $(datadir)/memplan/python
FORTRANDIR ?= $(datadir)/memplan/fortran
BASHDIR ?= $(datadir)/bash-completion/completions
ZSHDIR ?= $(datadir)/zsh/site-functions
PKGCONFIGDIR ?= $(libdir)/pkgconfig
CMAKEDIR ?= $(libdir)/cmake/memplan
DESTDIR ?=

INSTALL ?= install
INSTALL_PROGRAM ?= $(INSTALL) -m 755
INSTALL_DATA ?= $(INSTALL) -m 644

# A folder that is told from elsewhere would be another one for each Makefile, and for who reads memplan.pc.
absolute:
	@for folder in '$(prefix)' '$(exec_prefix)' '$(bindir)' '$(libdir)' '$(includedir)' '$(mandir)'; do \
	    case "$$folder" in '' | /*) ;; *) echo "make: the folder $$folder does not begin with a /" >&2; exit 1 ;; esac; \
	done

.PHONY: absolute
