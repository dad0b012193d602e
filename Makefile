# memplan: the program, the libraries, the Python package; their installation, a tarball of them, and the tests that need no toolchain.
#
#   make                      the program and the libraries
#   make install PREFIX=..    them, memplan.h, what pkg-config and CMake look for, the Python package and the Fortran module, the man page,
#                             completions for bash and zsh; DESTDIR= for packages
#   make uninstall PREFIX=..
#   make dist                 dist/memplan-VERSION-Linux-x86_64.tar.gz, and its checksum beside it
#   make wheel                dist/memplan-VERSION-py3-none-linux_x86_64.whl, for pip, by Python 3.11 or later
#   make test                 tests of the program and of all that is around it; the last line is 'N passed, M failed'
#
# tools/program.sh says which program it is, c/Makefile which libraries, and c/directories.mk what goes where; no toolchain is needed where
# prebuilt/ is of these sources.

VERSION := $(shell sed -n 's/^\#define MEMPLAN_VERSION "\(.*\)"$$/\1/p' c/memplan.h)
NAME := memplan-$(VERSION)-Linux-x86_64
SETTLED = here='$(CURDIR)'; . tools/program.sh; find_program
PYTHON := $(notdir $(wildcard python/memplan/*.py python/memplan/*.html python/memplan/py.typed))
DASK := $(notdir $(wildcard python/memplan/dask/*.py))

all:
	bash -uc '$(SETTLED)'
	$(MAKE) -C c

include c/directories.mk

# The same folder for both Makefiles, wherever it is told from.
STAGE = $(if $(DESTDIR),$(if $(filter /%,$(firstword $(DESTDIR))),$(DESTDIR),$(CURDIR)/$(DESTDIR)))
# The Python package looks for the library and the program in these folders by itself; in another one it is told by a link.
LOOKED_IN = $(abspath $(PYTHONDIR)/../lib $(PYTHONDIR)/../../../lib)
RUN_FROM = $(abspath $(PYTHONDIR)/../bin $(PYTHONDIR)/../../../bin)
SONAME := libmemplan.so.$(firstword $(subst ., ,$(VERSION)))

install: all absolute
	$(INSTALL) -d '$(STAGE)$(bindir)' '$(STAGE)$(PYTHONDIR)/memplan/dask' '$(STAGE)$(mandir)/man1' '$(STAGE)$(BASHDIR)' '$(STAGE)$(ZSHDIR)'
	bash -uc '$(SETTLED); $(INSTALL_PROGRAM) "$$program" "$$0"' '$(STAGE)$(bindir)/memplan'
	$(INSTALL_DATA) $(PYTHON:%=python/memplan/%) '$(STAGE)$(PYTHONDIR)/memplan/'
	$(INSTALL_DATA) $(DASK:%=python/memplan/dask/%) '$(STAGE)$(PYTHONDIR)/memplan/dask/'
	[ -n '$(filter $(LOOKED_IN),$(libdir))' ] || ln -sf "$$(realpath --canonicalize-missing --no-symlinks \
	    --relative-to='$(PYTHONDIR)/memplan' '$(libdir)/$(SONAME)')" '$(STAGE)$(PYTHONDIR)/memplan/$(SONAME)'
	[ -n '$(filter $(RUN_FROM),$(bindir))' ] || ln -sf "$$(realpath --canonicalize-missing --no-symlinks \
	    --relative-to='$(PYTHONDIR)/memplan' '$(bindir)/memplan')" '$(STAGE)$(PYTHONDIR)/memplan/memplan'
	$(INSTALL_DATA) docs/memplan.1 '$(STAGE)$(mandir)/man1/memplan.1'
	$(INSTALL_DATA) tools/completion/memplan.bash '$(STAGE)$(BASHDIR)/memplan'
	$(INSTALL_DATA) tools/completion/_memplan '$(STAGE)$(ZSHDIR)/_memplan'
	$(MAKE) -C c install DESTDIR='$(STAGE)'

# What Python has compiled beside the package goes too, and folders of memplan's own where nothing else is in them.
uninstall: absolute
	rm -f '$(STAGE)$(mandir)/man1/memplan.1' '$(STAGE)$(BASHDIR)/memplan' '$(STAGE)$(ZSHDIR)/_memplan' '$(STAGE)$(bindir)/memplan'
	cd '$(STAGE)$(PYTHONDIR)/memplan' 2>/dev/null && rm -rf $(PYTHON) $(DASK:%=dask/%) $(SONAME) memplan __pycache__ dask/__pycache__ || true
	rmdir '$(STAGE)$(PYTHONDIR)/memplan/dask' '$(STAGE)$(PYTHONDIR)/memplan' '$(STAGE)$(PYTHONDIR)' 2>/dev/null || true
	$(MAKE) -C c uninstall DESTDIR='$(STAGE)'

# What pkg-config says is relative to where the tarball is unpacked.
dist: all
	rm -rf dist && mkdir dist
	$(MAKE) install DESTDIR='$(CURDIR)/dist/$(NAME)' PREFIX= BINDIR=/bin PYTHONDIR=/python
	sed -i 's|^prefix=.*|prefix=$${pcfiledir}/../..|' dist/$(NAME)/lib/pkgconfig/memplan.pc
	install -m 644 prebuilt/README.md dist/$(NAME)/
	cd dist/$(NAME) && find . -type f ! -name SHA256SUMS | LC_ALL=C sort | xargs sha256sum > SHA256SUMS
	tar -C dist --sort=name --owner=0 --group=0 --numeric-owner --mtime='2000-01-01 00:00Z' -czf dist/$(NAME).tar.gz $(NAME)
	cd dist && sha256sum $(NAME).tar.gz > $(NAME).tar.gz.sha256

# The library inside is that of c/Makefile too.
wheel:
	python3 python/make_wheel.py dist

test:
	tools/run_tests

clean:
	rm -rf dist
	$(MAKE) -C c clean

.PHONY: all install uninstall dist wheel test clean
