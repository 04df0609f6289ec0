# Targets that run the commands of this repository. `make` alone lists them: the first build proves for minutes and needs the kit,
# so it begins only if you name it.

PREFIX = /usr/local
LIBDIR = lib
DESTDIR =

# Steps of the gate run `make` in folders of their own, which take none of these words.
unexport MAKEFLAGS

.PHONY: help library install test quick made

help:
	@echo 'make library     proves and builds the library for C, and lays it out in dist (./build-library)'
	@echo 'make install     the same in $$(DESTDIR)$$(PREFIX), libraries in $$(LIBDIR) there: DESTDIR= PREFIX=/usr/local LIBDIR=lib'
	@echo 'make test        proves each function and runs every test (./test)'
	@echo 'make quick       runs every test and proves nothing (./test --quick)'
	@echo 'make made        writes the made files that differ from their sources (make/made write)'

library:
	./build-library

install:
	./build-library --libdir '$(LIBDIR)' $(if $(DESTDIR),--destdir '$(DESTDIR)') '$(PREFIX)'

test:
	./test

quick:
	./test --quick

made:
	make/made write
