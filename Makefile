# Puts what was built into a tree, and takes it away again; `tools/install` says how. It builds nothing.
#
#     make install PREFIX=/usr/local DESTDIR= LIBDIR=lib
#     make uninstall PREFIX=/usr/local DESTDIR= LIBDIR=lib
PREFIX = /usr/local
DESTDIR =
LIBDIR = lib
export PREFIX DESTDIR LIBDIR

.PHONY: help install uninstall
help:
	@sed -n 's/^#     //p' Makefile

install:
	@tools/install "$$PREFIX"

uninstall:
	@tools/install --uninstall "$$PREFIX"
