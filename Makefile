# make install and make uninstall, with PREFIX and DESTDIR: see ./install. make dist and make deb, with TO: see tools/dist.
# ./bcpl runs the program, and rt builds and proves it.
PREFIX = /usr/local
TO = out

all:
	@echo './bcpl runs the program, ./bcpl --build builds it; make install PREFIX=DIR installs it'

install:
	DESTDIR='$(DESTDIR)' ./install --prefix '$(PREFIX)'

uninstall:
	DESTDIR='$(DESTDIR)' ./install --prefix '$(PREFIX)' --uninstall

dist:
	tools/dist --to '$(TO)' source program

deb:
	tools/dist --to '$(TO)' deb

.PHONY: all install uninstall dist deb
