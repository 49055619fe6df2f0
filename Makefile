# Installs the program, the tools as myrifab-NAME, the manual pages, and what bash and vim know of them. It proves nothing:
# the program is the one that tools/try runs, and the last line says whether that one is proved, as each tool does by --version.
#   make install [PREFIX=/usr/local] [DESTDIR=FOLDER]
#   make uninstall [PREFIX=/usr/local] [DESTDIR=FOLDER]
PREFIX = /usr/local
TOOLS = try explain page make what-if dot compare judge judge-routes from-ibnetdiscover to-ibsim

# The tools name the program by its whole path.
ifneq ($(words $(PREFIX)),1)
$(error PREFIX is one path without a space)
endif
override PREFIX := $(abspath $(PREFIX))

bin = $(DESTDIR)$(PREFIX)/bin
lib = $(DESTDIR)$(PREFIX)/lib/tilgemor
man = $(DESTDIR)$(PREFIX)/share/man
bash = $(DESTDIR)$(PREFIX)/share/bash-completion/completions
vim = $(DESTDIR)$(PREFIX)/share/vim/vimfiles

help:
	@sed -n 's/^# *//p' Makefile | head -n 4

install:
	program=$$(tools/try --program) && install -D -m 755 "$$program" $(bin)/myrifab
	install -d $(lib)/tools $(bash) $(man)/man1
	cp -R $(TOOLS:%=tools/%) tools/fabtools $(lib)/tools
	rm -rf $(lib)/tools/fabtools/__pycache__
	tools/try --version | sed -e '1s/.*, //' -e '2s|.*|$(PREFIX)/bin/myrifab|' >$(lib)/tools/installed
	tools/list-tools $(TOOLS) >$(man)/man1/myrifab-tools.1
	install -D -m 644 tools/bash/myrifab $(bash)/myrifab
	for tool in $(TOOLS); do \
	  printf '#!/bin/sh\nMYRIFAB=$${MYRIFAB:-%s} exec %s "$$@"\n' '$(PREFIX)/bin/myrifab' "$(PREFIX)/lib/tilgemor/tools/$$tool" >$(bin)/myrifab-$$tool && \
	  chmod 755 $(bin)/myrifab-$$tool && ln -sf myrifab $(bash)/myrifab-$$tool && \
	  ln -sf myrifab-tools.1 $(man)/man1/myrifab-$$tool.1 || exit 1; \
	done
	for page in 1 5; do install -D -m 644 man/myrifab.$$page $(man)/man$$page/myrifab.$$page || exit 1; done
	for part in syntax ftdetect ftplugin; do install -D -m 644 tools/vim/$$part/myrifab.vim $(vim)/$$part/myrifab.vim || exit 1; done
	@sed -n '2{N;s/\n/: /;s/^/installed /;p;}' $(lib)/tools/installed

uninstall:
	rm -rf $(lib)
	rm -f $(bin)/myrifab $(TOOLS:%=$(bin)/myrifab-%) $(bash)/myrifab $(TOOLS:%=$(bash)/myrifab-%)
	rm -f $(man)/man1/myrifab.1 $(man)/man1/myrifab-tools.1 $(TOOLS:%=$(man)/man1/myrifab-%.1) $(man)/man5/myrifab.5
	rm -f $(vim)/syntax/myrifab.vim $(vim)/ftdetect/myrifab.vim $(vim)/ftplugin/myrifab.vim

.PHONY: help install uninstall
