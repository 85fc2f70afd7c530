# Installs the program, its page of the manual, its completion for bash, and the tools around it:
#   make install [prefix=/usr/local] [DESTDIR=]
# The program is proved and built first, unless it is there.
prefix = /usr/local
program = crates/hypercube/out/hypercube
root = $(DESTDIR)$(prefix)
home = $(root)/share/hypercube/tools
page = share/man/man1/hypercube.1
completion = share/bash-completion/completions/hypercube

.PHONY: help install uninstall

help:
	@sed -n '1,3s/^# *//p' Makefile

$(program):
	python3 scripts/program.py build

install: $(program)
	install -d "$(root)/bin" "$(home)/hypercube_tools" "$(root)/$(dir $(page))" "$(root)/$(dir $(completion))"
	install -m 755 "$(program)" "$(root)/bin/hypercube"
	install -m 644 $(page) "$(root)/$(page)"
	install -m 644 $(completion) "$(root)/$(completion)"
	install -m 644 tools/hypercube_tools/*.py "$(home)/hypercube_tools"
	install -m 755 tools/hypercube-tools "$(home)"
	ln -sf ../share/hypercube/tools/hypercube-tools "$(root)/bin/hypercube-tools"

uninstall:
	rm -f "$(root)/bin/hypercube" "$(root)/bin/hypercube-tools" "$(root)/$(page)" "$(root)/$(completion)"
	rm -rf "$(root)/share/hypercube"
