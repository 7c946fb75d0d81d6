# `make` builds the program, not proved; the targets below are listed by `make help`.

PREFIX ?= /usr/local
DESTDIR ?=
VERSION := $(shell cat VERSION)
ROOT := $(DESTDIR)$(PREFIX)

all: ## build the program, not proved, unless there is a proved one (a few minutes)
	tools/program apex

test: ## run all cases and tests, not proved
	tools/test

prove: ## prove and build both programs
	tools/program apex --proved
	tools/program apex_lab --proved

check: ## the gate: prove everything, try the wrong bodies, run tests and programs
	rt ci

pages: ## check the pages, and run their commands
	tools/pages --run

doc: ## print the comments of the crates, calls and definitions to out/doc, and the manual pages to out/man
	mkdir -p out/doc
	for word in crates modules calls definitions examples; do tools/list $$word > out/doc/$$word; done
	$(MAKE) man

man:
	mkdir -p out/man
	for page in apex apex_lab; do tools/manual man/$$page.txt $(VERSION) > out/man/$$page.1; done

bench: ## measure the built program
	bench/replay "$$(tools/program apex)"
	bench/check "$$(tools/program apex)"
	bench/growth "$$(tools/program apex)"

install: man ## install the program below PREFIX (/usr/local): the proved one if there is one
	install -d $(ROOT)/bin $(ROOT)/libexec/apex $(ROOT)/share/apex/man
	install -d $(ROOT)/share/man/man1 $(ROOT)/share/bash-completion/completions
	install "$$(tools/program apex)" $(ROOT)/libexec/apex/apex
	install "$$(tools/program apex_lab)" $(ROOT)/libexec/apex/apex_lab
	install apex $(ROOT)/bin/apex
	install -m 644 VERSION $(ROOT)/share/apex
	install -m 644 man/*.txt $(ROOT)/share/apex/man
	install -m 644 out/man/*.1 $(ROOT)/share/man/man1
	install -m 644 tools/completion.bash $(ROOT)/share/bash-completion/completions/apex

clean: ## remove what the targets above made, and not what rt keeps
	rm -rf out

help: ## print the targets
	@sed -n 's/^\([a-z]*\):.*## /\1\t/p' Makefile | expand -t 10

.PHONY: all test prove check pages doc man bench install clean help
