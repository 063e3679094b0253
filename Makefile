# `make help` lists what can be made.
PREFIX ?= /usr/local
# The processor to build for, or several. That of this machine may not do for the one that the program is to run on.
CPU := $(shell ./launcher/cpu)
# A folder with the built programs, as CPU/bkreplay and CPU/origin, in place of out.
BUILT =

# Recipes take these from the environment, so they may have spaces in them.
export PREFIX DESTDIR CPU BUILT SUMS

build: ## prove and build the program into out/CPU (20 minutes on four cores, once)
	@for it in $$CPU; do ./launcher/build "$$it" || exit; done

help: ## print this list
	@echo 'make [TARGET] [PREFIX=/usr/local] [DESTDIR=] [CPU=default|x86-64-v2|x86-64-v3, or several in quotes]'
	@sed -n 's/^\([a-z]*\):.*## \(.*\)/\1|\2/p' Makefile | while IFS='|' read -r target text; do \
		printf '  %-9s  %s\n' "$$target" "$$text"; done
	@echo 'CPU is the processor to build for; without it, x86-64-v3 if this machine has all that it needs, and else default,'
	@echo 'which every x86-64 processor runs. BUILT names a folder with built programs, which are taken in place of those in out.'

check: ## run the gate, .ci/run: bench/edits and rt ci (an hour and more on four cores); out/gate has what it said
	./dev gate

test: check ## the same

measure: ## measure `run` with the built program, beside `sha256sum`; `./dev measure` has more to measure
	./dev measure

install: ## copy the program, man page, completions, documents and examples below DESTDIR and PREFIX
	@[ -n "$$BUILT" ] || for it in $$CPU; do ./launcher/build "$$it" || exit; done
	./launcher/install "$$DESTDIR$$PREFIX" "$${BUILT:-out}" $$CPU

uninstall: ## remove what install has copied
	./launcher/install --remove "$$DESTDIR$$PREFIX"

dist: ## archives of the sources and of the program, their sums, and a page on where they come from, in out/dist
	./launcher/package dist $${BUILT:+--built "$$BUILT"}

deb: ## a Debian package with the builds for default and x86-64-v3, in out/dist
	./launcher/package deb $${BUILT:+--built "$$BUILT"}

reproduce: ## with SUMS=FILE, the SHA256SUMS of a release: prove, build and pack, and compare with these sums
	./launcher/package reproduce $${BUILT:+--built "$$BUILT"} $${SUMS:+"$$SUMS"}

clean: ## remove all that was built, and what was proved for it
	rm -rf out crates/*/out

# dist and deb write the same file of sums.
.NOTPARALLEL:
.PHONY: build help check test measure install uninstall dist deb reproduce clean
