# make              proves and builds the program: build/reformat
# make demo         rewrites a small input, and shows it before and after
# make examples     runs every example and compares it with what is expected; NAME=counters: that one alone
# make test         the gate: every proof, must-fail edit, test, program and example; make check is the same
# make conformance  replays what the Rust crates answered; FILE=path: other cases
# make faults       each allocation, read and write refused in turn, on every example and on calls of the libraries
# make hostile      inputs of hostile sizes: status, output, time and memory of each; MEMORY=1000: those that need fewer MiB
# make random       random cases against a small model, for a minute; CASES=1000000: so many, however long they take
# make pages        compares the manual page with its copy, the version and the messages, and runs the commands that pages show
# make deb          makes a Debian package below build, of the program, or of another one: PROGRAM=path
# make install      copies the program, its manual page and the completion for bash below PREFIX
# make uninstall    removes them
# make clean        removes what was built, and what the prover kept
# make help         prints these lines
RT ?= rt
PREFIX ?= /usr/local
FILE ?= crates/conformance/stdin
NAME ?=
PROGRAM ?= build/reformat
MEMORY ?= 8500
CASES ?=

.PHONY: all build/reformat build/conformance build/library_calls demo examples test check conformance faults hostile random pages deb install uninstall clean help

all: build/reformat

# rt looks for what changed, and proves that again: each target asks it, and nothing here lists sources.
build/reformat:
	@mkdir -p build
	cd crates/reformat_cli && $(RT) run -- rewrite <stdin >../../build/reformat.stdout
	cmp crates/reformat_cli/stdout build/reformat.stdout
	cp crates/reformat_cli/out/reformat_cli build/reformat

build/conformance:
	@mkdir -p build
	cd crates/conformance && $(RT) run <stdin >../../build/conformance.stdout
	cmp crates/conformance/stdout build/conformance.stdout
	cp crates/conformance/out/conformance build/conformance

build/library_calls:
	@mkdir -p build
	cd crates/library_calls && $(RT) run >../../build/library_calls.stdout
	cmp crates/library_calls/stdout build/library_calls.stdout
	cp crates/library_calls/out/library_calls build/library_calls

demo: build/reformat
	@echo '--- examples/access_sentence/input: six header lines, then the rows'; cat examples/access_sentence/input
	@echo '--- build/reformat rewrite <examples/access_sentence/input'; build/reformat rewrite <examples/access_sentence/input

examples: build/reformat
	tools/run-examples build/reformat $(NAME)

test check:
	bash .ci/run

conformance: build/conformance
	build/conformance <$(FILE)

faults: build/reformat $(if $(NAME),,build/library_calls)
	tools/refuse-calls build/reformat $(NAME)
	$(if $(NAME),,tools/refuse-calls build/library_calls crates/library_calls)

hostile: build/reformat
	tools/hostile build/reformat --memory $(MEMORY)

random: build/reformat
	tools/random-cases build/reformat $(if $(CASES),--cases $(CASES) --seconds 86400)

pages: $(PROGRAM)
	tools/manual $(PROGRAM)

deb: $(PROGRAM)
	tools/deb $(PROGRAM) build

install: $(PROGRAM)
	install -D -m 755 $(PROGRAM) $(DESTDIR)$(PREFIX)/bin/reformat
	install -D -m 644 docs/reformat.1 $(DESTDIR)$(PREFIX)/share/man/man1/reformat.1
	install -D -m 644 completions/reformat.bash $(DESTDIR)$(PREFIX)/share/bash-completion/completions/reformat

uninstall:
	rm -f $(DESTDIR)$(PREFIX)/bin/reformat $(DESTDIR)$(PREFIX)/share/man/man1/reformat.1
	rm -f $(DESTDIR)$(PREFIX)/share/bash-completion/completions/reformat

clean:
	rm -rf build crates/*/out

help:
	@sed -n 's/^# \(make\)/\1/p' Makefile
