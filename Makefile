# The gate and the program. All of it needs the Rattle kit's command `rt` on the PATH; mutants, rows and examples need
# python3, the tests of the tools Python 3.11 with pytest, mypy and Jinja2 (Debian's packages python3-pytest, mypy and python3-jinja2).

SHELL := /bin/bash
.DEFAULT_GOAL := help
.PHONY: help kit replay once checker packages test proofs mutants shown check pending rows examples pictures torture clean \
	install uninstall deb manual tools run-tools lab

# Prints what the part took when it ends.
comma = ,
part = TIMEFORMAT='part $(1): %0R s, %0U and %0S s of processor time'; time

help:
	@echo 'make replay            a first answer: replays the stored run, with nothing proved yet (a minute and a half)'
	@echo 'make once              proves and builds the program, ./once'
	@echo 'make checker           proves and builds the checker of certificates by itself, ./once_check, over fewer crates'
	@echo 'make install           installs the program, man page, completion, documents, examples; PREFIX=/usr/local DESTDIR='
	@echo 'make uninstall         removes them'
	@echo 'make deb               builds a Debian package of the same, once_VERSION_amd64.deb'
	@echo 'make manual            writes the man page and the completion anew, from the help of ./once'
	@echo 'make test              the gate: all proofs, mutants, tests, rows and examples; what passed here before is not repeated'
	@echo 'make check             in minutes, before a proof: front ends, lists, rows, and proofs of the crates that changed'
	@echo 'make pending           lists what the gate would still have to prove and try on this machine'
	@echo 'make mutants NAME=CRATE  tries the mutants of one crate; NAME=CRATE/WORD those with WORD in their names'
	@echo 'make shown             runs the rows that mutants name over one program that has all mutants'
	@echo 'make rows              proves and builds the program, and runs the steps of the gate over it'
	@echo 'make examples          the same for the examples alone'
	@echo 'make tools             checks the types of once-import, once-mend, once-part and once-report and runs their tests, over ./once or ONCE=PROGRAM'
	@echo 'make lab               compares ./once with running exporters and collectors, as root (docs/LAB.md); ALL=1 for all scenarios'
	@echo 'make pictures          draws the pictures of the examples anew (needs Graphviz)'
	@echo 'make torture           the same over inputs that are made to do harm, for an hour or more'
	@echo 'make clean             removes what was built'

kit:
	@command -v rt >/dev/null || { echo "rt not found: install the Rattle kit (rattle-kit-13b) and put its bin/ folder on the PATH"; exit 2; }

# Runs the program on the stored bundle, a run of two packets through one meter and one collector, before any proof.
replay: kit
	@cd crates/once && rt try < stdin
	@echo 'This ran without proof. `make once` proves the program and builds it as ./once.'

# The program, proved and built; run on the stored bundle.
once: kit
	@python3 packaging/prove_program.py
	@crates/once/out/program/once < crates/once/stdin | diff - crates/once/stdout
	@ln -sf crates/once/out/program/once once
	@echo 'once: proved and built as ./once'

# The checker by itself: what whoever receives a certificate has to prove and build.
checker: kit
	@python3 packaging/prove_program.py once_check
	@ln -sf crates/once_check/out/program/once_check once_check
	@python3 tests/checker.py ./once_check
	@echo 'once_check: proved and built as ./once_check'

# Installs the Debian packages that tests need, where that is possible.
packages:
	@python3 packaging/install_packages.py packaging/test-packages

# The gate. Libraries that earlier checks left go first, so that mutants are tried over those that are proved here.
# ANEW=--anew repeats what passed on this machine before.
ANEW =
test: kit packages
	rm -rf crates/*/out/rlib
	@$(call part,proofs$(comma) tests and mutants) $(MAKE) --no-print-directory proofs
	@$(call part,cases of mutants) python3 tests/mutants_test.py --as-built
	@$(call part,rows and examples) python3 tests/gate.py $(ANEW)
	@python3 tests/passed.py --note

# Proves every crate and its tests, runs the tests and the program, which two compilers build, and tries all mutants.
proofs:
	python3 tests/prove.py $(ANEW)
	ln -sf crates/once/out/once once

# Tries mutants over the work that checks have kept.
mutants: kit
	python3 tests/mutants.py --kept --jobs 2 $(NAME)

# Builds one program with all mutants, without a proof, and holds each line `shows: row NAME` of a mutant against it.
shown: kit
	python3 tests/show_mutants.py $(NAME)

# What can be said in minutes, before the gate: the front ends of all crates, the lists, the steps over a program that is built without
# a proof, and proofs of the crates that changed since the last commit known to pass.
check: kit
	@python3 packaging/build_unproved.py
	@ln -sf out/unproved/once once
	@python3 tests/gate.py definitions clauses crates callers refusals english links names lint "unit tests" rows examples
	@names=$$(python3 tests/passed.py --changed) && if [ -n "$$names" ]; then rt ci $$names; fi

# Lists what the gate would still have to prove and try on this machine, with the time that docs/GATE.md has for each.
pending: kit
	@python3 tests/pending.py

# Runs the steps of tests/steps.py over the program: lists, schemas, tools, worked rows, faults of memory and devices, changed inputs.
rows: once
	python3 tests/gate.py

# Replays the runs of the examples, checks their certificates, confirms their refutations and meters their captures; then has
# what an audit of each answers judged.
examples: once
	python3 tests/gate.py examples "generated examples" scale

# Checks the types of the tools and runs their tests, with the first Python that has pytest.
tools: run-tools

PYTHON = $(shell for python in python3 /usr/bin/python3; do $$python -c 'import pytest' 2> /dev/null && echo $$python && break; done)
ONCE = $(abspath ./once)
# Two workers, if pytest has the plugin for them.
WORKERS = $(shell $(PYTHON) -c 'import xdist' 2> /dev/null && echo "-n 2")

run-tools:
	@[ -n "$(PYTHON)" ] || { echo 'pytest not found: install it (Debian: python3-pytest)'; exit 2; }
	@command -v mypy > /dev/null || { echo 'mypy not found: install it (Debian: mypy)'; exit 2; }
	@$(PYTHON) -c 'import jinja2' 2> /dev/null || { echo 'jinja2 not found: install it (Debian: python3-jinja2)'; exit 2; }
	cd tools && mypy --strict --cache-dir=/dev/null once_tools lab
	cd tools && ONCE=$(ONCE) $(PYTHON) -B -m pytest -q -rs -p no:cacheprovider $(WORKERS) tests

# Runs exporters and collectors in network namespaces, and compares their totals with what the program predicts (docs/LAB.md):
# a core of scenarios, ALL=1 all of them, ARGUMENTS= names and options.
ALL =
ARGUMENTS =
lab:
	@python3 packaging/install_packages.py packaging/lab-packages
	@cd tools && ONCE=$(ONCE) /usr/bin/env python3 -B -m lab.main $(if $(ALL),--all) $(ARGUMENTS)

# Draws the pictures of the examples anew, with Graphviz's dot: each network with its traffic and its certificate or
# refutation.
pictures: once
	for network in examples/*/network.json; do \
	  example=$$(dirname $$network); \
	  ./once draw $$network $$example/traffic.json $$(ls $$example/certificate.txt $$example/refutation.txt 2>/dev/null) \
	    | dot -Tsvg > $$example/picture.svg || exit 1; \
	done

# What takes an hour or more: the program over 100,000 changed inputs of each kind, over all cuts of the rows' files, over a
# capture of 50,000,000 frames, and over streams that are made to cost.
torture: once
	python3 tests/mutated_inputs.py ./once --each 100000
	python3 tests/cut_inputs.py ./once --all
	python3 tests/long_runs.py ./once
	python3 tests/hostile_streams.py ./once

clean:
	rm -rf out crates/*/out once once_check

# Where things go. Documents keep their places beside each other, as they name them. Debian's own packages have zsh's
# completion elsewhere than programs that are installed by hand.
PREFIX = /usr/local
DESTDIR =
PROGRAM = ./once
BIN = $(DESTDIR)$(PREFIX)/bin
SHARE = $(DESTDIR)$(PREFIX)/share
ZSH = $(SHARE)/zsh/site-functions
DOCUMENTS = $(wildcard $(addprefix docs/,GUIDE.md FORMATS.md REFUSALS.md PROVED.md BELIEVE.md DECISIONS.md GLOSSARY.md SCALE.md))

# Installs ./once, which is proved and built first where it isn't there; PROGRAM= names another.
install:
	@[ -x $(PROGRAM) ] || $(MAKE) --no-print-directory once
	install -D -m 755 $(PROGRAM) $(BIN)/once
	install -D -m 644 packaging/once.1 $(SHARE)/man/man1/once.1
	install -D -m 644 packaging/once.bash $(SHARE)/bash-completion/completions/once
	install -D -m 644 packaging/_once $(ZSH)/_once
	install -D -m 644 -t $(SHARE)/doc/once README.md CHANGELOG.md SECURITY.md
	install -D -m 644 -t $(SHARE)/doc/once/docs $(DOCUMENTS) docs/report-certificate.png docs/report-refutation.png
	install -D -m 644 -t $(SHARE)/doc/once/docs/schemas docs/schemas/*
	cd examples && find . -type f ! -name '*.pyc' -exec install -D -m 644 {} "$(abspath $(SHARE))/doc/once/examples/{}" \;
	install -D -m 755 -t $(BIN) tools/once-import tools/once-mend tools/once-part tools/once-report
	cd tools && find once_tools \( -name '*.py' -o -name '*.j2' -o -name '*.css' \) -exec install -D -m 644 {} "$(abspath $(SHARE))/once/{}" \;
	install -D -m 644 -t $(SHARE)/man/man1 packaging/once-import.1 packaging/once-mend.1 packaging/once-part.1 packaging/once-report.1
	install -D -m 644 -t $(SHARE)/doc/once/tools tools/README.md
	install -D -m 644 -t $(SHARE)/doc/once/tools/examples tools/examples/*

uninstall:
	rm -f $(addprefix $(BIN)/,once-import once-mend once-part once-report) $(addprefix $(SHARE)/man/man1/,once-import.1 once-mend.1 once-part.1 once-report.1)
	rm -rf $(SHARE)/once
	rm -f $(BIN)/once $(SHARE)/man/man1/once.1 $(SHARE)/bash-completion/completions/once $(ZSH)/_once
	rm -rf $(SHARE)/doc/once

deb:
	rm -rf out/deb
	$(MAKE) --no-print-directory install PREFIX=/usr DESTDIR=out/deb ZSH=out/deb/usr/share/zsh/vendor-completions
	packaging/deb.sh out/deb

manual:
	@[ -x $(PROGRAM) ] || $(MAKE) --no-print-directory once
	python3 packaging/manual.py $(PROGRAM)
