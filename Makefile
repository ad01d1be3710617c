# make: the program, crates/yq/out/yq, proved and built.
# make test: the whole gate: every proof from nothing, wrong bodies, tests, and the program on real files; ANEW=1: also what is kept.
# make ready: layout, imports, stray sources, definitions without a section, names that two files define, words that the glossary
#   replaces, crates that aren't there, wide clauses, wrong bodies that can't be applied, versions that differ, options that
#   differ from their table, and links of pages that lead nowhere, in some 20 seconds.
# make look: builds the program without proofs and prints an edit, in some two minutes.
# make demo: one edit and its undo, once all is proved.
# make install, make uninstall: puts the program, its man page, its pages and completions below PREFIX, or removes them; NAME=yqe: as yqe.
# make dist: an archive of these, dist/yq-VERSION-linux-x86_64.tar.gz.
# make wrong-bodies CRATES="yq_rows yq_lookup": the wrong bodies that the gate doesn't try; all crates where none is named.
# make corpus DIR=FOLDER: edits and their undo in a copy of each YAML file of a folder.
# make bench: time, instructions and memory of reading, editing and parsing; DIR=FOLDER names a folder of YAML files to be read too.
# make clean: removes what was proved and built.
# make help: these lines. With YQ=PROGRAM install, dist, corpus and bench take that program, and build none.

# The name under which the program is installed; man page, completions and help follow it.
NAME ?= yq
PREFIX ?= $(HOME)/.local
YQ := crates/yq/out/yq
SOURCES := $(shell find crates -path '*/out' -prune -o -type f \( -name '*.rt' -o -name '*.antt' \) -print) crates.txt

# Where files are installed, below PREFIX.
PLACE := $(DESTDIR)$(PREFIX)
PROGRAM := $(PLACE)/bin/$(NAME)
MAN := $(PLACE)/share/man/man1/$(NAME).1
BASH_WORDS := $(PLACE)/share/bash-completion/completions/$(NAME)
FISH_WORDS := $(PLACE)/share/fish/vendor_completions.d/$(NAME).fish
ZSH_WORDS := $(PLACE)/share/zsh/site-functions/_$(NAME)
DOC := $(PLACE)/share/doc/$(NAME)
PAGES := MANUAL.md FROM-YQ-V4.md EXPRESSIONS.md TEXT.md STYLE-AND-EXTENTS.md JOURNAL.md

# The man page and the completions under that name; the other program's name and that of leftovers stay.
NAMED_MAN := sed -e '/yq version 4\|mikefarah\|Pa \.yq/!s/\<yq\>/$(NAME)/g' -e 's/^\.Dt YQ /.Dt \U$(NAME)\E /' man/yq.1
NAMED_WORDS := sed 's/yq/$(NAME)/g'

# One line, and no more, where the toolchain isn't there.
RATTLE := $(lastword $(or $(RT),rt))
NO_RATTLE := no command $(RATTLE): the toolchain, which proves and builds, isn't there. Without it: make help, docs/, the archive that \
	README.md names, and install, corpus and bench with YQ=PROGRAM
need_rattle = $(if $(shell command -v $(RATTLE)),,$(error $(NO_RATTLE)))

.PHONY: test ready wrong-bodies look demo install uninstall dist bench corpus no-folder clean help

ifeq ($(origin YQ),file)
$(YQ): $(SOURCES)
	$(need_rattle)
	python3 tools/build.py
	@touch $(YQ)
endif

help:
	@sed '/^#/!q; s/^# //' Makefile

test:
	$(need_rattle)
	python3 tools/gate.py $(YQ) $(if $(ANEW),--anew)

ready:
	$(need_rattle)
	@python3 tools/ready.py

wrong-bodies:
	$(need_rattle)
	python3 tools/wrong_bodies.py $(CRATES)

look:
	$(need_rattle)
	@sh examples/look.sh

demo: $(YQ)
	@sh examples/demo.sh $(YQ) examples/server.yaml

install: $(YQ)
	install -Dm755 $(YQ) "$(PROGRAM)"
	$(NAMED_MAN) | install -Dm644 /dev/stdin "$(MAN)"
	$(NAMED_WORDS) completions/yq.bash | install -Dm644 /dev/stdin "$(BASH_WORDS)"
	$(NAMED_WORDS) completions/yq.fish | install -Dm644 /dev/stdin "$(FISH_WORDS)"
	$(NAMED_WORDS) completions/_yq | install -Dm644 /dev/stdin "$(ZSH_WORDS)"
	install -d "$(DOC)"
	install -m644 $(PAGES:%=docs/%) "$(DOC)"

uninstall:
	rm -f "$(PROGRAM)" "$(MAN)" "$(BASH_WORDS)" "$(FISH_WORDS)" "$(ZSH_WORDS)"
	for page in $(PAGES); do rm -f "$(DOC)/$$page"; done
	if test -d "$(DOC)"; then rmdir --ignore-fail-on-non-empty "$(DOC)"; fi

dist: $(YQ)
	python3 tools/dist.py $(YQ) dist

bench: $(YQ)
	python3 bench/read.py $(YQ)
	python3 bench/reads.py $(YQ)
	python3 bench/edit.py $(YQ)
	python3 bench/updates.py $(YQ)
	python3 bench/journal.py $(YQ)
	python3 bench/cost.py $(YQ) $(DIR)
	python3 bench/expressions.py $(YQ)
	python3 bench/hostile.py $(YQ)
	python3 bench/ratios.py $(YQ)

corpus: $(if $(DIR),,no-folder) $(YQ)
	python3 tests/cli/corpus.py $(YQ) "$(DIR)"

no-folder:
	@echo "make corpus DIR=FOLDER: DIR, the folder with YAML files, is missing" >&2; exit 2

clean:
	rm -rf crates/*/out dist
