# The targets: make help.
PROGRAM := crates/nixswitch/out/nixswitch
SOURCES := crates.txt $(shell find crates \( -name '*.rt' -o -name '*.antt' \) -not -path '*/out/*')
BENCHES := $(filter-out bench/common.sh bench/made_machine.sh bench/example.sh bench/steps.sh,$(wildcard bench/*.sh))
PREFIX := /usr/local
INTO := $(DESTDIR)$(PREFIX)
# What is installed, as the file here and its place below the prefix.
INSTALLED := $(PROGRAM):bin/nixswitch tools/import:bin/nixswitch-import tools/export:bin/nixswitch-export \
	tools/reboot:bin/nixswitch-reboot \
	man/nixswitch.8:share/man/man8/nixswitch.8 \
	completion/nixswitch.bash:share/bash-completion/completions/nixswitch \
	completion/nixswitch.fish:share/fish/vendor_completions.d/nixswitch.fish

.PHONY: help run build test check docs bench install uninstall

# What a target does stands behind its name.
help: ## lists the targets
	@sed -n 's/^\([a-z]*\):[^#]*## \(.*\)/make \1: \2/p' Makefile

run: ## shows a boot, a switch and a rollback on copies of the example roots: unproved, until make build has built the program
	@if $(MAKE) -qs $(PROGRAM); then echo "Each crate of this program was proved before it was built."; bench/example.sh $(PROGRAM); \
	else bench/example.sh; fi

build: $(PROGRAM) ## proves each crate below the program, and leaves it at crates/nixswitch/out/nixswitch

$(PROGRAM): $(SOURCES)
	cd crates/nixswitch && rt run -- --version
	@touch $(PROGRAM)

test: ## runs the gate: documents, proofs, edits that must fail, tests, and programs as two compilers build them
	.ci/run

check: ## proves one crate and those below it that have changed, as make check CRATE=unit_text
	@test -d "crates/$(CRATE)/src" || { echo "name a crate: make check CRATE=unit_text"; exit 1; }
	cd crates/$(CRATE) && rt check

docs: ## writes docs/BELIEVED.md, and who uses which crate into docs/ARCHITECTURE.md
	docs/check.sh --write

bench: build ## runs the scripts of bench/ with the built program: speed, hostile roots, kills and losses of power
	@failed=; for script in $(BENCHES); do echo "== $$script"; $$script || failed="$$failed $$script"; done; \
	[ -z "$$failed" ] || { echo "these ended with an error:$$failed"; exit 1; }

install: ## installs the built program, its page, its completions and the tools below PREFIX (/usr/local)
	@test -x $(PROGRAM) || { echo "build the program first: make build"; exit 1; }
	@set -e; for pair in $(INSTALLED); do case $$pair in *:bin/*) mode=755;; *) mode=644;; esac; \
	echo "$(INTO)/$${pair#*:}"; install -D -m $$mode "$${pair%%:*}" "$(INTO)/$${pair#*:}"; done
	@for name in nixswitch-import nixswitch-export; do \
	ln -sf nixswitch "$(INTO)/share/bash-completion/completions/$$name"; \
	ln -sf nixswitch.fish "$(INTO)/share/fish/vendor_completions.d/$$name.fish"; done

uninstall: ## removes what install has put below PREFIX
	@for pair in $(INSTALLED); do rm -f "$(INTO)/$${pair#*:}"; done
	@for name in nixswitch-import nixswitch-export; do \
	rm -f "$(INTO)/share/bash-completion/completions/$$name" "$(INTO)/share/fish/vendor_completions.d/$$name.fish"; done
