# The common commands. `make check C=toml_edit_key` takes the name of a crate; so do `test` and `edits`.
C = toml_edit
PREFIX = /usr/local
RT = PATH="/opt/rattle/bin:$$PATH" rt
ROWS = test_rows test_rows_tables test_rows_values
PEERS = tomlplusplus toml11

help: ## lists these commands
	@sed -n 's/^\([a-z]*\):.*## /\1\t/p' Makefile

check: ## proves one crate, C, and first those below it
	cd crates/$(C) && $(RT) check

test: ## runs the tests in code of one crate, C, unproved
	cd crates/$(C) && $(RT) try --test

edits: ## tries the must-fail edits of one crate, C, once the gate has proved those below it
	tools/edits.py $(C)

rows: ## tries all rows, unproved
	for program in $(ROWS); do (cd crates/$$program && $(RT) try --seconds 1500 < stdin) || exit; done

gate: ## checks the pages and everything else, as before a push
	.ci/run

pages: ## checks what the pages say
	tools/check.py

faults: ## plants faults into the pages, each of which tools/check.py must notice
	tools/faults.py

api: ## makes docs/api from the sources
	tools/api.py

fmt: ## lays out the sources of all crates
	for crate in crates/*/; do (cd $$crate && $(RT) fmt) || exit; done

definitions: ## tries changes of definitions, each of which must be refused
	PATH="/opt/rattle/bin:$$PATH" tools/definitions.py

refusals: ## refuses each allocation of each row in turn (needs the proved programs)
	tools/refusals.py

cost: ## runs the gate from nothing, and lists what it costs
	tools/gate_cost.py --anew

install: ## proves both programs and the library for C, and installs them, with manual pages, completions and a wheel, below PREFIX
	(cd crates/tomled && $(RT) run -- print < /dev/null)
	(cd crates/tomlfile && $(RT) run -- --version < /dev/null)
	PATH="/opt/rattle/bin:$$PATH" bindings/build
	tools/pack.py --install $(PREFIX)

coverage: ## lists the functions that no row or test enters
	tools/coverage.py

planted: ## plants bugs, each of which has to be found
	tools/planted.py

bench: ## counts instructions and heap (needs the proved program and valgrind)
	bench/run.py
	bench/run.py --memory

peers: ## builds the programs of toml++ and toml11, and counts beside them (needs the same, and g++)
	for name in $(PEERS); do (cd bench/$$name && mkdir -p target && g++ -O2 -std=c++17 -o target/$$name main.cpp) || exit; done
	bench/run.py $(foreach name,$(PEERS),--peers bench/$(name)/target/$(name))

collisions: ## the same with keys that collide
	bench/collisions.py

.PHONY: help install check test edits rows gate pages faults api fmt definitions refusals cost coverage planted bench peers collisions
