# The toolchain's command `rt` is expected on the path.
#
#   make run    runs an example: five routers with labels, of which one was moved, and who notices
#   make pls    proves all that the program stands on, builds it, and leaves it as ./pls
#   make test   the gate: every proof, every edit that must be refused, every test, the program
#               and the desk
#   make believed   writes the definitions that the clauses of `run` rest on to out/believed.md, and
#                   prints how many lines each clause has of them and what is stale in the tables
#                   of docs/DEFINITIONS.md
#   make examples   runs each command that the documents show, and compares what it writes
#   make desk       tests the Python desk (docs/DESK.md) against the built program: ./pls, or the one
#                   that the gate left in crates/pls_main/out, whichever is newer

.PHONY: run test believed examples desk

PROGRAM := crates/pls_main/out/pls_main
SOURCES := Makefile crates.txt $(shell find crates -path '*/out' -prune -o -type f \( -name '*.rt' -o -name '*.antt' \) -print)

# The sources as they are, which takes less time than their proofs. The example stands on few crates,
# and the program on all.
run:
	@command -v rt > /dev/null || { echo 'the toolchain command rt is not on the path' >&2; exit 1; }
	@echo 'running the sources unproved (make test proves them)' >&2
	@log=$$(mktemp) && cd crates/pls_example_routers && rt try 2> $$log || \
		{ status=$$?; cat $$log >&2; exit $$status; }

pls: $(PROGRAM)
	cp $(PROGRAM) pls

# What the gate left there serves, where no source is newer. The program is run without words, and
# answers `usage`.
$(PROGRAM): $(SOURCES)
	rm -f $(PROGRAM)
	python3 tools/prove pls_main
	cd crates/pls_main && rt run < /dev/null > /dev/null; test -x out/pls_main

test:
	.ci/run

believed:
	@python3 tools/believed -o out/believed.md -t docs/DEFINITIONS.md

# Needs ./pls, a shell, awk and Python 3.11.
examples: pls
	sh tools/examples.sh README.md docs/TUTORIAL.md docs/TUTORIAL_DESK.md docs/DESK.md docs/RULES.md examples/README.md

# Needs a program that is built, and Python 3.11.
desk:
	cd python && python3 -m unittest discover --start-directory tests --top-level-directory .
