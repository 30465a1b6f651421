# `make` proves and builds the program, once. `make demo` places the cheapest repeaters with which all nets of the design in examples/ are
# on time, and beside it the best ones, writes the files to out/demo/, and times the whole design and its nets before and after; `make wire` prints the wire delays of a net, `make sta` the slacks
# of the whole design as it is, and `make check` checks a certificate of the design's worst net. Where the program is not built yet,
# they compile it and run it without a proof. `make test` runs the tests of flow/, and then the merge gate.
# `make flow` builds the program and tries the scripts of flow/ on a design of 2,600 cells, with OpenSTA and yosys.
# `make cases` runs the case files of crates/tests_runs/data without a proof, `make cases WORDS=best/refused.case` one of them, and
# `make cases WORDS='--print cases/best/refused.case'` prints it with what was found (see crates/tests_runs/data/FORMAT.md).
# `make pages` copies what the program of crates/tests_pages reads of the pages and examples into its data; the gate compares the copies.
.PHONY: build demo wire sta check cases pages flow test

DESIGN = --spef examples/soc.spef --verilog examples/soc.v --lib examples/soc.lib --cons examples/soc.cons
PAGES = README.md docs/TUTORIAL.md docs/CERTIFICATES.md docs/vginsert.1 $(filter-out %.sh, $(wildcard examples/*))
COPIES = crates/tests_pages/data

build:
	VGINSERT_BUILD=only ./vginsert

demo:
	@examples/demo.sh

wire:
	@./vginsert --mode wire --spef examples/fork.spef --net n1

sta:
	@./vginsert --mode sta $(DESIGN)

check:
	@./vginsert --mode check $(DESIGN) --net 'acc[3]' --cert examples/acc3.cert

cases:
	@cd crates/tests_runs && rt try --seconds 600 $$(find data -type f ! -name '*.md' -printf '--data %P=%p ') -- $(WORDS)

pages:
	@for page in $(PAGES); do mkdir -p "$(COPIES)/$$(dirname $$page)" && cp "$$page" "$(COPIES)/$$page"; done

flow: build
	flow/check.sh

test:
	python3 -B -m unittest discover -s flow/test
	rt ci
