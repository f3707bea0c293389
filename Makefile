# `make demo` runs the program on an example, unproved; `make compare` on a script whose text a model in Python works out; `make starve` with each
# of its allocations refused in turn. `make starve_append` appends to a shard, unproved, with each allocation of the append refused in turn.
# `make program` proves the program and builds it as bin/cubrick, and `make sixteen` then runs that ten times with sixteen sessions beside each other, and
# judges each run by its journal. `make bench` proves and builds the program of measures, and prints what each hot
# path costs per item. `make edits` tries the edits of edits/, which the prover must refuse and which the gate leaves out for their time: of all
# crates, or of those in NAMES.
.PHONY: demo compare starve starve_append program sixteen bench edits
EXAMPLE = $(CURDIR)/examples
demo:
	@echo 'The program runs unproved here (rt try); make program proves and builds it.'
	@cd crates/cubrick && rt try --data visits.cubes=$(EXAMPLE)/visits.cubes --data visits.sql=$(EXAMPLE)/visits.sql \
	    --data monday.csv=$(EXAMPLE)/monday.csv --data tuesday.csv=$(EXAMPLE)/tuesday.csv -- --cubes visits.cubes visits.sql
compare:
	@folder=$$(mktemp -d) && python3 tools/three_cubes $$folder && cd crates/cubrick && \
	    rt try $$(for it in $$folder/files/*; do echo --data $${it##*/}=$$it; done) -- --cubes three_cubes.cubes three_cubes.sql \
	    > $$folder/written && cmp $$folder/written $$folder/text && echo 'The program, unproved, wrote the text of the model.'
starve:
	@python3 tools/starve
starve_append:
	@python3 tools/starve_append
program:
	@echo 'Every crate that the program stands on is proved first: from nothing that takes more than an hour on four processors.'
	@cd crates/cubrick && rt run -- >/dev/null; test -x out/cubrick
	@mkdir -p bin && cp crates/cubrick/out/cubrick bin/cubrick && echo 'bin/cubrick is built.'
sixteen:
	@python3 tools/sixteen
bench:
	@cd crates/measures && rt run -- split 1 >/dev/null
	@tools/bench
edits:
	@python3 tools/try_edits $(NAMES)
