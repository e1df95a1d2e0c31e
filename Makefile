# One word for each thing that is done here often. `make help` lists them; README.md says what each shows.

LOG = crates/openeo/out/make-program.log
PROGRAM = crates/openeo/out/openeo
JOBS = $(shell nproc)
PYTHON = python3

# Something that the program is made from and that is newer, or what `find` complains of where no program stands.
NEWER = $(shell find crates.txt crates/*/src crates/*/specs crates/*/proofs \
  -not -path 'crates/oe_rows*' -not -path 'crates/oe_commands*' -not -path 'crates/oe_lines*' \
  -not -path 'crates/oe_translate*' -newer $(PROGRAM) -print -quit 2>&1)
# The proved program, if it stands: else `make run` and `make examples` build its commands over files without their proofs.
STANDING = $(if $(NEWER),,$(PROGRAM))

.PHONY: help run examples bench test tools-test edits edits-read check program

help:
	@echo 'make run       runs the program on examples/graphs/greenest.json and prints the text of the result, and a table'
	@echo 'make examples  runs all graphs of examples/graphs against their texts; the proved program at its edges, as client and server'
	@echo 'make program   proves and builds the program, by as many processes as there are processors'
	@echo 'make bench     runs the proved program on a year of 12 dates, 4 bands and 1000 x 1000 pixels (needs python3), and'
	@echo '               where there is xarray the same work by that'
	@echo 'make test      the gate: every proof, edits that must be refused, every test, the program by two compilers'
	@echo 'make tools-test  tests tools/cubes, and reads all edits that must be refused (needs python3); a part of `make test`'
	@echo 'make edits     tries all edits that must be refused; with CRATE=oe_cell those of a crate'
	@echo 'make check     proves every crate, lowest first, over what earlier checks kept'
	@echo 'make help      prints this'

# A kernel, a ratio of bands and the greatest of all dates, over a small collection; its text, and where there is python3
# a table and a picture.
run:
	@examples/run greenest $(STANDING)

# What is left out is said.
examples:
	@examples/check $(STANDING)
	@[ -n '$(STANDING)' ] || echo 'only examples/check was run: $(PROGRAM) is missing, or older than what it is made from' >&2
	@[ -z '$(STANDING)' ] || command -v $(PYTHON) > /dev/null || echo 'examples/progress, parts, workers, client-check and' \
	  'service/session.py are not run: $(PYTHON) is missing' >&2
	@[ -z '$(STANDING)' ] || command -v curl > /dev/null || echo 'examples/service/session and replies are not run: curl is missing' >&2
	@[ -z '$(STANDING)' ] || examples/edges $(STANDING)
	@[ -z '$(STANDING)' ] || ! command -v $(PYTHON) > /dev/null || $(PYTHON) examples/progress $(STANDING)
	@[ -z '$(STANDING)' ] || ! command -v $(PYTHON) > /dev/null || $(PYTHON) -B examples/parts $(STANDING)
	@[ -z '$(STANDING)' ] || ! command -v $(PYTHON) > /dev/null || $(PYTHON) -B examples/workers $(STANDING)
	@[ -z '$(STANDING)' ] || ! command -v $(PYTHON) > /dev/null || $(PYTHON) examples/client-check $(STANDING)
	@[ -z '$(STANDING)' ] || ! command -v curl > /dev/null || examples/service/session $(STANDING)
	@[ -z '$(STANDING)' ] || ! command -v curl > /dev/null || examples/service/replies $(STANDING) > /dev/null
	@[ -z '$(STANDING)' ] || ! command -v $(PYTHON) > /dev/null || $(PYTHON) -B examples/service/session.py $(STANDING)

# Proves the crates that the program stands on, side by side, over what earlier checks kept, and then proves and builds it.
program:
	@[ -z '$(STANDING)' ] || exit 0; mkdir -p crates/openeo/out; \
	echo 'proves and builds the program, an hour and more the first time on a slow machine; $(LOG) has what rt prints' >&2; \
	{ tools/prove openeo $(JOBS) && cd crates/openeo && rt run --jobs $(JOBS) -- --version; } > $(LOG) 2>&1 \
	  || { echo 'the program was not built' >&2; exit 1; }

# Where Python has xarray, dask and scipy, the same work in floating point stands below.
bench: program
	@$(PYTHON) -B bench/year.py $(PROGRAM)
	@! $(PYTHON) -c 'import dask.array, scipy.ndimage, xarray' 2> /dev/null || $(PYTHON) -B bench/year_xarray.py 4

# The gate: every proof, the edits *.edit that must be refused, every test, and the program twice. Beside it the tool that
# takes cubes in and out, of which nothing is proved. Before it, since it takes a second, whether all edits can be applied.
test: edits-read
	@.ci/run
	@$(MAKE) --no-print-directory tools-test

tools-test: edits-read
	@if command -v $(PYTHON) > /dev/null; then $(PYTHON) tools/tests/run; \
	else echo 'tools/cubes is not tested: $(PYTHON) is missing' >&2; fi

# The edits that must be refused, those that the gate does not try too: `make edits CRATE=oe_cell`, or all.
edits:
	@tools/edits $(CRATE)

# Whether each of them can still be applied.
edits-read:
	@if command -v $(PYTHON) > /dev/null; then $(PYTHON) tools/edits --read; \
	else echo 'the edits that must be refused are not read: $(PYTHON) is missing' >&2; fi

# Every crate, lowest first.
check:
	@rt all check
