# make run SCRIPT=file   proves and builds what is needed, and replays that script
# make test              the gate: every proof, refused edit, test and stored run

SCRIPT ?= examples/one_pread.iomap
PROGRAM = crates/iomap_run

.PHONY: run build test

run: build
	@$(PROGRAM)/out/iomap_run < $(SCRIPT)

# The build also plays the stored script, and its report is shown where it fails.
build:
	@mkdir -p $(PROGRAM)/out
	@cd $(PROGRAM) && rt run < stdin > out/build.log 2>&1 || { cat out/build.log >&2; exit 1; }

test:
	@.ci/run
