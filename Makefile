# make run     carries examples/copy/input through the pipeline of examples/copy/config.json, without proving anything
# make blobl   maps each line of examples/blobl/input by the mapping of examples/blobl/mapping, without proving anything
# make test    the gate: proves every crate, tries its wrong edits, runs its test programs, and tries the built program
# make build   proves and builds the program: crates/benthos/out/benthos

.PHONY: run blobl test build

run:
	cd crates/benthos && rt try --data config.json=../../examples/copy/config.json -- run -c config.json < ../../examples/copy/input

blobl:
	cd crates/benthos && rt try -- blobl "$$(cat ../../examples/blobl/mapping)" < ../../examples/blobl/input

test:
	.ci/run

build:
	cd crates/benthos && rt run -- run -c ../../examples/copy/config.json < ../../examples/copy/input
