# make run        proves and builds the program and runs the example
# make test       all tests; the last line is rt ci's own, 'N passed, 0 failed'
# make bench      steps per second beside a plain interpreter, as it is and forced inline; the times of a smallest run, of check, prepare, print and read
# make build      proves and builds the library for C and the programs
# make install    puts header, library, pkg-config file and programs under PREFIX=/usr/local, below DESTDIR= if that is given
# make uninstall  takes them away
.PHONY: run test bench clean

run:
	@echo "Proves and builds tgsi_run: some 10 minutes where nothing is proved yet. The prover's lines are in target/run.log."
	@mkdir -p target
	@scripts/build tgsi_run >target/run.log 2>&1 || { cat target/run.log; exit 1; }
	target/bin/tgsi_run examples/measure.bin examples/comma.words
	@echo "OUT[0].x: a measure of 2,5 millimetres is 25 tenths."

test:
	scripts/test

bench:
	scripts/build library
	cd compare && cargo build --release --offline && target/release/compare bench
	cd compare && cargo build --release --offline --features inlined --target-dir target/inlined && target/inlined/release/compare bench

clean:
	rm -rf target compare/target crates/*/out

.PHONY: build install uninstall
PREFIX = /usr/local
DESTDIR =
export PREFIX DESTDIR

build:
	scripts/build library tgsi_run tgsi_list tgsi_read

install:
	scripts/install

uninstall:
	scripts/install --remove
