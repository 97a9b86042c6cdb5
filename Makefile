# The commands of the README.
.PHONY: drill archive test bench
drill:
	bash tests/drill
	target/bin/drill < crates/drill/stdin

archive:
	bash tests/archive

test:
	bash tests/all

bench:
	bash tests/archive
	bash rust/bench/instructions
	bash rust/bench/times
	bash rust/bench/document
