# make bill FILE=examples/alder.prk    builds what is needed and bills a park file
# make test                            proves every crate and runs all tests
# make table                           prints the table of the surcharge's factors, as the operators do
# make examples                        the example files and the script bill, with the program as last built
# make self-test                       holds the test program to finding 405 wrong calculators
# make bench                           times the calls beside plain Rust

.PHONY: bill test table examples self-test bench library

bill:
	@sh ./bill "$$FILE"

test:
	@sh tests/run

table:
	@cd crates/surcharge_table && rt run

examples:
	@sh tests/examples

library:
	@cd crates/park_c && rt lib --cpu x86-64 >&2

self-test: library
	@cargo run --offline --release --quiet --manifest-path tests/differential/Cargo.toml -- self-test

bench: library
	@cargo run --offline --release --quiet --manifest-path bench/Cargo.toml
