# make run: the desk program on sample lines. make test: all tests. make figures: the benchmark.
# make archive: what C links.
.PHONY: run test archive gate callers figures

# Checks and builds first, which is quick when nothing changed; what the prover says is shown only if the check fails.
run:
	@[ -x target/bin/desk ] || echo "proving and building the desk: some minutes the first time (target/desk.log)"
	@tests/build desk
	target/bin/desk < tests/sample.txt

# The gate first, then the tests that use what it built; the gate's own last line comes last, and only if everything passed.
test:
	bash tests/all

archive:
	tests/build host

gate:
	rt ci

callers:
	bash tests/callers

# Times encoding and decoding, Rattle beside plain Rust (docs/PERFORMANCE.md).
figures: archive
	cd bench && ORDERLINK_ARCHIVE=../target/staticlib/libhost.a cargo run --release --bin figures
