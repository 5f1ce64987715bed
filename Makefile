# The commands of this repository; the README says more of each.
.PHONY: cards test check lib diff differential exhaustive recorded bench fmt

# A line for each display set of the stream FILE. What changed since the last time is proved first.
FILE = samples/one-set.sup
cards:
	@mkdir -p target
	@(cd crates/setcards && rt run) </dev/null >target/setcards.log 2>&1 || { cat target/setcards.log; exit 1; }
	@crates/setcards/out/setcards <"$(FILE)"

# The gate: everything proved, must-fail edits, programs, setcards on more inputs, the bindings, the comparison with the
# published Rust.
test:
	.ci/run

# The proofs of what changed.
check:
	rt all check

# The static library and its header, in dist/, for programs in C and Rust.
LIBRARY = crates/pgs_c/out/libpgs_c.a
lib: $(LIBRARY)
	@mkdir -p dist
	@cp $(LIBRARY) include/pgs.h dist/

# It is proved and built again where something of the crates that are no programs is newer.
CRATES = $(patsubst %/src/lib.rt,%,$(wildcard crates/*/src/lib.rt))
$(LIBRARY): crates.txt $(shell find $(CRATES) -name out -prune -o -name '*.rt' -print -o -name '*.antt' -print)
	cd crates/pgs_c && rt lib

# The comparison alone; words for it in ARGS, as ARGS="compare --scale 4" or ARGS="stream 50 47 00 .."
diff differential:
	tests/differential/run $(ARGS)

# Answers of the published Rust, recorded for the program pgs_replay.
recorded:
	tests/differential/run record crates/pgs_replay

# Every bitmap data of up to 4 bytes; some 30 minutes of an idle core. Part of it: ARGS="00 3F", first bytes from and to.
exhaustive:
	tests/differential/run exhaustive $(ARGS)

# Times of the library and of the published Rust on the same inputs.
bench:
	tests/differential/run bench

# The layout of the sources.
fmt:
	@for crate in $(wildcard crates/*); do (cd $$crate && rt fmt) || exit 1; done
	cargo fmt --all --manifest-path tests/differential/Cargo.toml
	cargo fmt --manifest-path bindings/rust/Cargo.toml
