.PHONY: test demo library program bench wear

# The gate: all proofs, all must-fail edits, all programs, the library and the host's tests of it and of the bench program.
test:
	@bash .ci/run

# The proved bench program on a day at the courthouse: each line, what it prints and what that means.
demo: program
	@examples/courthouse/show

# The library for the board: the calls as C has them, proved with all below them, then compiled for any x86-64 processor.
# Archive and header stand side by side.
library:
	@cd crates/board_c && rt lib --cpu x86-64 >&2
	@mkdir -p target/staticlib
	@cp crates/board_c/out/libboard_c.a target/staticlib/libboard.a
	@cp include/stringhut.h target/staticlib/
	@ls target/staticlib/libboard.a target/staticlib/stringhut.h

# The bench program: proved, then compiled and left at crates/bench/out/bench. To build it rt also runs it, here on no input.
program:
	@said=$$(cd crates/bench && rt run </dev/null 2>&1) || { printf '%s\n' "$$said" >&2; exit 1; }

# Each call beside the best plain Rust we know for the same job: times, then instructions and code size. For the times both sides'
# functions stand on 64-byte boundaries: else where the linker happens to put a loop moves its time by a tenth.
bench: library
	@mkdir -p target/aligned
	@objcopy --set-section-alignment '.text.*=64' target/staticlib/libboard.a target/aligned/libboard.a
	@cd host && STRINGHUT_LIBRARY_DIR=$(CURDIR)/target/aligned CARGO_TARGET_DIR=$(CURDIR)/target/aligned \
		RUSTFLAGS='-C llvm-args=-align-all-functions=6' cargo run -q --release --offline --features library --bin bench
	@host/count-instructions 4 64 256

# Line writes per put beside a leaf without moving and source 001's. Draws docs/wear.svg again.
wear:
	@cd host && cargo run -q --release --offline --bin wear -- ../docs/wear.svg
