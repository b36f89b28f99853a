# The two commands of this repository; README.md says what they need.

.PHONY: demo test

# Proves and builds the program, and translates the sample shader to crates/dxil_cli/out/e.spv.
demo:
	cd crates/dxil_cli && rt run -- translate data/e.dxbc out/e.spv

# Proves every crate, tries the must-fail edits, and runs every test and program.
test:
	rt ci
