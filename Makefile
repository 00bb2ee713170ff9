EXAMPLES = default desktop gateway server sessions

.PHONY: demo examples test

# Two of the examples: a gateway's configuration with packets, and a script of two load sessions. What the program
# writes is compared with what is expected. It is the proved program where it is built, else the sources, compiled before any proof.
demo:
	@examples/run gateway sessions

# All of them.
examples:
	@examples/run $(EXAMPLES)

# The gate: every proof from nothing, the must-fail edits, the tests and the program.
test:
	.ci/run
