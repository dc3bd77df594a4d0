"""The tests of the bindings, by theme. scripts/test-bindings runs every function whose name begins with `test_`."""
