# What a fresh machine with the toolchain needs: `make demo` and `make test`.
.PHONY: demo test lib clients-test bench compare

# Proves and builds `verify`, and prints the listing of the shipped example.
demo:
	tools/programs verify
	target/bin/verify examples/two-areas/case examples/two-areas/proposal

# The gate.
test:
	.ci/run

# target/libfoldureem.a, its header, a shared library of the same, and a file for pkg-config.
lib:
	lib/build

# The same files through `verify` and through each client, and the library's boundary under valgrind.
clients-test: lib
	clients/test

# µs for a case, the library against the plain checker. No timing is a test.
bench: lib
	bench/run time

# The same files, whole and damaged, through the library and the plain checker.
compare: lib
	bench/run compare
