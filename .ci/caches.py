"""The caches that valgrind simulates, so that misses are those of one machine."""

# Bytes, lines in a set, and bytes of a line: of the nearest caches, for instructions and for data, and of the last cache.
NEAREST, LAST = "32768,8,64", "8388608,16,64"
SIMULATED = ["--cache-sim=yes", *(f"--{it}1={NEAREST}" for it in "ID"), f"--LL={LAST}"]
