#!/bin/sh
# Nanoseconds of the formulas: the square root at 40, 96 and 126 bits beside the bit-by-bit root
# of the same run, the worth of a pool, and the bound over 256 pools. Each is the mean of many
# calls over numbers of a fixed seed. Other work on the machine only adds to it.
set -eu
cd "$(dirname "$0")/../crates/bench_math"
rt run >/dev/null
exec ./out/bench_math measure
