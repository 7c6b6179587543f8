#!/bin/sh
# Nanoseconds for each call on facts and each transfer of facts at widths 8, 32, 64 and 128, and for a narrowing of a state by a
# comparison at width 32; of the latter two also how many times those of one `sharp` they are. A word `facts`, `transfers` or
# `narrowing` measures one of these alone. Run by hand: the gate proves the program, and runs it without words, where it does
# nothing.
set -eu
cd "$(dirname "$0")/../crates/bench_facts"
exec rt run -- time "$@"
