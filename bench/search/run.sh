#!/usr/bin/env bash
# Compares the plain search and the static library `sievecrest` with every fit gone through, then measures the two, and the proved one's depth of stack.
# Needs a C compiler, and rt for the library.
set -eu
cd "$(dirname "$0")/../.."
mkdir -p target/bench
cc=${CC:-cc}
(cd crates/sievecrest && rt lib)
library=(-DPROVED crates/sievecrest/out/libsievecrest.a)
for program in fits main depth; do
    "$cc" -O3 -Wall -Wextra -pthread -o "target/bench/search-$program" "bench/search/$program.c" bench/search/plain.c "${library[@]}"
done
target/bench/search-fits 100000
target/bench/search-main
target/bench/search-depth
