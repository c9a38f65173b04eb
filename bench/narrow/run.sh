#!/usr/bin/env bash
# Builds the static library and the C program, and measures both in one run. Needs rt and a C compiler; with SIEVECREST_LIB_DIR set no rt, since the library
# is taken from there.
set -eu
cd "$(dirname "$0")/../.."
[ -n "${SIEVECREST_LIB_DIR-}" ] || (cd crates/sievecrest && rt lib)
mkdir -p target/bench
"${CC:-cc}" -O3 -Wall -Wextra -Iinclude -o target/bench/narrow bench/narrow/add.c "${SIEVECREST_LIB_DIR:-crates/sievecrest/out}/libsievecrest.a"
target/bench/narrow
