#!/bin/sh
# `run.sh [SECONDS] [OPTIONS]`: builds the fuzz target and runs it, from the corpus on. `rt lib` in crates/export first.
# New inputs go to target/found, and what makes the two sides differ or traps to target/.
set -e
cd "$(dirname "$0")"
seconds=${1:-1800}
[ $# -gt 0 ] && shift
triple=$(rustc -vV | sed -n 's/host: //p')
# Counts what the published Rust comes through, which is what guides the search; its comparisons too.
export RUSTFLAGS="-Cpasses=sancov-module -Cllvm-args=-sanitizer-coverage-level=3 \
    -Cllvm-args=-sanitizer-coverage-inline-8bit-counters -Cllvm-args=-sanitizer-coverage-pc-table \
    -Cllvm-args=-sanitizer-coverage-trace-compares -Ccodegen-units=1"
cargo build --release --target "$triple"
clang -g -O1 -fsanitize=fuzzer,address,undefined -fno-sanitize-recover=undefined harness.c \
    "target/$triple/release/libfuzz.a" -lpthread -ldl -lm -o target/harness
mkdir -p target/found
# A thread's usual stack.
ulimit -s 2048
exec target/harness -max_total_time="$seconds" -max_len=45000 -artifact_prefix=target/ "$@" target/found corpus
