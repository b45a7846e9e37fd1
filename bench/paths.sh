#!/usr/bin/env bash
# Times the path behind a weight beside the weight alone, on the same tables and tuples, by calls of the static library:
# microseconds of both, their ratio, and how the time of a path grows with the input.
set -e
cd "$(dirname "$0")/.."
tools/build.sh tomchoen >/dev/null
cargo build --release --offline --quiet --manifest-path tests/library/Cargo.toml
tests/library/target/release/bench_paths
