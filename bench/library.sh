#!/usr/bin/env bash
# Times calls of the static library and of the second implementation on the same requests, both built for release: microseconds, the ratio of the two, and how
# the library's time grows with the input.
set -e
cd "$(dirname "$0")/.."
tools/build.sh tomchoen >/dev/null
cargo build --release --offline --quiet --manifest-path tests/library/Cargo.toml
tests/library/target/release/bench
