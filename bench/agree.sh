#!/usr/bin/env bash
# Times the program `agree` and the second implementation on the same inputs, small to the largest, both built for release: the ratio of the two, and how the
# time grows when the input doubles.
set -e
cd "$(dirname "$0")/.."
tools/build.sh agree >/dev/null
cargo build --release --offline --quiet --manifest-path tests/Cargo.toml
tests/target/release/bench_agree target/bin/agree tests/target/release/agree_reference
