#!/usr/bin/env bash
# Times a build of 1,000 configurations and 7,992 arcs, and one of half the size. `tools/build.sh bench_intersect` proves and builds the program first.
set -e
cd "$(dirname "$0")/.."
tools/build.sh bench_intersect >/dev/null
time target/bin/bench_intersect </dev/null
time printf h | target/bin/bench_intersect
