#!/usr/bin/env bash
# Times the closing delays of two large tables. `tools/build.sh bench_delays` proves and builds the program first.
set -e
cd "$(dirname "$0")/.."
tools/build.sh bench_delays >/dev/null
time target/bin/bench_delays
