#!/usr/bin/env bash
# Tries further wrong programs, those of tests/edits/, besides the must-fail edits that the gate tries: the prover must refuse each.
#
#     tools/edits.sh [CRATE..]        all crates that have some, or the named ones
#
# It works on a copy of the repository, proves what the crates depend on, and ends with rt's own line.
set -eu
cd "$(dirname "$0")/.."
copy=$(mktemp -d)
trap 'rm -rf "$copy"' EXIT
cp -r crates crates.txt "$copy"
rm -rf "$copy"/crates/*/must-fail
names=${*:-$(ls tests/edits)}
for name in $names; do
    mkdir "$copy/crates/$name/must-fail"
    cp "tests/edits/$name/"*.edit "$copy/crates/$name/must-fail"
done
cd "$copy"
# shellcheck disable=SC2086
rt must-fail $names
