#!/usr/bin/env bash
# Proves and builds programs and the static library, and puts them where the pages and tests expect them.
#
#     tools/build.sh agree draw      target/bin/agree and target/bin/draw
#     tools/build.sh tomchoen        target/staticlib/libtomchoen.a, of the crate tomchoen_c
#
# What was proved before and has not changed is not proved again. Exit status: that of the first command that fails.
set -eu
cd "$(dirname "$0")/.."
mkdir -p target/bin target/staticlib
for name in "$@"; do
    if [ "$name" = tomchoen ]; then
        (cd crates/tomchoen_c && rt lib)
        cp crates/tomchoen_c/out/libtomchoen_c.a target/staticlib/libtomchoen.a
    else
        (cd "crates/$name" && rt run </dev/null >/dev/null)
        cp "crates/$name/out/$name" "target/bin/$name"
    fi
done
