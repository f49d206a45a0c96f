#!/usr/bin/env bash
# Makes target/staticlib/libkiln.a: proves what it stands on, where that is not proved yet, and compiles it.
#
# Run as: tools/archive.sh
set -euo pipefail
cd "$(dirname "${BASH_SOURCE[0]}")/.."
mkdir -p target/staticlib
(cd crates/kiln && rt lib) >target/staticlib/rt-lib.log 2>&1 || { cat target/staticlib/rt-lib.log; exit 1; }
cp crates/kiln/out/libkiln.a target/staticlib/libkiln.a
