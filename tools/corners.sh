#!/usr/bin/env bash
# Makes target/bin/corners, the corner program: proves what it stands on, where that is not proved yet, and compiles it.
#
# Run as: tools/corners.sh
set -euo pipefail
cd "$(dirname "${BASH_SOURCE[0]}")/.."
mkdir -p target/bin
(cd crates/corners && rt run </dev/null) >target/bin/rt-run.log 2>&1 || { cat target/bin/rt-run.log; exit 1; }
cp crates/corners/out/corners target/bin/corners
