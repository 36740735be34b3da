#!/usr/bin/env bash
# Builds the exported loops and the timer, and runs it: bash bench/speed.sh
set -euo pipefail
cd "$(dirname "$0")/.."
(cd crates/timing && rt lib)
mkdir -p target
rustc --edition 2024 -O bench/speed.rs -o target/speed -L crates/timing/out -l static=timing
target/speed
