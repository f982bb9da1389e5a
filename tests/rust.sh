#!/usr/bin/env bash
# Runs the tests from Rust against the archive; needs `tools/build.sh`. The seed is printed.
set -eu
cd "$(dirname "$0")/.."
. tests/seed.sh
export PUMP_LIB=$PWD/target/staticlib CARGO_TARGET_DIR=$PWD/target/rust PUMP_COUNT=${PUMP_COUNT:-5000}
echo "rust: PUMP_SEED=$PUMP_SEED PUMP_COUNT=$PUMP_COUNT"
cargo test --release --offline --quiet --manifest-path tests/rust/Cargo.toml -- --nocapture
