#!/bin/sh
# The comparison with the model coded apart in tests/rust: sh tests/compare.sh [WORDS of leafdrum_tests]
# Relies on cargo, on target/staticlib/libexport.a and on the program.
set -eu
cd "$(dirname "$0")/.."
exec env CARGO_NET_OFFLINE=true CARGO_TARGET_DIR="$PWD/target/tests/rust" cargo run --quiet --release --offline --locked --manifest-path tests/rust/Cargo.toml -- "$@"
