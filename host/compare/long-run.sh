#!/usr/bin/env bash
# The long form of the comparison: 10^7 calls on the proved replica and the reference, from a seed (1 if not given).
set -eu
cd "$(dirname "$0")/.."
exec cargo run --offline --release -p compare --features proved -- --count 10000000 --seed "${1:-1}"
