#!/bin/sh
# Compares roubles, worth, low and the six figures with a Rust program's own, and times the six. Run at the repository's
# root; it needs rustc.
set -eu
(cd crates/measuring && rt lib)
mkdir -p target
rustc --edition 2024 -O -o target/measuring bench/measuring/main.rs -L crates/measuring/out -l static=measuring
target/measuring
