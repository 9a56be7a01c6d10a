#!/bin/sh
# Times finding among 8,192 records beside Rust's binary search. Run at the repository's root; it needs rustc.
set -eu
(cd crates/finding && rt lib)
mkdir -p target
rustc -O -o target/find bench/find/main.rs -L crates/finding/out -l static=finding
target/find
