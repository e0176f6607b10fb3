#!/bin/sh
# Builds bench/bench from the Rust files here, against the archive of crates/gentupag_c.
cd "$(dirname "$0")/.." && bin/archive && cd bench && exec rustc -O -C codegen-units=1 --edition 2021 -L ../target/staticlib bench.rs -o bench
