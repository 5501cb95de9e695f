#!/bin/sh
# The speed table: the engine beside a C peer and the Rust model, in Markdown. Times are ratios of one run; instructions are callgrind's.
cd "$(dirname "$0")/../.." || exit 2
sh tests/need cargo cc valgrind || exit 1
sh tools/archive || exit 1
CARGO_TARGET_DIR=target/rust cargo build --quiet --offline --release --manifest-path rust/Cargo.toml -p speed || exit 1
target/rust/release/speed
