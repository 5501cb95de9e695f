#!/bin/sh
# No event's cost grows with the table: instructions by callgrind at 1 and at 4,096 records. No accepted message's cost grows with its
# packet: fetched and delivered, as the only one of its packet and as the last of 64. All 64 in one pass take at most 1.25 of the model's.
cd "$(dirname "$0")/.." || exit 2
sh tests/need cargo cc valgrind || exit 1
sh tools/archive || exit 1
CARGO_TARGET_DIR=target/rust cargo build --quiet --offline --release --manifest-path rust/Cargo.toml -p speed || exit 1
target/rust/release/speed flat
