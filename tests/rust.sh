#!/bin/sh
# The Rust crates on the archive: the wrapper's tests, the model against the papers, the engine against the model and against the C peer.
cd "$(dirname "$0")/.." || exit 2
sh tests/need cargo cc || exit 1
sh tools/archive || exit 1
# One seed for all of them; the model's own tests call it MODEL_SEED.
[ -z "${CETSKOBI_SEED-}" ] || export MODEL_SEED="$CETSKOBI_SEED"
CARGO_TARGET_DIR=target/rust cargo test --quiet --offline --release --manifest-path rust/Cargo.toml --workspace
