#!/bin/sh
# Puts the default morning's report into README.md, as the program prints it.
cd "$(dirname "$0")/../.." || exit 2
sh tests/need cargo cc || exit 1
sh tools/archive || exit 1
CARGO_TARGET_DIR=target/rust cargo build --quiet --offline --release --manifest-path rust/Cargo.toml -p nets || exit 1
report=target/rust/nets-report
env -u CETSKOBI_SEED target/rust/release/nets >$report || { cat $report; exit 1; }
page=rust/nets/README.md
awk -v report=$report '
    /^What the figures are:/ { inside = 0 }
    !inside { print }
    /^## A report/ {
        inside = 1
        print ""
        while ((getline line <report) > 0) print line == "" ? "" : "    " line
        print ""
    }
' $page >$report.md && cp $report.md $page
