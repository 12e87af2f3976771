#!/bin/sh
# run.sh DRIVER [arguments]: builds the proved static libraries and the drivers, and runs one of them.
# Drivers: roots (patterns of all classes against the machine's root), geometry (every exported geometry call against the Rust),
# edits (random calls in runs against the Rust, or the model of 01 where it answers 9 to 11 or 7 with detail 4), edit_times (the edits
# beside the Rust, timed), runs (random runs in one call, from a map file to its change set file and on open tables, against the Rust's runs),
# files (random and damaged map and set files against a codec written from document 01), file_times (files beside that codec,
# timed), validity (the test of a map's tables, beside the Rust's edits), stack (how much stack each call needs),
# requests (random requests with the Rust's answers, for crates/geometry_replay/out/geometry_replay FILE).
set -eu
cd "$(dirname "$0")/.."
mkdir -p target/staticlib
for crate in root_c geometry_export table_export edit_export run_export files_export; do
    (cd "crates/$crate" && rt lib >/dev/null)
    # the root's is linked under the root's own name
    cp "crates/$crate/out/lib$crate.a" "target/staticlib/lib${crate%_c}.a"
done
cd bench
driver=$1
shift
# timed is the Rust as it stands, without the notes that name ends
case $driver in
    edit_times | validity) features=--no-default-features ;;
    *) features= ;;
esac
exec cargo run --quiet --release --offline $features --bin "$driver" -- "$@"
