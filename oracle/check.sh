#!/bin/sh
# Builds the oracle offline, runs its self-tests and replays the samples.
# Needs the supplied Rust in ../shared/docs/src beside the repository, or in
# the directory that VECTORMAP_SRC names.
set -u
cd "$(dirname "$0")" || exit 1
log=target/check.log
mkdir -p target

step() {
    name=$1
    shift
    if "$@" >"$log" 2>&1; then
        echo "ok    $name"
    else
        echo "FAILS $name"
        tail -n 40 "$log"
        exit 1
    fi
}

step "build" cargo build --release --offline
if cargo fmt --version >/dev/null 2>&1; then
    step "format" cargo fmt --all --check
fi
step "self-tests" cargo test --release --offline
for name in calls geometry folds files; do
    step "sample $name" target/release/oracle replay "sample/$name.txt"
    echo "      $(tail -n 1 "$log")"
done
mkdir -p target/sample
step "samples as written" sh -c 'target/release/oracle sample target/sample && diff -rq sample target/sample'
step "runs" target/release/oracle generate --seed 41 --runs 300 --size mixed --quiet
echo "      $(head -n 1 "$log"), $(tail -n 1 "$log")"
