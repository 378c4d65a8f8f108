#!/usr/bin/env bash
# test.sh: the wrapper's tests and doc tests; its example, which prints what the C one does; how it finds the archive.
# Needs cargo and the archive (prove.sh sentivolus).
set -eu
here=$(cd "$(dirname "$0")" && pwd)
scratch=$(mktemp -d)
trap 'rm -rf "$scratch"' EXIT
cd "$here"
cargo test --quiet --release --offline
cargo run --quiet --release --offline --example chord | cmp - ../c/example.txt

# a relative SENTIVOLUS_LIB counts from where cargo is called, anew in each folder
built() { SENTIVOLUS_LIB=target/staticlib cargo test --quiet --release --offline --manifest-path "$here/Cargo.toml" --target-dir "$scratch/build" --test bank; }
cd "$here/.."
built >/dev/null
cd "$scratch"
if built >/dev/null 2>"$scratch/said"; then
    echo "FAILED: built without an archive"
    exit 1
fi
grep -q 'prove.sh sentivolus' "$scratch/said" || { echo "FAILED: a missing archive is not explained" && cat "$scratch/said" && exit 1; }
echo "rust: all as it should be"
