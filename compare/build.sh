#!/usr/bin/env bash
# Builds the static library and the comparison program. Needs rt and cargo, and no network.
set -eu
here=$(cd "$(dirname "$0")" && pwd)
"$here/../prove.sh" sentivolus
cargo build --release --offline --quiet --manifest-path "$here/Cargo.toml"
