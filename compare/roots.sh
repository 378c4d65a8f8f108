#!/usr/bin/env bash
# roots.sh: every f32 of the root against the machine's square root (2^32 patterns, a minute or two).
set -eu
here=$(cd "$(dirname "$0")" && pwd)
"$here/build.sh" >&2
exec "$here/target/release/compare" roots
