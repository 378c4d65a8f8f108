#!/usr/bin/env bash
# definitions.sh [FOLDER]: compares the definitions with the published Rust, operation by operation, then plants slips and sees them
# reported. FOLDER holds lane.rs and its neighbours (default: ../shared/docs/src/crates/dsp/src/filter beside the repository).
set -eu
here=$(cd "$(dirname "$0")" && pwd)
rust=${1:-$here/../../shared/docs/src/crates/dsp/src/filter}
if [ ! -d "$rust" ]; then
    echo skipped
    exit 0
fi
python3 "$here/definitions/compare.py" "$rust"
python3 "$here/definitions/test.py" "$rust"
