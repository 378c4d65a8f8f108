#!/usr/bin/env bash
# The test command. The definitions against the published Rust's text, where that is at hand; the toolchain's gate over every listed crate
# (layout, proofs, must-fail edits, programs against stored answers); run.sh; then the linked library: the C header and example, and, where
# cargo is, the Rust wrapper, the comparison programs, and vector files replayed bit for bit.
# The last line is 'N passed, M failed'.
set -u
cd "$(dirname "$0")" || exit 1
passed=0 failed=0
finish() {
    echo "$passed passed, $failed failed"
    [ "$failed" -eq 0 ]
    exit
}
count() { # count WHAT COMMAND..: one test
    local what=$1
    shift
    if "$@"; then passed=$((passed + 1)) && echo "ok: $what"; else failed=$((failed + 1)) && echo "FAILED: $what"; fi
}
impulse() { grep '^< ' "$1" | target/bin/impulse_cases | cmp - "$1"; } # impulse FILE: the answers to its inputs are those that it has
# what rt ci said at its end: that all is well, and of how many edits its prover cannot read the text
no_bad_edit() { grep -q '^rt: ok;' "$log" && ! grep -Eq '^rt: ok;.*, [0-9]+ bad' "$log"; }
command -v rt >/dev/null || { failed=1 && echo "rt, the Rattle toolchain's command, is not on PATH"; finish; }

rust=../shared/docs/src/crates/dsp/src/filter
if [ -d "$rust" ] && command -v python3 >/dev/null; then
    count "definitions against the published Rust" compare/definitions.sh "$rust"
else
    echo "skipped, for want of the published Rust or of python3: the definitions against its text"
fi

log=$(mktemp)
trap 'rm -f "$log"' EXIT
rt ci | tee "$log"
status=${PIPESTATUS[0]}
read -r n _ m _ < <(tail -n 1 "$log")
case "$n$m" in *[!0-9]* | '') n=0 m=1 ;; esac
[ "$status" -eq 0 ] || [ "$m" -gt 0 ] || m=1
passed=$((passed + n)) failed=$((failed + m))
[ "$failed" -eq 0 ] || finish
count "no must-fail edit is bad" no_bad_edit
[ "$failed" -eq 0 ] || finish

for program in impulse impulse_cases; do count "target/bin/$program" ./prove.sh "$program"; done
count "run.sh and Impulse" tests/run.sh
count "static library" ./prove.sh sentivolus after-ci
if command -v cc >/dev/null && command -v c++ >/dev/null; then
    count "C header and example" c/test.sh
else
    echo "skipped, for want of cc or c++: the C header's tests and its example"
fi
if ! command -v cargo >/dev/null; then
    echo "skipped, for want of cargo: the Rust wrapper's tests and the replay through the linked library"
    finish
fi
count "Rust wrapper" rust/test.sh
count "comparison programs' tests" cargo test --quiet --release --offline --manifest-path compare/Cargo.toml
count "leaves of the repository" compare/replay.sh check leaf crates/leaves/stdin
count "scenarios of the repository" compare/replay.sh check run crates/scenarios/stdin
vectors=../shared/vectors/c18 # the oracle's answers with the requests up to C-18
if [ -d "$vectors" ]; then
    for f in traps scenarios; do count "$f of the vectors beside the repository" compare/replay.sh check run "$vectors/$f.txt"; done
    count "leaves of the vectors beside the repository" compare/replay.sh check leaf "$vectors/leaves.txt"
    count "parked files of the vectors beside the repository" compare/replay.sh check file "$vectors/files.txt"
    count "Impulse on the vectors beside the repository" impulse "$vectors/impulse.txt"
else
    echo "skipped: no vectors beside the repository"
fi
finish
