#!/usr/bin/env bash
# Sourced by the scripts beside it.
here=$(cd "$(dirname "${BASH_SOURCE[0]}")" && pwd)
oracle=$here/../../shared/oracle-requests  # holds assemble.py: the Rust with document 02's requests, to compare with
timed=$here/../../shared/oracle            # the same without them, to time: what they need costs a few instructions a tick
rust=../docs/src/crates/dsp/src/filter     # from either: the published Rust that it reads

# wrong SENTENCE: exit status 2.
wrong() {
    echo "$*" >&2
    exit 2
}

# misused SENTENCE: the same, with the script's usage.
misused() { wrong "$(basename "$0"): $*"$'\n'"$usage"; }

need_oracle() { # need_oracle FOLDER
    [ -f "$1/assemble.py" ] || wrong "The oracle is missing: there is no assemble.py in the folder $1; --oracle FOLDER names another."
    [ -d "$1/$rust" ] || wrong "The published Rust is missing: there is no folder $1/$rust."
}
