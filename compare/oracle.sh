#!/usr/bin/env bash
# oracle.sh FOLDER: assembles the published Rust with document 01's stand-ins and document 02's requests below compare/target/oracle and builds it,
# where FOLDER's files or the Rust's are others than at the last build.
set -eu
. "$(dirname "$0")/common.sh"
[ $# -eq 1 ] || wrong "usage: oracle.sh FOLDER"
need_oracle "$1"
out=$here/target/oracle
digest=$(for folder in "$1" "$1/$rust"; do (cd "$folder" && find . -type f -print0 | sort -z | xargs -0 sha256sum); done | sha256sum)
if [ -x "$out/std/target/release/oracle-std" ] && [ "$(cat "$out/digest" 2>/dev/null)" = "$digest" ]; then
    exit 0
fi
mkdir -p "$out"
rm -f "$out/digest"
python3 "$1/assemble.py" "$out" >/dev/null
(cd "$out/std" && cargo build --release --offline --quiet)
echo "$digest" >"$out/digest"
