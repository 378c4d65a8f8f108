#!/usr/bin/env bash
# bench.sh: the proved library and the Rust's scalar lane (with document 01's stand-ins) in one run; then tails, parking, auditions, the third axis and
# chord combs. MILLIS sets the time a cell.
set -eu
. "$(dirname "$0")/common.sh"
usage="usage: bench.sh [silence | tails | centred | park | audition | axes | chord] [--before ARCHIVE] [--oracle FOLDER] [--help]
  silence          the table of silence alone
  tails            the table of tails that no longer change alone, with --before of both archives
  centred          the table of voices without a stereo offset alone, with --before of both archives
  park             the table of parking and restoring alone
  audition         the table of auditions beside their blocks alone
  axes             the table of PoleZero with two and with three axes alone
  chord            the table of chord combs beside Comb2 alone
  --before ARCHIVE an earlier libsentivolus.a, from version 200 on, beside this one and the Rust: its table, a block of one frame and the roots alone (needs nm and objcopy)
  --oracle FOLDER  the folder that holds assemble.py (../shared/oracle beside the repository)"
tables=() oracle=$timed before=
while [ $# -gt 0 ]; do
    case $1 in
        --help) echo "$usage" && exit 0 ;;
        silence | tails | centred | park | audition | axes | chord) tables=("$1") ;;
        --before)
            [ -f "${2-}" ] || misused "--before takes an archive"
            before=$2
            shift
            ;;
        --oracle)
            [ -n "${2-}" ] || misused "--oracle takes a folder"
            oracle=$2
            shift
            ;;
        *) misused "$1 is no option" ;;
    esac
    shift
done
[ -z "$before" ] || [[ ${tables[*]-tails} =~ ^(tails|centred)$ ]] || misused "--before has a table of its own"
need_oracle "$oracle"
out=$here/target/bench
"$here/build.sh" >&2
mkdir -p "$out"
python3 "$oracle/assemble.py" "$out" >/dev/null
cp "$here/bench/bench.rs" "$out/std/src/driver/bench.rs"
flags="--check-cfg=cfg(before) -L native=$here/../target/staticlib -l static=sentivolus"
if [ -n "$before" ]; then
    objcopy --redefine-syms=<(nm -g "$before" | awk '$2 == "T" { print $3, "before_" $3 }') "$before" "$out/libbefore.a"
    flags="$flags --cfg before -L native=$out -l static=before"
fi
(cd "$out/std" && RUSTFLAGS=$flags cargo build --release --offline --quiet)
exec "$out/std/target/release/oracle-std" bench "${tables[@]}"
