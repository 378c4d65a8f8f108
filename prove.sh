#!/usr/bin/env bash
# prove.sh impulse (or another program): target/bin/impulse. prove.sh sentivolus (the static library): target/staticlib/libsentivolus.a. Where that file is
# missing or older than the crates that it is made of, proves and builds it, one line a crate on standard error. What rt ci or an earlier call left of the
# same sources is taken. prove.sh sentivolus after-ci: right after an rt ci that passed here, over the libraries that it left.
set -u
name=${1-} after=${2-}
cd "$(dirname "$(readlink -f "$0")")" || exit 1
log=target/prove.log
wrong() { echo "prove.sh: $*" >&2 && exit 1; }

# The crate and those below it, each with what it names; a static library's first line says so.
crates() {
    awk -F: -v name="$name" '/^[a-z]/ { split($1, head, " "); needs[head[1]] = $2; kind[head[1]] = head[2] }
        function take(name, words, n, i) {
            if (!(name in needs) || name in taken) return
            taken[name]
            print name, kind[name]
            n = split(needs[name], words, " ")
            for (i = 1; i <= n; i++) take(words[i])
        }
        END { take(name) }' crates.txt
}

# Whether a file is there and newer than the sources.
is_new() { [ -f "$1" ] && [ -z "$(find crates.txt "${folders[@]}" -name out -prune -o -type f -newer "$1" -print -quit)" ]; }

# Puts what was built in its place.
place() {
    mkdir -p "$(dirname "$made")"
    cp "$built" "$made.new" && mv "$made.new" "$made"
}

# Of what rt says, the line of each crate, counted.
progress() {
    local k=0 line at=
    while IFS= read -r line; do
        case $line in
            "rt: chose "*" for "*) at=${line##* } ;;
            "logic=proved "*) [ -z "$at" ] || { k=$((k + 1)) && printf '%2d of %d  %s proved\n' "$k" "${#folders[@]}" "$at" && at=; } ;;
        esac
    done
}

# By the toolchain's own command for a built crate, whose libraries rt lib and rt run would prove once more: rt ci leaves them without their stamp.
over_ci() {
    local kit dep rlib words=(--crate-name "$name" src/lib.rt --crate-type staticlib --backend llvm)
    kit=$(dirname "$(rt doc)") || return 1
    words+=(--toolchain "$kit/toolchain" --antt-project "$kit/rattle/logic/antt-project.json" --logic-built "$kit/logic_built")
    words+=(-L "dependency=$kit/rlibs" --extern "std=$kit/rlibs/std.rlib")
    # shellcheck disable=SC2013 # words, on one line
    for dep in $(sed -nE "s/^${name}( [a-z]+)?://p" crates.txt); do
        if [ -d "crates/$dep" ]; then rlib=../$dep/out/rlib/$dep.rlib; else rlib=$kit/rlibs/$dep.rlib; fi
        words+=(--extern "$dep=$rlib")
    done
    for dep in "${folders[@]:1}"; do
        [ -d "$dep/out/rlib" ] && [ ! -e "$dep/out/rlib/stamp" ] || return 1 # a library of an earlier run
        words+=(-L "dependency=../${dep#crates/}/out/rlib")
    done
    (cd "$folder" && mkdir -p out && "$kit/bin/rattle" build "${words[@]}" -o "${built#"$folder"/}")
}

[ $# -ge 1 ] || wrong "which crate? prove.sh impulse, or prove.sh sentivolus"
mapfile -t found < <(crates)
[ ${#found[@]} -gt 0 ] || wrong "crates.txt lists no crate $name"
mapfile -t folders < <(printf 'crates/%s\n' "${found[@]%% *}")
folder=${folders[0]}
case ${found[0]} in
    *" staticlib") command=lib built=$folder/out/lib$name.a made=target/staticlib/lib$name.a ;;
    *) command=run built=$folder/out/$name made=target/bin/$name ;;
esac
is_new "$made" && exit 0
if is_new "$built"; then place && exit 0; fi
command -v rt >/dev/null || wrong "rt, the Rattle toolchain's command, is not on PATH"
mkdir -p target
if [ "$after" = after-ci ] && over_ci >"$log" 2>&1; then place && exit 0; fi
echo "$made is proved and built first, ${#folders[@]} crates: up to half an hour on two cores, once only" >&2
# rt run builds a program and runs it, here on no input
if (set -o pipefail && cd "$folder" && rt "$command" 2>&1 </dev/null | tee "../../$log" | progress >&2) && [ -f "$built" ] && place; then exit 0; fi
echo "prove.sh: $made was not built; $log has what rt said, which ends:" >&2
tail -n 5 "$log" >&2
exit 1
