#!/usr/bin/env bash
# run.sh and Impulse as a person meets them: usage, exit status, a failed write, a link, the first run's messages, an answer at the newline.
# Needs target/bin/impulse (prove.sh impulse).
set -u
root=$(cd "$(dirname "$0")/.." && pwd)
scratch=$(mktemp -d)
trap 'rm -rf "$scratch"' EXIT
checks=0 failed=0
check() { # check WHAT COMMAND..: the command succeeds
    local what=$1
    shift
    checks=$((checks + 1))
    "$@" || { failed=$((failed + 1)) && echo "FAILED: $what"; }
}
tried() { # tried COMMAND..: runs it; leaves status, out and err
    "$@" >"$scratch/out" 2>"$scratch/err"
    status=$?
    out=$(<"$scratch/out") err=$(<"$scratch/err")
}
has() { [[ $1 == *"$2"* ]]; }

# ---- answers and exit status

touch "$root/target/bin/impulse" # built from these sources, whatever their times
tried "$root/run.sh" 2 48000 3
check "a render" [ "$status $out" = "0 "$'0 3f800000\n1 00000000\n2 00000000' ]
check "a render says nothing else" [ -z "$err" ]
for words in "14 48000 3/refused 5" "2 7999 3/refused 1" "2 48000 4097/refused 9" "2 200000 3/large"; do
    # shellcheck disable=SC2086 # three words
    tried "$root/run.sh" ${words%/*}
    check "${words#*/}" [ "$status $out" = "1 ${words#*/}" ]
done
tried "$root/run.sh" 13 48000 1
check "a chord comb" [ "$status $out" = "0 0 3f66e979" ]
tried "$root/run.sh" 2 48000
check "a wrong line's status and answer" [ "$status $out" = "2 line" ]
check "a wrong line's usage" has "$err" "usage: run.sh CODE RATE FRAMES"
tried "$root/run.sh"
check "no arguments" [ "$status$out" = 2 ]
check "no arguments' usage" has "$err" "usage: run.sh CODE RATE FRAMES"
tried "$root/run.sh" --help
check "--help" [ "$status$err" = 0 ]
check "--help's usage" has "$out" "usage: run.sh CODE RATE FRAMES"
"$root/run.sh" 2 48000 3 >/dev/full 2>"$scratch/err"
check "a failed write" [ $? -eq 3 ]
ln -s "$root/run.sh" "$scratch/link"
cd "$scratch" || exit 1
tried ./link 2 48000 1
check "through a link" [ "$status $out" = "0 0 3f800000" ]

# ---- the first run, with a stand-in for rt in a tree of its own

tree=$scratch/tree
mkdir -p "$tree/crates/base" "$tree/crates/impulse" "$scratch/bin"
cp "$root/run.sh" "$root/prove.sh" "$tree/"
printf 'base:\nimpulse: base\nother: base\n' >"$tree/crates.txt"
cat >"$scratch/bin/rt" <<'STANDIN'
#!/bin/sh
[ "$*" = run ] || exit 2
echo 'rt: chose --jobs 2 for base'
echo 'logic=proved functions=1'
echo 'rt: chose --jobs 2 for impulse'
[ -z "${BROKEN-}" ] || { echo 'logic=not-proved' && exit 1; }
echo 'logic=proved functions=2'
mkdir -p out
printf '#!/bin/sh\necho "0 3f800000"\n' >out/impulse
chmod +x out/impulse
exec out/impulse
STANDIN
chmod +x "$scratch/bin/rt"
PATH=$scratch/bin:$PATH
BROKEN=yes tried "$tree/run.sh" 2 48000 1
check "a failed build's status" [ "$status$out" = 3 ]
check "a failed build's reason" has "$err" "logic=not-proved"
tried "$tree/run.sh" 2 48000 1
check "the first run renders" [ "$status $out" = "0 0 3f800000" ]
said=$(head -n 1 "$scratch/err")
check "it says at once what it does" has "$said" "target/bin/impulse is proved and built first, 2 crates"
check "how long, and that it is once only" has "$said" "up to half an hour on two cores, once only"
check "one line a crate" [ "$(tail -n 2 "$scratch/err")" = " 1 of 2  base proved"$'\n'" 2 of 2  impulse proved" ]
tried "$tree/run.sh" 2 48000 1
check "the second run says nothing" [ "$status$err" = 0 ]
rm -r "$tree/target"
tried "$tree/run.sh" 2 48000 1
check "what was built of the same sources is taken" [ "$status$err" = 0 ]
touch -d '+1 minute' "$tree/crates/base/a"
tried "$tree/run.sh" 2 48000 1
check "newer sources are proved" has "$err" " 2 of 2  impulse proved"

# ---- Impulse answers at the newline, with the input still open, and leaves what follows to the next reader

coproc impulse { "$root/target/bin/impulse"; }
printf '2 48000 1\n' >&"${impulse[1]}"
answer=
read -r -t 10 answer <&"${impulse[0]}"
check "an answer at the newline" [ "$answer" = "0 3f800000" ]
check "later lines stay" [ "$(printf '2 48000 1\n14 48000 1\n' | { "$root/target/bin/impulse" && "$root/target/bin/impulse"; })" = $'0 3f800000\nrefused 5' ]
check "no newline at the input's end" [ "$(printf '2 48000 1' | "$root/target/bin/impulse")" = "0 3f800000" ]

echo "run: $checks checks, $failed failed"
[ "$failed" -eq 0 ]
