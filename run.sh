#!/usr/bin/env bash
# Renders an impulse with the proved program; `run.sh --help` says how.
set -u
here=$(dirname "$(readlink -f "$0")")

usage() {
    cat <<'TEXT'
usage: run.sh CODE RATE FRAMES
Renders an impulse through one voice of the proved bank and prints each frame with its sample's bits.
  CODE    1 BuzzMorph       4 TransistorLadder   7 DrivenLadder    10 ExpanderMultimode
          2 DjSweep         5 DiodeLadder        8 PoleZero        11 ExpanderBandPass
          3 Diffuser        6 CleanLadder        9 Comb2           12 K35
         13 ChordComb, of one tooth
  RATE    samples a second, a whole number from 8000 to 131015
  FRAMES  1 to 4096
Example: run.sh 2 48000 3
Exit status: 0 rendered, 1 `refused n` or `large` (a rate above 131015 that a bank would take), 2 no such line, 3 not built or not written.
TEXT
}

case ${1-} in -h | --help) usage && exit 0 || exit 3 ;; esac
[ $# -gt 0 ] || { usage >&2 && exit 2; }
"$here/prove.sh" impulse || exit 3
answer=$(printf '%s\n' "$*" | "$here/target/bin/impulse") && [ -n "$answer" ] || exit 3
printf '%s\n' "$answer" || exit 3
case $answer in
    line) usage >&2 && exit 2 ;;
    refused* | large) exit 1 ;;
esac
