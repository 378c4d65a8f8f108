#!/usr/bin/env bash
# scale.sh: random scenarios, leaves and parked files from fresh seeds, the proved library beside the oracle. `scale.sh --help` lists the options.
set -eu
. "$(dirname "$0")/common.sh"
usage="usage: scale.sh [--seed N] [--samples N] [--rows N] [--oracle FOLDER] [--help]
  --seed N         the first seed (from the clock where it is not given)
  --samples N      voice-samples to compare (10000000)
  --rows N         rows that a leaves file of this oracle's has (6351)
  --oracle FOLDER  the folder that holds assemble.py (../shared/oracle-requests beside the repository)"
options=()
while [ $# -gt 0 ]; do
    case $1 in
        --help) echo "$usage" && exit 0 ;;
        --seed | --samples | --rows)
            case ${2-} in '' | *[!0-9]*) misused "$1 takes a whole number" ;; esac
            options+=("$1" "$2")
            ;;
        --oracle)
            [ -n "${2-}" ] || misused "--oracle takes a folder"
            oracle=$2
            ;;
        *) misused "$1 is no option" ;;
    esac
    shift 2
done
need_oracle "$oracle"
"$here/build.sh" >&2
"$here/oracle.sh" "$oracle"
exec "$here/target/release/compare" scale "$here/target/oracle/std/target/release/oracle-std" "${options[@]}"
