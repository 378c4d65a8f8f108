#!/usr/bin/env bash
# replay.sh: files of scenarios, of leaves and of parked files through the proved library. Builds what it needs; messages go to standard error.
set -eu
. "$(dirname "$0")/common.sh"
usage="usage: replay.sh run | leaf | file | check run FILE | check leaf FILE | check file FILE
  run    reads a scenario file on standard input and writes it again with every answer recomputed
  leaf   the same for a leaves file
  file   the same for a file of cases on parked files
  check  says whether a file's answers are those that the library gives, or where they differ first
Exit status: 0, 1 where an answer differs, 2 where the command line or a line of the file cannot be read. docs/FORMATS.md describes the files."
case $#:$* in
    1:--help) echo "$usage" && exit 0 ;;
    1:run | 1:leaf | 1:file | 3:check\ run\ * | 3:check\ leaf\ * | 3:check\ file\ *) ;;
    *) wrong "$usage" ;;
esac
"$here/build.sh" >&2
exec "$here/target/release/compare" "$@"
