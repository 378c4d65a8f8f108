#!/usr/bin/env bash
# test.sh: builds the example as C and as C++, every warning an error, and holds what it prints to example.txt; builds and runs test.c.
# Needs cc, c++ and the archive (prove.sh sentivolus).
set -eu
here=$(cd "$(dirname "$0")" && pwd)
archive=$here/../target/staticlib/libsentivolus.a
out=$here/../target/c
strict=(-O2 -Wall -Wextra -pedantic -Werror)
mkdir -p "$out"
cc -std=c99 "${strict[@]}" "$here/example.c" "$archive" -o "$out/example"
c++ -std=c++11 "${strict[@]}" -x c++ "$here/example.c" -x none "$archive" -o "$out/example++"
"$out/example" | cmp - "$here/example.txt"
"$out/example++" | cmp - "$here/example.txt"
cc -std=c99 "${strict[@]}" "$here/test.c" "$archive" -lm -pthread -o "$out/test"
"$out/test"
