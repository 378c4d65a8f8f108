#!/usr/bin/env bash
# clip.sh [FIRST LAST]: how far soft_clip strays from v(v² + 27) / (9v² + 27) at most, and for inputs from 1/16 on exactly, and where: over every f32 (a
# minute or two), or over those with bits from FIRST to LAST, eight lower-case hexadecimal digits each.
set -eu
here=$(cd "$(dirname "$0")" && pwd)
"$here/build.sh" >&2
exec "$here/target/release/compare" clip "$@"
