#!/usr/bin/env bash
# profile.sh [TRACE]: the five functions of play with the most instructions of their own, on the trace given or the longest sample trace.
#   PLAY=PROGRAM  looks at this program, instead of proving and building crates/play
set -euo pipefail
top=$(cd "$(dirname "$0")/.." && pwd)
trace=${1:-$top/crates/listings/data/longest.trace}
[ -f "$trace" ] || { echo "profile.sh: no trace $trace" >&2; exit 2; }
profile=$(mktemp)
trap 'rm -f "$profile"' EXIT

if [ -z "${PLAY:-}" ]; then
    (cd "$top/crates/play" && rt run <stdin >/dev/null)
    PLAY=$top/crates/play/out/play
fi
valgrind --quiet --tool=callgrind --callgrind-out-file="$profile" "$PLAY" <"$trace" >/dev/null
# The list of functions stands behind the heading with "file:function" and its rule.
callgrind_annotate --auto=no "$profile" |
    awk '/PROGRAM TOTALS/ { print } listing && NF && shown < 5 && !/^-+$/ { print; shown++ } /file:function/ { listing = 1 }'
