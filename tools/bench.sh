#!/usr/bin/env bash
# bench.sh [TRACE]: measures play beside the plain program of tools/plain, on the trace given or the longest sample trace, and on
# traces of hits, misses and write-backs. It prints numbers and judges none; docs/SPEED.md says what they mean.
#   RUNS=200      how often each program is run for a time
#   PLAY=PROGRAM  measures this program as play, instead of proving and building crates/play
set -euo pipefail
top=$(cd "$(dirname "$0")/.." && pwd)
trace=${1:-$top/crates/listings/data/longest.trace}
runs=${RUNS:-200}
[ -f "$trace" ] || { echo "bench.sh: no trace $trace" >&2; exit 2; }
work=$(mktemp -d)
trap 'rm -rf "$work"' EXIT

if [ -z "${PLAY:-}" ]; then
    (cd "$top/crates/play" && rt run <stdin >/dev/null)
    PLAY=$top/crates/play/out/play
fi
(cd "$top/tools/plain" && cargo build --release --offline --quiet)
names=(play plain)
programs=("$PLAY" "$top/tools/plain/target/release/plain")
python3 "$top/tools/make_traces.py" "$work"
cp "$trace" "$work/given.trace"

# instructions PROGRAM TRACE: how many instructions a run takes, in user space
instructions() {
    valgrind --tool=callgrind --callgrind-out-file=/dev/null "$1" <"$2" 2>&1 >/dev/null | awk '/Collected/ { print $NF }'
}

# The results, a line each: trace, program, requests, steps, calls, instructions, clock and processor time in microseconds.
for name in given setup hits misses write-backs; do
    input=$work/$name.trace
    mapfile -t times < <(python3 "$top/tools/measure.py" "$runs" "$input" "${programs[@]}")
    for i in 0 1; do
        listing=$work/$name.${names[i]}
        "${programs[i]}" <"$input" >"$listing"
        read -r _ requests steps < <(tail -n 1 "$listing")
        calls=$((requests + steps + $(wc -l <"$listing")))
        echo "$name ${names[i]} $requests $steps $calls $(instructions "${programs[i]}" "$input") ${times[i]}" >>"$work/results"
    done
    cmp -s "$work/$name.play" "$work/$name.plain" || echo "The two listings of the trace '$name' differ: these numbers are not comparable."
done

awk -v given="$(basename "$trace" .trace)" '
    function label() { return $1 == "given" ? given : $1 }
    BEGIN { printf "%-12s %-6s %9s %8s %13s %9s %12s\n", "trace", "", "requests", "steps", "instructions", "wall ms", "user+sys ms" }
    { printf "%-12s %-6s %9d %8d %13d %9.3f %12.3f\n", label(), $2, $3, $4, $6, $7 / 1000, $8 / 1000 }
    $1 == "setup" { calls[$2] = $5; instructions[$2] = $6; time[$2] = $8 }
    $1 != "setup" && $1 != "given" && $3 > 0 && $8 > time[$2] {
        rates[++count] = sprintf("%-12s %-6s %12d %12d %22.0f", $1, $2, 1e6 * $3 / ($8 - time[$2]),
            1e6 * ($5 - calls[$2]) / ($8 - time[$2]), ($6 - instructions[$2]) / $3)
    }
    END {
        printf "\n%-12s %-6s %12s %12s %22s\n", "trace", "", "requests/s", "calls/s", "instructions/request"
        for (i = 1; i <= count; i++) print rates[i]
    }' "$work/results"
echo
echo "Instructions: valgrind --tool=callgrind. Times: the best of $runs runs. Rates: by user+sys time less that of the setup alone."
