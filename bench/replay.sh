#!/bin/sh
# Replays runs of 10,000, 30,000, 100,000 and 300,000 paths, five times each, and prints a table: the paths, the events, the
# least time of the replay alone in nanoseconds an event, and the peak of memory of the whole program.
program=$("$(dirname "$0")/../tests/program" bench_kit) || exit 1
echo '| Paths | Events | ns an event | MiB |'
echo '|---|---|---|---|'
for paths in 10000 30000 100000 300000; do
    for _ in 1 2 3 4 5; do
        /usr/bin/time -f '%M kibibytes' "$program" replay "$paths" 2>&1 || exit 1
    done | awk '
        / paths, / { paths = $1; events = $3 }
        / microseconds/ { if (!least || $1 < least) least = $1 }
        / kibibytes/ { if ($1 > peak) peak = $1 }
        END { printf "| %d | %d | %.0f | %.1f |\n", paths, events, 1000 * least / events, peak / 1024 }'
done
