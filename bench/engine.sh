#!/usr/bin/env bash
# How long the engine takes for each data byte: 1024 channels, delays of 0 to 1024, one thread: engine.sh [SPECTRA].
# Each row is a search of the samples alone, of boxes of all widths, or of folds of the periods 2 to 64 too; at SPECTRA
# spectra and at 8 times as many. The least processor time of three, and the peak of memory.
set -eu
. "$(dirname "$0")/common.bash"
spectra=${1:-8192}
search_bench=$(build search_bench)
make_folder
for row in '1 0 samples' '32 0 boxes' '32 64 folds'; do
    read -r widest periods what <<<"$row"
    for n in "$spectra" $((8 * spectra)); do
        for _ in 1 2 3; do once "$what $n" "$search_bench" engine "$n" "$widest" "$periods"; done
        awk -v n="$n" -v what="$what" -v took="${cpu_time[$what $n]}" \
            'BEGIN { printf "%-8s %8d spectra: %.3f ns a byte\n", what, n, 1e9 * took / (n * 1024) }'
    done
    printf '%-8s peak of memory: %s\n' "$what" "$(memory "$search_bench" engine "$spectra" "$widest" "$periods")"
done
