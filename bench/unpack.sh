#!/usr/bin/env bash
# How many samples a second are turned from spectra of 1024 channels into rows, in chunks of 256 spectra: into rows of
# 32 bits and into rows of bytes, each the best of seven.
set -eu
. "$(dirname "$0")/common.bash"
search_bench=$(build search_bench)
repeats=2000
for kind in words bytes; do
    for _ in 1 2 3 4 5 6 7; do
        "$search_bench" unpack "$kind" "$repeats" | awk '/ns in all/ { print $1 }'
    done | least |
        awk -v kind="$kind" -v n="$repeats" \
            '{ printf "%s: %.2f thousand million samples a second\n", kind, n * 1024 * 256 / $1 }'
done
