#!/usr/bin/env bash
# Blocks a second through a ring, from one writer to 1, 4 and 8 readers in threads: here, and in C, which does the same
# work by a lock-free ring, by one whose readers take turns as here, and by semaphores. Each runs for at least a second,
# and the best of three counts, in turns.
set -eu
. "$(dirname "$0")/common.bash"
make_folder
ring_bench=$(build ring_bench)
gcc -O3 -march="$cpu" -pthread -o "$folder/ring" "$root/bench/ring.c"
rate() { # rate COMMAND ..: blocks a second, over as many blocks as take a second
    local blocks=500 answer millis
    while
        answer=$("$@" "$blocks")
        millis=$(sed -n 's/.* in \([0-9]*\) ms$/\1/p' <<<"$answer")
        [ "$millis" -lt 1000 ]
    do
        blocks=$((millis < 50 ? blocks * 16 : blocks * 1200 / millis + 1))
    done
    sed -n 's/^\([0-9]*\) blocks and .*/\1/p' <<<"$answer"
}
uptime
for size in 64 4096 524288; do
    for readers in 1 4 8; do
        here=() free=() taken=() semaphores=()
        for _ in 1 2 3; do
            here+=("$(rate "$ring_bench" "$size" "$readers")")
            free+=("$(rate "$folder/ring" free "$size" "$readers")")
            taken+=("$(rate "$folder/ring" turns "$size" "$readers")")
            semaphores+=("$(rate "$folder/ring" semaphores "$size" "$readers")")
        done
        a=$(printf '%s\n' "${here[@]}" | greatest)
        b=$(printf '%s\n' "${free[@]}" | greatest) c=$(printf '%s\n' "${semaphores[@]}" | greatest)
        t=$(printf '%s\n' "${taken[@]}" | greatest)
        awk -v s="$size" -v r="$readers" -v a="$a" -v b="$b" -v t="$t" -v c="$c" 'BEGIN {
            printf "%6d B, %d readers: %8d blocks a second; in C lock-free %8d, turns %8d, ", s, r, a, b, t
            printf "semaphores %8d; here / these %.2f, %.2f, %.2f\n", c, a / b, a / t, a / c
        }'
    done
done
