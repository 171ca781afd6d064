#!/usr/bin/env bash
# How long it takes to add a row, and to fold rows by halves: here, and by the same loops in C. Each is the least of
# seven, in turns.
set -eu
. "$(dirname "$0")/common.bash"
make_folder
search_bench=$(build search_bench)
gcc -O3 -march="$cpu" -o "$folder/rows" "$root/bench/rows.c"
for work in 'rows 128 4000000' 'rows 256 2000000' 'rows 512 1000000' 'rows 1024 500000' 'fold 4096 5 2000' \
    'fold 1000 4 10000'; do
    read -ra arguments <<<"$work"
    here=() there=()
    for _ in 1 2 3 4 5 6 7; do
        here+=("$("$search_bench" "${arguments[@]}" | awk 'END { print $1 }')")
        there+=("$("$folder/rows" "${arguments[@]}" | awk 'END { print $1 }')")
    done
    a=$(printf '%s\n' "${here[@]}" | least) c=$(printf '%s\n' "${there[@]}" | least)
    awk -v w="$work" -v n="${work##* }" -v a="$a" -v c="$c" \
        'BEGIN { printf "%-20s here %9.1f ns, C %9.1f ns, C / here %.2f\n", w, a / n, c / n, c / a }'
done
