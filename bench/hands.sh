#!/usr/bin/env bash
# How long a search of a large observation takes with several shards and hands: 1024 channels, 131072 spectra (134 MB),
# delays of 0 to 1024, samples alone. The least wall time of nine, in turns. The file is made by psr_make, in memory
# (/dev/shm). OTHER=PROGRAM takes turns with another build of psr_search.
set -eu
. "$(dirname "$0")/common.bash"
make_folder /dev/shm
psr_make=$(build psr_make_main "$folder/first.dada")
psr_search=$(build psr_search_main --mean 1 --sd 2 --snr 7 --max-delay 1 --widths 1 data/pulse.dada)
file=$folder/made.dada
"$psr_make" --number 2 --nchan 1024 --spectra 131072 --delay 512 --period 4096 --height 1 "$file"
arguments=(--mean 16 --sd 2.828 --max-delay 1024 --max-candidates 1000000 --widths 1)
rows=('1 1' '1 2' '2 2' '3 4' '4 2' '4 4' '7 4')
for _ in 1 2 3 4 5 6 7 8 9; do
    for row in "${rows[@]}"; do
        several=(--shards "${row% *}" --hands "${row#* }")
        once "$row" "$psr_search" "${arguments[@]}" "${several[@]}" "$file"
        [ -z "${OTHER:-}" ] || once "$row, the other" "$OTHER" "${arguments[@]}" "${several[@]}" "$file"
    done
done
for row in "${rows[@]}"; do
    echo "${row% *} shards ${row#* } hands: ${wall[$row]} s${OTHER:+, the other: ${wall[$row, the other]} s}"
done
