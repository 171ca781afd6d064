#!/usr/bin/env bash
# How the time of a search grows with its data: growth.sh [BINDIR]
# BINDIR has psr_search and psr_make, built for AVX2 where there is that; else those that were last built here.
# Observations of 1024 channels of 8 bits, of SIZES bytes (10^7 to 10^10), are searched with delays of 0 to 1024 and
# boxes up to 1, by one thread and by three shards in four hands: cold, where the system holds nothing of the file (dd
# has dropped it from the file cache), and warm. Each figure is the least of ROUNDS rounds (3). The files lie in TMPDIR,
# which has to be on a disk, one at a time. Statuses: 0; 1 where a text is another; 2 where a program is missing.
set -u
. "$(dirname "$0")/common.bash"
rounds=${ROUNDS:-3}
find_programs "${1:-}" psr_search psr_make
make_folder
cd "$folder" || exit 2
read -ra sizes <<<"${SIZES:-10000000 100000000 1000000000 10000000000}"
search=("${at[psr_search]}" --mean 16 --sd 2.828 --snr 12 --max-delay 1024 --max-candidates 1000000 --widths 1)
cool() { # drops a file from the file cache
    dd of="$1" oflag=nocache conv=notrunc,fdatasync count=0 2>/dev/null
}

tell_machine "$rounds"
echo
echo '| Bytes | 1 thread, cold | ns a byte | warm | ns a byte | 3 shards in 4 hands, cold | ns a byte | warm | ns a byte |'
echo '|---|---|---|---|---|---|---|---|---|'
for size in "${sizes[@]}"; do
    rm -f made.dada
    # psr_make makes at most a million spectra: the data of a longer observation are those of one repeated
    copies=$(((size - 1) / (1024 * 1000000) + 1))
    spectra=$((size / 1024 / copies))
    "${at[psr_make]}" --number 2 --nchan 1024 --delay 512 --period 65536 --height 2 --spectra "$spectra" \
        made.dada || exit 2
    [ "$copies" -eq 1 ] || tail -c +4097 made.dada >once.data
    for ((copy = 1; copy < copies; copy++)); do cat once.data >>made.dada; done
    rm -f once.data
    wall=()
    for ((round = 0; round < rounds; round++)); do
        for state in cold warm; do
            for threads in '1 1' '3 4'; do
                [ "$state" = warm ] || cool made.dada
                once "$threads $state" "${search[@]}" --shards "${threads% *}" --hands "${threads#* }" made.dada
                same "$size bytes" "${text[$threads $state]}" "${text[1 1 cold]}"
            done
        done
    done
    printf '| %s ' "$size"
    for threads in '1 1' '3 4'; do
        for state in cold warm; do
            awk -v took="${wall[$threads $state]}" -v size="$size" \
                'BEGIN { printf "| %.3f s | %.2f ", took, 1e9 * took / size }'
        done
    done
    echo '|'
done
exit "$failed"
