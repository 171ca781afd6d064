#!/usr/bin/env bash
# How long it takes to make 134 million bytes of samples, in memory (/dev/shm): the least of seven; and their checksum.
set -eu
. "$(dirname "$0")/common.bash"
make_folder /dev/shm
psr_make=$(build psr_make_main "$folder/first.dada")
for _ in 1 2 3 4 5 6 7; do
    rm -f "$folder/big.dada"
    once make "$psr_make" --number 2 --nchan 1024 --spectra 131072 --delay 512 --period 4096 --height 1 \
        "$folder/big.dada"
done
awk -v took="${wall[make]}" 'BEGIN { printf "%.2f s, %.0f million samples a second\n", took, 134.217728 / took }'
md5sum <"$folder/big.dada"
