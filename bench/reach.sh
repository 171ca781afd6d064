#!/usr/bin/env bash
# What masks, parts and beams cost beside a plain search: reach.sh [BINDIR]
# BINDIR has psr_search, psr_mask, psr_part, psr_beams and psr_make, built for AVX2 where there is that; else those
# that were last built here. The observation of bench/speed.sh (1024 channels, 131072 spectra, 134 MB, delays of 0 to
# 1024) is searched by one thread: by psr_mask without a mask and with a tenth of the channels masked, and by psr_part
# in its second half. psr_beams searches four such beams on four threads, and seven small ones with four million
# pulses. Beside the four beams stand four runs of psr_search beside each other, one for each file: where four cores
# are free, they take little longer than one. Each figure is the best of ROUNDS rounds (9; 3 for the seven beams), in
# which all take turns, and stands beside its goal.
# Texts are compared with those of psr_search. The files lie in memory (/dev/shm), 0.6 GB of it. Statuses: 0, though a
# goal be missed; 1 where a text is another; 2 where a program is missing.
set -u
. "$(dirname "$0")/common.bash"
rounds=${ROUNDS:-9}
find_programs "${1:-}" psr_search psr_mask psr_part psr_beams psr_make
make_folder /dev/shm
cd "$folder" || exit 2

alike() { # alike WHAT FILE FILE
    same "$1" "$(md5sum <"$2")" "$(md5sum <"$3")"
}
row() { # row WHAT NAME OTHER GOAL: a time, its ratio to another, and the goal
    awk -v what="$1" -v took="${wall[$2]}" -v other="${wall[$3]}" -v goal="$4" 'BEGIN {
        met = took / other <= goal ? "yes" : "no"
        printf "| %s | %.3f s | %.3f | %s | %s |\n", what, took, took / other, goal, met }'
}

# One observation on one thread. A tenth of 1024 channels is 102 of them, here in runs and alone.
"${at[psr_make]}" --number 2 --nchan 1024 --delay 512 --period 4096 --height 1 --spectra 131072 large.dada || exit 2
arguments=(--mean 16 --sd 2.828 --max-delay 1024 --max-candidates 1000000 --widths 8)
tenth=$(seq -s , 5 20 1023),100-125,700-724
echo 'CHECK 65536 0' >half
for ((round = 0; round < rounds; round++)); do
    once search "${at[psr_search]}" "${arguments[@]}" large.dada
    once none "${at[psr_mask]}" none "${arguments[@]}" large.dada
    once tenth "${at[psr_mask]}" "$tenth" "${arguments[@]}" large.dada
    once rest "${at[psr_part]}" 131072 half "${arguments[@]}" large.dada
done
alike 'psr_mask none' none search
"${at[psr_part]}" 65536 new "${arguments[@]}" large.dada | head -n -1 | cat - <(head -n -1 rest) >parts
alike 'both parts' parts <(head -n -1 search)

# Four beams on four threads, beside one search.
for beam in 1 2 3; do
    "${at[psr_make]}" --number "2$beam" --nchan 1024 --delay 512 --period 4096 --height 1 --spectra 131072 \
        "beam$beam.dada" || exit 2
done
beams=(large.dada beam1.dada beam2.dada beam3.dada)
four_searches() { # one for each beam, beside each other
    local beam
    for beam in "${beams[@]}"; do "${at[psr_search]}" "${arguments[@]}" "$beam" >/dev/null & done
    wait
}
for ((round = 0; round < rounds; round++)); do
    once search "${at[psr_search]}" "${arguments[@]}" large.dada
    once four four_searches
    once beams "${at[psr_beams]}" 8 2 "${arguments[@]}" "${beams[@]}"
done
alike 'beam 0' <(awk '/^BEAM/ { beam = $2; next } beam == 0 { sub(/^RFI/, "PULSE"); print }' beams) search

tell_machine "$rounds"
echo
echo '| What | wall time | to one search | goal | met |'
echo '|---|---|---|---|---|'
row 'psr_search' search search 1
row 'psr_mask none' none search 1.03
row "psr_mask with a tenth of the channels masked" tenth search 1.03
row 'psr_part, the second half' rest search 0.6
row 'psr_beams, four beams' beams search 1.35
echo
awk -v four="${wall[four]}" -v one="${wall[search]}" 'BEGIN {
    printf "Four runs of psr_search beside each other took %.3f of one.\n", four / one }'
echo "Memory: psr_search $(memory "${at[psr_search]}" "${arguments[@]}" large.dada), psr_mask" \
    "$(memory "${at[psr_mask]}" "$tenth" "${arguments[@]}" large.dada), psr_part" \
    "$(memory "${at[psr_part]}" 131072 half "${arguments[@]}" large.dada), four beams" \
    "$(memory "${at[psr_beams]}" 8 2 "${arguments[@]}" "${beams[@]}")."
rm -f ./*.dada search none tenth rest parts beams four

# Seven beams with 4 million pulses in all: of two channels, and a threshold that a third of all sums reach. The same
# without a line tells what the searches alone take.
arguments=(--mean 16 --sd 2.828 --snr 0.45 --max-delay 3 --widths 1 --max-candidates 1048576)
names=()
for beam in 0 1 2 3 4 5 6; do
    "${at[psr_make]}" --number "$beam" --nchan 2 --delay 1 --height 0 --spectra 450000 "small$beam.dada" || exit 2
    names+=("small$beam.dada")
done
for ((round = 0; round < 3; round++)); do
    once beams "${at[psr_beams]}" 1 6 "${arguments[@]}" "${names[@]}"
    once quiet "${at[psr_beams]}" 1 6 "${arguments[@]/0.45/1000}" "${names[@]}"
done
lines=$(wc -l <beams)
awk -v lines="$lines" -v marked="$(grep -c '^RFI' beams)" -v all="${wall[beams]}" -v quiet="${wall[quiet]}" 'BEGIN {
    rate = lines / all / 1e6
    printf "Seven beams: %d lines, %d of them RFI, in %.2f s (without a line %.2f s): %.2f million lines a second " \
        "(goal 1: %s)\n", lines, marked, all, quiet, rate, (rate >= 1 ? "yes" : "no") }'
exit "$failed"
