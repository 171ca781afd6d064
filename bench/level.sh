#!/usr/bin/env bash
# How long levelling takes beside one search of the same file and beside cat: level.sh [BINDIR]
# BINDIR has psr_level, psr_search and psr_make, built for AVX2 where there is that; else those that were last built
# here. Two observations of 134 MB are levelled to /dev/null on one thread: 1024 channels of 8 bits and 131072 spectra,
# also with --clip, --zero-dm and --average 4, and 65536 spectra of 16 bits. The search is that of the file of 8 bits,
# with delays of 0 to 1024 and boxes up to 1. Each figure is the best of ROUNDS rounds (9), in which all take turns, and
# stands beside its goal. The memory of psr_level is shown beside that of one stretch of values. OTHER=PROGRAM is another
# psr_level, whose output has to be the same. The files lie in memory (/dev/shm), 0.5 GB of it. Statuses: 0, though a
# goal be missed; 1 where an output is another; 2 where a program is missing.
set -u
. "$(dirname "$0")/common.bash"
rounds=${ROUNDS:-9}
find_programs "${1:-}" psr_level psr_search psr_make
make_folder /dev/shm
cd "$folder" || exit 2
made=(--number 2 --nchan 1024 --delay 512 --period 4096 --height 1)
"${at[psr_make]}" "${made[@]}" --spectra 131072 bytes.dada || exit 2
"${at[psr_make]}" "${made[@]}" --nbit 16 --spectra 65536 words.dada || exit 2

quiet() { "$@" >/dev/null; }
search=("${at[psr_search]}" --mean 16 --sd 2.828 --max-delay 1024 --max-candidates 1000000 --widths 1 bytes.dada)
declare -A level=(
    [8 bits]='bytes.dada'
    [8 bits, --clip 6]='--clip 6 bytes.dada'
    [8 bits, --zero-dm]='--zero-dm bytes.dada'
    [8 bits, --clip 6 --zero-dm]='--clip 6 --zero-dm bytes.dada'
    [8 bits, --average 4]='--average 4 bytes.dada'
    [16 bits]='words.dada'
)
kinds=('8 bits' '8 bits, --clip 6' '8 bits, --zero-dm' '8 bits, --clip 6 --zero-dm' '8 bits, --average 4' '16 bits')
for ((round = 0; round < rounds; round++)); do
    once search "${search[@]}"
    once cat quiet cat bytes.dada
    for kind in "${kinds[@]}"; do
        read -ra arguments <<<"${level[$kind]}"
        once "$kind" quiet "${at[psr_level]}" "${arguments[@]}"
        [ -z "${OTHER:-}" ] || once "$kind, the other" quiet "$OTHER" "${arguments[@]}"
    done
done
if [ -n "${OTHER:-}" ]; then
    for kind in "${kinds[@]}"; do
        read -ra arguments <<<"${level[$kind]}"
        same "$kind" "$("${at[psr_level]}" "${arguments[@]}" | md5sum)" "$("$OTHER" "${arguments[@]}" | md5sum)"
    done
fi

row() { # row WHAT NAME GOAL MEMORY: a time, its ratios to the search and to cat, the goal, and the memory
    awk -v what="$1" -v took="${wall[$2]}" -v search="${wall[search]}" -v cat="${wall[cat]}" -v goal="$3" \
        -v memory="$4" 'BEGIN {
        met = goal == "" ? "" : took / search <= goal ? "yes" : "no"
        printf "| %s | %.3f s | %.2f | %.1f | %s | %s | %s |\n", what, took, took / search, took / cat, goal, met, memory }'
}
tell_machine "$rounds"
echo
echo '| What | wall time | to the search | to cat | goal | met | memory |'
echo '|---|---|---|---|---|---|---|'
row cat cat '' ''
row psr_search search '' "$(memory "${search[@]}")"
for kind in "${kinds[@]}"; do
    read -ra arguments <<<"${level[$kind]}"
    case $kind in
        '8 bits') goal=2 ;;
        '8 bits, --average 4' | '16 bits') goal=4 ;;
        *) goal='' ;;
    esac
    row "psr_level, $kind" "$kind" "$goal" "$(memory "${at[psr_level]}" "${arguments[@]}")"
    [ -z "${OTHER:-}" ] || row "the other, $kind" "$kind, the other" '' ''
done
echo
echo 'One stretch of values: 16.8 MB of 8 bits, 33.6 MB of 16 bits or of four summed.'
exit "$failed"
