#!/usr/bin/env bash
# How long the tables of 1024 channels and delays from 0 to 1024 take over 131072 spectra, with the tables of all nodes
# after each chunk (feed) and with the rows of the whole band alone (pass), and how much memory that needs: carry.sh
# [COMMAND ..]. Each time is the least of seven, in turns. COMMAND is another program that prints `tables MS` on
# standard error; its time is measured in the same turns.
set -eu
. "$(dirname "$0")/common.bash"
search_bench=$(build search_bench)
declare -A best
note() { # note NAME TIME: keeps the least of the times of a name
    best[$1]=$(printf '%s\n' "$2" ${best[$1]:+"${best[$1]}"} | least)
}
works=('pass 256 512' 'pass 512 256' 'feed 64 2048' 'feed 128 1024')
for _ in 1 2 3 4 5 6 7; do
    for work in "${works[@]}"; do
        read -ra arguments <<<"$work"
        note "$work" "$("$search_bench" carry "${arguments[@]}" | awk '/ns in all/ { print $1 / 1e6 }')"
    done
    [ $# -eq 0 ] || note other "$("$@" 2>&1 >/dev/null | sed -n 's/.*tables \([0-9.]*\).*/\1/p' | head -n 1)"
done
for work in "${works[@]}"; do
    read -ra arguments <<<"$work"
    once=("$search_bench" carry "${arguments[@]:0:2}" 1)
    printf '%-14s %5.0f ms' "$work" "${best[$work]}"
    [ -z "${best[other]:-}" ] || printf ', to the other program %s' "$(quotient "${best[$work]}" "${best[other]}")"
    "${once[@]}" | awk '/bytes/ { printf ", rows and tails need %.1f MB", $5 / 1e6 }'
    echo ", the whole program takes $(memory "${once[@]}")"
done
[ -z "${best[other]:-}" ] || printf 'the other program %.0f ms\n' "${best[other]}"
