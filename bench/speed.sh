#!/usr/bin/env bash
# The whole table of speed, as markdown rows: speed.sh [PSR_SEARCH [PSR_MAKE [BOOK_BENCH]]]
# Searches of a large observation (1024 channels, 131072 spectra, 134 MB, delays of 0 to 1024) by one thread, by four
# shards in four hands and in five, and by three shards in four hands; a search of 8 times as many spectra; their
# memory; how fast candidates are written and observations are made. The files lie in TMPDIR, or in memory (/dev/shm)
# where that is not set: a slow disk changes the figures. Each figure is the best of ROUNDS rounds (9), in which all
# programs take turns. A program that is not given is proved and built first, for AVX2 where there is that.
# PEERS=DIR is a folder of C programs that do the same searches, with a build.sh that builds peer_fdmt.v3 and
# bandwidth.v3 into a folder: they run in the same rounds, ratios are to one thread of peer_fdmt.v3, each output is
# compared with its output, and what the machine can do is told first. Without it our own figures stand alone.
set -eu
. "$(dirname "$0")/common.bash"
. "$(dirname "$0")/peers.bash"

book=${3:-$(build book_bench)}
large=$folder/large.dada longer=$folder/longer.dada
made=(--number 2 --nchan 1024 --delay 512 --period 4096 --height 1)
"$psr_make" "${made[@]}" --spectra 131072 "$large"

arguments=(--mean 16 --sd 2.828 --max-delay 1024 --max-candidates 1000000)
declare -A options=(
    [widths to 1]='--widths 1'
    [widths to 8]='--widths 8'
    [folds]='--widths 1 --fold-min 3968 --fold-max 4224 --fold-rows 5 --fold-step 64'
)
kinds=('widths to 1' 'widths to 8' folds)
for ((round = 0; round < rounds; round++)); do
    for kind in "${kinds[@]}"; do
        read -ra more <<<"${options[$kind]}"
        once "$kind" "$psr_search" "${arguments[@]}" "${more[@]}" "$large"
        for hands in '4 4' '4 5' '3 4'; do
            once "$kind, $hands" "$psr_search" "${arguments[@]}" "${more[@]}" --shards "${hands% *}" \
                --hands "${hands#* }" "$large"
        done
        if [ -n "$peer" ]; then
            once "$kind, peer" "$peer" "${arguments[@]}" "${more[@]}" "$large"
            once "$kind, peer by delays" "$peer" "${arguments[@]}" "${more[@]}" --threads 4 --split delay "$large"
        fi
    done
    [ -z "$peer" ] || once 'four peers' beside_each_other "$peer" "${arguments[@]}" --widths 1 "$large"
    rm -f "$folder/made.dada"
    once make "$psr_make" "${made[@]}" --spectra 131072 "$folder/made.dada"
done
rm -f "$folder/made.dada"

tell_machine "$rounds"
[ -z "$peer" ] || echo "four of the peer beside each other take" \
    "$(quotient "${wall[four peers]}" "${wall[widths to 1, peer]}") times as long as one"
[ -z "$peer" ] || "$folder/peers/bandwidth.v3" | sed 's/^/    /'
echo
echo '| What | shards, hands | processor time | wall time | to the peer: processor, wall | memory | last line, output |'
echo '|---|---|---|---|---|---|---|'
row() { # row KIND NAME HANDS COMMAND ..
    local kind=$1 name=$2 hands=$3 ratio=- same=
    shift 3
    if [ -n "$peer" ]; then
        ratio="$(quotient "${cpu_time[$name]}" "${cpu_time[$kind, peer]}"), "
        ratio+=$(quotient "${wall[$name]}" "${wall[$kind, peer]}")
        same=', ANOTHER OUTPUT'
        [ "${text[$name]}" != "${text[$kind, peer]}" ] || same=', the same output'
    fi
    printf '| %s | %s | %s s | %s s | %s | %s | `%s`%s |\n' "$kind" "$hands" "${cpu_time[$name]}" "${wall[$name]}" \
        "$ratio" "$(memory "$@" "${arguments[@]}" "${more[@]}" "$large")" "${last[$name]}" "$same"
}
for kind in "${kinds[@]}"; do
    read -ra more <<<"${options[$kind]}"
    row "$kind" "$kind" '1, 1' "$psr_search"
    for hands in '4 4' '4 5' '3 4'; do
        row "$kind" "$kind, $hands" "${hands/ /, }" "$psr_search" --shards "${hands% *}" --hands "${hands#* }"
    done
    if [ -n "$peer" ]; then
        row "$kind" "$kind, peer" 'the peer' "$peer"
        row "$kind" "$kind, peer by delays" 'the peer by delays' "$peer" --threads 4 --split delay
    fi
done

rm -f "$large"
"$psr_make" "${made[@]}" --spectra 1048576 "$longer"
for ((round = 0; round < rounds; round++)); do
    once longer "$psr_search" "${arguments[@]}" --widths 1 "$longer"
done
echo
echo '| What | figure |'
echo '|---|---|'
echo "| time for a byte at 8 times the data, to that of the large observation |" \
    "$(quotient "${cpu_time[longer]}" "(8 * ${cpu_time[widths to 1]})") |"
echo "| its memory | $(memory "$psr_search" "${arguments[@]}" --widths 1 "$longer") |"
echo "| making the large observation | $(awk "BEGIN { printf \"%.0f\", 134.217728 / ${cpu_time[make]} }") MB for each" \
    "second of processor time |"
for ((round = 0; round < 3; round++)); do
    "$book" 142858 2>&1 >"$folder/text" | awk '{ printf "%.2f\n", $1 / ($11 - $5) / 1000 }'
done | greatest | awk '{ print "| candidates of seven books, written | " $1 " million a second |" }'
