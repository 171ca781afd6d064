#!/usr/bin/env bash
# The table of other shapes, as markdown rows: shapes.sh [PSR_SEARCH [PSR_MAKE]]
# Searches of bands of 16 to 4096 channels by one thread, by four shards in four hands and in five, by three shards in
# four hands, and by seven in eight. The files lie in TMPDIR, or in memory (/dev/shm) if that is not set, one at a time.
# Each figure is the best of ROUNDS rounds (9), in which all commands take turns.
# PEERS=DIR is a folder of C programs, as in speed.sh: the peer runs on one thread, and on four that part the delays;
# ratios are of wall times to its one thread, and each output is compared with its output.
set -eu
. "$(dirname "$0")/common.bash"
. "$(dirname "$0")/peers.bash"

several=('4 4' '4 5' '3 4' '7 8') # shards, hands
first=one # whose output all others have to have
[ -z "$peer" ] || first=peer
rows=()
for shape in "${shapes[@]}"; do
    read -r channels spectra delays widths <<<"$shape"
    file=$folder/shape.dada
    make_shape "$channels" "$spectra" "$delays" "$file"
    arguments=(--mean 16 --sd 2.828 --max-delay "$delays" --widths "$widths" --max-candidates 1000000 "$file")
    wall=() cpu_time=() text=()
    for ((round = 0; round < rounds; round++)); do
        once one "$psr_search" "${arguments[@]}"
        for hands in "${several[@]}"; do
            once "$hands" "$psr_search" --shards "${hands% *}" --hands "${hands#* }" "${arguments[@]}"
        done
        if [ -n "$peer" ]; then
            once peer "$peer" "${arguments[@]}"
            once 'peer by delays' "$peer" --threads 4 --split delay "${arguments[@]}"
            once 'four peers' beside_each_other "$peer" "${arguments[@]}"
        fi
    done
    line="| $channels | $spectra | $delays | $widths"
    for name in one "${several[@]}"; do
        line+=" | ${wall[$name]} s"
        [ -z "$peer" ] || line+=", $(quotient "${wall[$name]}" "${wall[peer]}")"
        [ "${text[$name]}" = "${text[$first]}" ] || line+=' ANOTHER OUTPUT'
    done
    if [ -n "$peer" ]; then
        line+=" | $(quotient "${wall[peer by delays]}" "${wall[peer]}")"
        line+=" | $(quotient "${wall[four peers]}" "${wall[peer]}")"
    fi
    rows+=("$line | $(memory "$psr_search" "${arguments[@]}") |")
    rm -f "$file"
done

tell_machine "$rounds"
echo
[ -z "$peer" ] || echo 'Behind each time stands its ratio to one thread of the peer.'
echo -n '| Channels | Spectra | Delays to | Widths to | One thread'
for hands in "${several[@]}"; do echo -n " | ${hands% *} shards, ${hands#* } hands"; done
[ -z "$peer" ] || echo -n ' | The peer by delays | Four peers at once'
echo ' | Memory of one |'
echo "|---|---|---|---|---|---|---|---|---${peer:+|---|---}|---|"
printf '%s\n' "${rows[@]}"
