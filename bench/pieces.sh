#!/usr/bin/env bash
# The table of pieces of the time, as markdown rows: pieces.sh [PSR_SEARCH [PSR_MAKE [PSR_PART]]]
# Searches of the shapes of shapes.sh, and of 1 GB of the first observation of 1024 channels: by one thread of
# psr_search, and by psr_pieces in 4 and in 8 pieces, as many at a time as there are cores. Each figure is the best of
# ROUNDS rounds (9), in which all commands take turns. The files lie in TMPDIR, or in memory (/dev/shm) if that is not
# set, one at a time.
# PEERS=DIR is a folder of C programs, as in speed.sh: the peer runs on one thread, and on four that part the time, with
# rows of 16 bits. Ratios are of wall times to its one thread, and each output is compared with its output.
set -eu
. "$(dirname "$0")/common.bash"
. "$(dirname "$0")/peers.bash"
psr_part=${3:-$(build psr_part_main 1 new --mean 1 --sd 2 --snr 7 --max-delay 1 --widths 1 data/pulse.dada)}
export PSR_PART=$psr_part
pieces=$root/companions/psr_pieces
several=(4 8)
first=one # whose output all others have to have
[ -z "$peer" ] || first=peer
rows=()
for shape in "${shapes[@]}" '1024 1048576 1024 1'; do
    read -r channels spectra delays widths <<<"$shape"
    file=$folder/shape.dada
    make_shape "$channels" "$spectra" "$delays" "$file"
    arguments=(--mean 16 --sd 2.828 --max-delay "$delays" --widths "$widths" --max-candidates 1000000 "$file")
    wall=() cpu_time=() text=()
    for ((round = 0; round < rounds; round++)); do
        once one "$psr_search" "${arguments[@]}"
        for count in "${several[@]}"; do
            once "$count pieces" "$pieces" --pieces "$count" "${arguments[@]}"
        done
        if [ -n "$peer" ]; then
            once peer "$peer" "${arguments[@]}"
            once 'peer by time' "$peer" --threads 4 --split time --narrow-data "${arguments[@]}"
        fi
    done
    line="| $channels | $spectra | $delays | $widths"
    for name in one "${several[@]/%/ pieces}" ${peer:+'peer by time'}; do
        line+=" | ${wall[$name]} s"
        [ -z "$peer" ] || line+=", $(quotient "${wall[$name]}" "${wall[peer]}")"
        [ "${text[$name]}" = "${text[$first]}" ] || line+=' ANOTHER OUTPUT'
    done
    line+=" | $(quotient "${cpu_time[4 pieces]}" "${cpu_time[one]}")"
    rows+=("$line | $(quotient "${cpu_time[8 pieces]}" "${cpu_time[one]}") |")
    rm -f "$file"
done

tell_machine "$rounds"
echo
[ -z "$peer" ] || echo 'Behind each time stands its ratio to one thread of the peer.'
echo 'Processor time of pieces is told to that of one thread.'
echo
echo -n '| Channels | Spectra | Delays to | Widths to | One thread | 4 pieces | 8 pieces'
echo "${peer:+ | The peer by time, 16 bits} | Processor time of 4 | of 8 |"
echo "|---|---|---|---|---|---|---${peer:+|---}|---|---|"
printf '%s\n' "${rows[@]}"
