#!/usr/bin/env bash
# Tries the programs together: check.sh [BINDIR], with those in BINDIR or those that were last built here. A made
# observation of 1024 channels is searched by four shards and recorded in three files; one shard, the three files, and
# psr_record give the same again; a file that exists is never overwritten; psr_mask with no mask, two parts of psr_part
# and each of two beams of psr_beams give the output of the search, but that both beams see its pulses; psr_level
# writes the same of one file, of three, and of a pipe, and a search of it through a pipe finds pulses; psr_live gives
# the output of the search, but for its CHECK lines, and goes on from one of them; a pipe that is recorded, levelled and
# searched live gives the same as the recorded files, levelled and searched.
# Statuses: 0; 1 if something differs; 2 if a program is missing.
set -u
. "$(dirname "$0")/../bench/common.bash"
find_programs "${1:-}" psr_make psr_search psr_record psr_level psr_demo psr_mask psr_part psr_beams psr_live \
    ring_trace
make_folder
cd "$folder" || exit 2

"${at[psr_make]}" --number 1 --nchan 1024 --spectra 4096 --delay 256 --period 512 --height 1 obs.dada
same 'psr_make: status' $? 0
arguments=(--mean 16 --sd 2.828 --max-delay 512 --max-candidates 1000000)
recording=("${arguments[@]}" --shards 4 --hands 3 --record --file-size 1500000)
files=(2024-01-02-03:04:05_{0000000000000000.000000,0000000001500000.000001,0000000003000000.000002}.dada)

"${at[psr_search]}" "${recording[@]}" obs.dada >text
same 'psr_search by four shards that records: status' $? 0
same 'its last line' "$(tail -n 1 text)" 'END 348 0 4096'
same 'its recorded files' "$(echo 2024-*.dada)" "${files[*]}"
same 'their bytes, with headers of 4096' "$(stat -c %s "${files[@]}" | paste -sd ' ')" '1504096 1504096 1198400'

"${at[psr_search]}" "${arguments[@]}" obs.dada >again
same 'psr_search by one shard: status' $? 0
same 'its output' "$(md5sum <again)" "$(md5sum <text)"
"${at[psr_search]}" "${arguments[@]}" --shards 4 --hands 3 "${files[@]}" >again
same 'psr_search of the recorded files: status' $? 0
same 'its output' "$(md5sum <again)" "$(md5sum <text)"

"${at[psr_mask]}" none "${arguments[@]}" obs.dada >again
same 'psr_mask with no mask: status' $? 0
same 'its output' "$(md5sum <again)" "$(md5sum <text)"
"${at[psr_mask]}" 3,1023-1000 "${arguments[@]}" obs.dada >again
same 'psr_mask with a mask: status' $? 0
"${at[psr_part]}" 2000 new "${arguments[@]}" obs.dada >front
same 'psr_part until 2000: status' $? 0
tail -n 1 front >check
same 'its last line' "$(cut -d ' ' -f 1,2 check)" 'CHECK 2000'
"${at[psr_part]}" 5000 check "${arguments[@]}" obs.dada >rest
same 'psr_part from there on: status' $? 0
same 'both outputs' "$({ head -n -1 front; cat rest; } | md5sum)" "$(md5sum <text)"
"${at[psr_beams]}" 0 1 "${arguments[@]}" obs.dada obs.dada >again
same 'psr_beams: status' $? 0
same 'its output' "$(md5sum <again)" "$(for beam in 0 1; do echo "BEAM $beam"; sed 's/^PULSE/RFI/' text; done | md5sum)"

# one writer fills the pipes of both beams in turn, in pieces that no pipe holds
mkfifo pipe0 pipe1
piece() { dd if=obs.dada bs=4K skip="$1" count="$2" status=none; }
{
    piece 0 1 >&3
    exec 4>pipe1
    piece 0 1 >&4
    for block in {1..897..128}; do piece "$block" 128 >&3 && piece "$block" 128 >&4; done
} 3>pipe0 &
writer=$!
timeout 60 "${at[psr_beams]}" 0 1 --turns 1 --size 4096 "${arguments[@]}" pipe0 pipe1 >pipes
same 'psr_beams of two pipes: status' $? 0
same 'its output' "$(md5sum <pipes)" "$(md5sum <again)"
kill "$writer" 2>/dev/null

"${at[psr_level]}" --spectra 512 obs.dada >level.dada
same 'psr_level: status' $? 0
"${at[psr_level]}" --spectra 512 "${files[@]}" >again
same 'psr_level of the recorded files' "$(tail -c +4097 again | md5sum)" "$(tail -c +4097 level.dada | md5sum)"
"${at[psr_level]}" --spectra 512 /dev/stdin <obs.dada | "${at[psr_search]}" --mean 64 --sd 8 --max-delay 512 \
    --max-candidates 1000000 /dev/stdin | tail -n 1 >again
same 'psr_search of what it wrote, through a pipe' "$(cat again)" 'END 325 0 4096'

"${at[psr_live]}" 1024 new "${arguments[@]}" obs.dada >live
same 'psr_live: status' $? 0
same 'its output without CHECK lines' "$(grep -v '^CHECK' live | md5sum)" "$(md5sum <text)"
same 'its CHECK lines' "$(grep '^CHECK' live | cut -d ' ' -f 2 | paste -sd ' ')" '1024 2048 3072'
sed -n '/^CHECK 2048/p' live >check
"${at[psr_live]}" 1024 check "${arguments[@]}" /dev/stdin <obs.dada >rest
same 'psr_live from 2048 on: status' $? 0
same 'its output' "$(md5sum <rest)" "$(sed '1,/^CHECK 2048/d' live | md5sum)"

# a night: recorded, levelled and searched while the data come; then from the recorded files on
mkdir night && cd night || exit 2
levelled=(--mean 64 --sd 8 --snr 8 --max-delay 512 --widths 1 /dev/stdin)
tee -p >("${at[psr_record]}" /dev/stdin) <../obs.dada | "${at[psr_level]}" --spectra 512 /dev/stdin |
    "${at[psr_live]}" 1024 new "${levelled[@]}" >found
same 'a night: statuses' "${PIPESTATUS[*]}" '0 0 0'
for ((tries = 0; tries < 100; tries++)); do # the recorder may end after the search
    [ "$(stat -c %s 2024-*.dada 2>/dev/null)" != "$(stat -c %s ../obs.dada)" ] || break
    sleep 0.1
done
sed -n '/^CHECK 3072/p' found >check
"${at[psr_level]}" --spectra 512 2024-*.dada | "${at[psr_live]}" 1024 check "${levelled[@]}" >rest
same 'the night from its recorded files on' "$(md5sum <rest)" "$(sed '1,/^CHECK 3072/d' found | md5sum)"
same 'its last line' "$(tail -n 1 rest | cut -d ' ' -f 1,3,4)" 'END 0 4096'
cd .. || exit 2

printf '%s\n' 'ring 2 1 8' take 'seal 70' 'read 0' 'give 0' 'clear 0' 'read 0' >trace
same 'ring_trace' "$("${at[ring_trace]}" trace | paste -sd ,)" 'taken 0,sealed 0,got 0 70,given,cleared 1,empty 1'

before=$(md5sum 2024-*.dada)
"${at[psr_search]}" "${recording[@]}" obs.dada >again 2>notes
same 'psr_search that records again: status' $? 11
same 'its line' "$(cat notes)" 'record fault'
same 'the files of before' "$(md5sum 2024-*.dada)" "$before"

mkdir alone && cd alone || exit 2
"${at[psr_record]}" --hands 2 --file-size 1500000 ../obs.dada
same 'psr_record: status' $? 0
same 'its files' "$(md5sum 2024-*.dada)" "$before"

same 'psr_demo 1' "$("${at[psr_demo]}" 1 | paste -sd ' ')" 'DEMO 1 0 25652 END 821 0 4096'
[ "$failed" = 0 ] && echo "the programs in $(dirname "${at[psr_search]}") do as they should: ${!at[*]}"
exit "$failed"
