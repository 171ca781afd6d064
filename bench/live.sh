#!/usr/bin/env bash
# What parts cost, and how soon they are printed: live.sh [PSR_LIVE PSR_SEARCH PSR_MAKE]. Programs that are not given are
# proved and built first.
# 1. 134 MB (1024 channels, 131072 spectra, delays of 0 to 1024, widths to 8) on one thread, in parts of 16384 and of 512
#    spectra, to psr_search: the least processor time of ROUNDS rounds (5), in turns.
# 2. A pipe that gets a spectrum each millisecond for SECONDS (12): how long after the last spectrum of a part its lines
#    are there, of parts of 512 spectra (256 channels, delays to 64). The CHECK line comes with the next chunk of 512.
# 3. With SOAK=BYTES: so many data bytes through a pipe, as fast as they are searched, and the memory on the way.
set -eu
. "$(dirname "$0")/common.bash"
make_folder /dev/shm
psr_live=${1:-$(build psr_live_main 512 new --mean 1 --sd 2 --snr 7 --max-delay 1 --widths 1 data/pulse.dada)}
psr_search=${2:-$(build psr_search_main --mean 1 --sd 2 --snr 7 --max-delay 1 --widths 1 data/pulse.dada)}
psr_make=${3:-$(build psr_make_main "$folder/first.dada")}
tell_machine "${ROUNDS:-5}"

file=$folder/large.dada
"$psr_make" --number 2 --nchan 1024 --spectra 131072 --delay 512 --period 4096 --height 1 "$file"
arguments=(--mean 16 --sd 2.828 --max-delay 1024 --max-candidates 1000000 --widths 8)
for ((round = 0; round < ${ROUNDS:-5}; round++)); do
    once 'psr_search' "$psr_search" "${arguments[@]}" "$file"
    for every in 16384 512; do once "every $every" "$psr_live" $every new "${arguments[@]}" "$file"; done
done
for every in 16384 512; do
    printf 'parts of %5d: %s s, to psr_search (%s s) %s, %s\n' $every "${cpu_time[every $every]}" \
        "${cpu_time[psr_search]}" "$(quotient "${cpu_time[every $every]}" "${cpu_time[psr_search]}")" \
        "$(memory "$psr_live" $every new "${arguments[@]}" "$file")"
    same "the lines of parts of $every" "$(grep -cv '^CHECK' "$folder/every_$every")" \
        "$(grep -c '' "$folder/psr_search")"
done

"$psr_make" --number 1 --nchan 256 --spectra 16384 --delay 32 --period 100 --height 30 "$folder/paced.dada"
python3 - "$psr_live" "$folder/paced.dada" "${SECONDS_PACED:-12}" <<'PY'
import subprocess, sys, threading, time
program, name, seconds = sys.argv[1], sys.argv[2], float(sys.argv[3])
made = open(name, "rb").read()
header, data = made[:4096], made[4096:]
live = subprocess.Popen([program, "512", "new", "--mean", "16", "--sd", "2.828", "--snr", "8", "--max-delay", "64",
                         "--widths", "1", "/dev/stdin"], stdin=subprocess.PIPE, stdout=subprocess.PIPE)
lines = []
def read():
    for line in live.stdout:
        lines.append((time.monotonic(), line.split()))
reader = threading.Thread(target=read)
reader.start()
live.stdin.write(header)
count = min(int(seconds * 1000), len(data) // 256)
begin = time.monotonic()
for i in range(0, count, 8):  # 8 spectra at a time
    wait = begin + (i + 8) / 1000 - time.monotonic()
    if wait > 0:
        time.sleep(wait)
    live.stdin.write(data[i * 256:(i + 8) * 256])
    live.stdin.flush()
end = time.monotonic()
live.stdin.close()
reader.join()
pulses, checks = [], []
for at, words in lines:
    if at >= end:
        continue
    if words[0] == b"PULSE":  # the part that this pulse is in is complete once its last spectrum has come
        pulses.append(at - begin - (int(words[1]) // 512 + 1) * 0.512)
    elif words[0] == b"CHECK":
        checks.append(at - begin - int(words[1]) / 1000)
print(f"paced: {len(pulses)} lines of pulses, {1000 * max(pulses):.0f} ms behind the last spectrum of their part at most; "
      f"{len(checks)} CHECK lines, {1000 * max(checks):.0f} ms")
PY

if [ -n "${SOAK:-}" ]; then
    tail -c +4097 "$file" >"$folder/data"
    { head -c 4096 "$file"; while cat "$folder/data"; do :; done 2>/dev/null | head -c "$SOAK"; } |
        "$psr_live" 16384 new "${arguments[@]}" --max-bytes 281474976710656 /dev/stdin >"$folder/soak" &
    pid=$!
    while kill -0 $pid 2>/dev/null; do
        rss=$(awk '/VmRSS/ { print $2 }' "/proc/$pid/status" 2>/dev/null || true)
        [ -z "$rss" ] || printf '%s spectra: %d KB\n' \
            "$(awk '$1 == "CHECK" { at = $2 } END { print at + 0 }' "$folder/soak")" "$rss"
        sleep "${SOAK_EVERY:-30}"
    done
    wait $pid
    tail -n 1 "$folder/soak"
fi
exit $failed
