# shellcheck shell=bash disable=SC2034
# What speed.sh, shapes.sh and pieces.sh share beside common.bash, with the same first arguments: the folder, the
# programs, the rounds, the shapes, and the C programs of the folder PEERS. It is sourced behind common.bash.
rounds=${ROUNDS:-9}
make_folder "${TMPDIR:-/dev/shm}"
psr_search=${1:-$(build psr_search_main --mean 1 --sd 2 --snr 7 --max-delay 1 --widths 1 data/pulse.dada)}
psr_make=${2:-$(build psr_make_main "$folder/first.dada")}
peer=
if [ -n "${PEERS:-}" ]; then
    "$PEERS/build.sh" "$folder/peers" >/dev/null
    peer=$folder/peers/peer_fdmt.v3
fi

# channels, spectra, delays to, widths to
shapes=(
    '16 1048576 100 1'
    '64 1048576 256 8'
    '256 262144 512 8'
    '1024 131072 1024 1'
    '1024 131072 1024 32'
    '2048 65536 2048 8'
    '1024 65536 8192 8'
    '4096 32768 8192 8'
)
make_shape() { # make_shape CHANNELS SPECTRA DELAYS FILE
    "$psr_make" --number 3 --nchan "$1" --spectra "$2" --delay "$(($3 < 512 ? $3 : 512))" --period 4096 --height 1 "$4"
}
beside_each_other() { # beside_each_other COMMAND ..: four of it at once
    local runs=4
    while ((runs-- > 0)); do "$@" & done
    wait
}
