#!/usr/bin/env bash
# Lack of memory: refused.sh [BINDIR], with the programs in BINDIR or those that were last built here. A search of a
# small observation by two shards, with folds, that records, has each of its allocations refused in turn. It has to end
# with status 5 and `no memory`, and to write no output and no file; or to do without, as it does if no thread can be
# started, and to write all. Statuses: 0; 1 if it does anything else; 2 if a program is missing.
set -u
. "$(dirname "$0")/../bench/common.bash"
find_programs "${1:-}" psr_make psr_search
make_folder
cc -O2 -shared -fPIC -o "$folder/refused.so" "$root/tests/refused.c" -ldl || exit 2
cd "$folder" || exit 2
"${at[psr_make]}" --number 3 --nchan 16 --spectra 512 --delay 20 --period 64 --height 4 obs.dada || exit 2
arguments=(--mean 16 --sd 2.828 --max-delay 32 --fold-min 60 --fold-max 68 --shards 2 --hands 2 --chunk 64 --size 1000
    --record --file-size 3000 --max-bytes 1000000 obs.dada)

search() { # search N: its status if allocation N is refused; the file `mark` is there if there were N
    rm -f mark 2024-*
    LD_PRELOAD=$folder/refused.so REFUSED=$1 REFUSED_MARK=$folder/mark "${at[psr_search]}" "${arguments[@]}" \
        >text 2>line
}
written() { # the output and the recorded files
    md5sum text 2024-* 2>/dev/null
}
search 0
status=$?
whole=$(written)
if [ "$status" != 0 ] || ! ls 2024-* >/dev/null 2>&1; then
    echo "with all of its memory: status $status, '$(cat line)'" >&2
    exit 1
fi
n=1 stopped=0 without=0
while :; do
    search "$n"
    status=$?
    [ -e mark ] || break
    if [ "$status" = 5 ] && [ ! -s text ] && [ "$(cat line)" = 'no memory' ] && ! ls 2024-* >/dev/null 2>&1; then
        stopped=$((stopped + 1))
    elif [ "$status" = 0 ] && [ ! -s line ] && [ "$(written)" = "$whole" ]; then
        without=$((without + 1))
    else
        echo "allocation $n refused: status $status, '$(cat line)', $(wc -c <text) bytes, files: $(echo 2024-*)" >&2
    fi
    n=$((n + 1))
done
echo "$((n - 1)) allocations, each refused in turn: $stopped times 5 with nothing written, $without times all was" \
    written
[ "$((stopped + without))" = "$((n - 1))" ]
