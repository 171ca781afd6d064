#!/usr/bin/env bash
# Runs the jobs of plans by GNU parallel: parallel.bash FOLDER [FOLDER ..], as many at a time as there are cores.
# Arguments for GNU parallel stand before `--`, as in: parallel.bash --sshlogin host1,host2 -- FOLDER
# The status is how many jobs failed, 101 from 101 on. Called again, it runs the jobs that have no text yet.
set -u
usage='parallel.bash [ARGUMENT .. --] FOLDER [FOLDER ..]'
[ "${1:-}" != --help ] || { echo "usage: $usage" && exit; }
options=() folders=("$@")
for ((at = 1; at <= $#; at++)); do
    [ "${!at}" = -- ] || continue
    options=("${@:1:at - 1}") folders=("${@:at + 1}")
    break
done
[ ${#folders[@]} -gt 0 ] || { echo "parallel.bash: arguments refused: $usage" >&2; exit 2; }
for folder in "${folders[@]}"; do
    [ -r "$folder/jobs" ] || { echo "parallel.bash: $folder is no plan" >&2; exit 2; }
done
for folder in "${folders[@]}"; do cat -- "$folder/jobs"; done | parallel "${options[@]}"
