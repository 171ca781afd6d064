#!/usr/bin/env bash
# Tries cluster/ on this machine: cluster.sh [BINDIR], where BINDIR has psr_make, psr_search and psr_part; else those
# last built here. An observation of 134 MB (1024 channels, 131072 spectra) is searched for pulses and folds at delays
# 0 to 1024 by one search; by 8 jobs of a Slurm array; and by 8 jobs of GNU parallel. Then it is searched for pulses
# alone, by psr_pieces, and by 8 jobs on stretches of the time. The outputs are those of one search, byte for byte. Then
# what fails: a job, a part that is missing or cut, parts that don't belong together. A hunt by Slurm and GNU parallel
# is that of this machine.
# Slurm's daemons (slurmctld, slurmd, munged) run here for as long as this takes, with all that they write in a folder
# of their own. As root, what is missing is installed (Debian's slurm-wlm, munge and parallel).
set -u
export LC_ALL=C
. "$(dirname "$0")/../bench/common.bash"
find_programs "${1:-}" psr_make psr_search psr_part psr_level
export PSR_SEARCH=${at[psr_search]} PSR_PART=${at[psr_part]}
PATH=$PATH:/usr/sbin
engines=(slurmctld slurmd munged sbatch parallel)
if [ "$(command -v "${engines[@]}" | wc -l)" -lt ${#engines[@]} ]; then
    if [ "$(id -u)" -ne 0 ]; then
        echo 'apt-get install slurm-wlm munge parallel, as root, installs what is missing' >&2
        exit 2
    fi
    log=$(mktemp)
    DEBIAN_FRONTEND=noninteractive apt-get install -y --no-install-recommends slurm-wlm munge parallel >"$log" 2>&1 ||
        { cat "$log" >&2; exit 2; }
    rm "$log"
fi

make_folder
daemons=()
ended() { # stops what was started here
    [ ${#daemons[@]} -eq 0 ] || { kill "${daemons[@]}"; wait "${daemons[@]}"; } 2>/dev/null
    rm -rf "$folder"
}
trap ended EXIT
trap 'exit 130' INT TERM
cd "$folder" || exit 2

timed() { # timed COMMAND ..: runs it, and sets `took`, by the clock and of the processors that it waited for
    local TIMEFORMAT='%R %U %S' status
    { took=$( { time "$@" >&3 2>&4; } 2>&1); } 3>&1 4>&2
    status=$?
    took=$(awk '{ printf "%.1f s (%.1f s of the processors)", $1, $2 + $3 }' <<<"$took")
    return "$status"
}

start_slurm() { # one host, this one, with as many processors as it has
    mkdir -p slurm/state slurm/spool && chmod 755 slurm && head -c 1024 /dev/urandom >slurm/key &&
        chmod 400 slurm/key || return 1
    export SLURM_CONF=$folder/slurm/slurm.conf
    local host user port=$((20000 + RANDOM % 10000))
    host=$(hostname -s) user=$(id -un)
    cat >"$SLURM_CONF" <<EOF
ClusterName=trial
SlurmctldHost=$host(127.0.0.1)
SlurmUser=$user
SlurmdUser=$user
SlurmctldPort=$port
SlurmdPort=$((port + 1))
AuthType=auth/munge
AuthInfo=socket=$folder/slurm/munge
StateSaveLocation=$folder/slurm/state
SlurmdSpoolDir=$folder/slurm/spool
SlurmctldPidFile=$folder/slurm/slurmctld.pid
SlurmdPidFile=$folder/slurm/slurmd.pid
ProctrackType=proctrack/linuxproc
TaskPlugin=task/none
JobAcctGatherType=jobacct_gather/none
SelectType=select/cons_tres
SelectTypeParameters=CR_CPU
MpiDefault=none
SwitchType=switch/none
ReturnToService=2
NodeName=$host NodeAddr=127.0.0.1 CPUs=$(nproc)
PartitionName=all Nodes=$host Default=YES MaxTime=INFINITE State=UP
EOF
    local own=$folder/slurm
    munged --foreground --key-file="$own/key" --socket="$own/munge" --seed-file="$own/seed" \
        --pid-file="$own/munged.pid" --log-file="$own/munged.log" --force >"$own/munged.log" 2>&1 &
    daemons+=($!)
    slurmctld -D -i >slurm/slurmctld.log 2>&1 &
    daemons+=($!)
    slurmd -D -N "$host" >slurm/slurmd.log 2>&1 &
    daemons+=($!)
    local tries
    for ((tries = 0; tries < 60; tries++)); do
        sinfo --noheader --format %T 2>/dev/null | grep -q '^idle' && return
        sleep 1
    done
    tail -n 20 slurm/*.log >&2
    return 1
}
start_slurm || { echo 'Slurm did not start' >&2; exit 2; }

plan=$root/cluster/plan join=$root/cluster/join
whole_and_joined() { # whole_and_joined WHAT FOLDER: the joined text is that of the one search
    "$join" "$2" >"joined" 2>notes
    same "$1: join, status" "$? $(cat notes)" '0 '
    cmp joined whole >&2 || { echo "$1: the joined text is another" >&2; failed=1; }
}
by_slurm() { # by_slurm JOBS FOLDER ..: runs them and waits
    local jobs=$1
    shift
    sbatch --quiet --wait --array="1-$jobs" --output="$folder/slurm/job-%a.log" "$root/cluster/slurm.batch" "$@"
}

# The large observation, by one search, by Slurm and by GNU parallel.
mkdir 'the data' && "${at[psr_make]}" --number 2 --nchan 1024 --spectra 131072 --delay 512 --period 4096 --height 1 \
    'the data/an observation.dada' || exit 2
words=(--mean 16 --sd 2.828 --max-delay 1024 --max-candidates 1000000
    --fold-min 3968 --fold-max 4224 --fold-rows 5 --fold-step 64 'the data/an observation.dada')
timed "$PSR_SEARCH" "${words[@]}" >whole
same 'psr_search: status' $? 0
echo "one search: $took, $(tail -n 1 whole)"
"$plan" 'by slurm' 8 "${words[@]}" >said
same 'plan: its jobs' "$(cut -d ' ' -f 1 said | head -n 1) $(wc -l <'by slurm/jobs')" '8 8'
timed by_slurm 8 'by slurm'
same 'sbatch: status' $? 0
whole_and_joined Slurm 'by slurm'
echo "8 jobs of Slurm on $(nproc) processors: ${took% (*}"
"$plan" 'by parallel' 8 "${words[@]}" >said
timed "$root/cluster/parallel.bash" 'by parallel'
same 'parallel: status' $? 0
whole_and_joined 'GNU parallel' 'by parallel'
echo "8 jobs of GNU parallel: $took"
timed "$join" 'by parallel' >/dev/null
echo "join of $(wc -l <whole) lines: $took"

# The same by time, for pulses alone.
words=(--mean 16 --sd 2.828 --max-delay 1024 --max-candidates 1000000 'the data/an observation.dada')
timed "$PSR_SEARCH" "${words[@]}" >whole
echo "one search for pulses: $took, $(tail -n 1 whole)"
for engine in slurm parallel; do
    "$plan" "time by $engine" 8 --spectra 131072 "${words[@]}" >said
    same "plan by time for $engine: its jobs" "$(wc -l <"time by $engine/jobs")" 8
done
timed by_slurm 8 'time by slurm'
same 'sbatch by time: status' $? 0
whole_and_joined 'Slurm by time' 'time by slurm'
echo "8 jobs of Slurm by time: ${took% (*}"
timed "$root/cluster/parallel.bash" 'time by parallel'
same 'parallel by time: status' $? 0
whole_and_joined 'GNU parallel by time' 'time by parallel'
echo "8 jobs of GNU parallel by time: $took"

# Pieces of the time on the cores of this machine by one command, and by jobs without an engine.
for pieces in '' 4 8; do
    timed "$root/companions/psr_pieces" ${pieces:+--pieces "$pieces"} "${words[@]}" >joined
    same "psr_pieces${pieces:+ --pieces $pieces}: status" $? 0
    cmp joined whole >&2 || { echo "psr_pieces $pieces: the text is another" >&2; failed=1; }
    echo "psr_pieces${pieces:+ --pieces $pieces} on $(nproc) processors: $took"
done
for pieces in 1 2 4 8; do
    "$plan" "$pieces pieces" "$pieces" --spectra 131072 "${words[@]}" >said
    timed xargs -d '\n' -P "$(nproc)" -I LINE bash -c LINE <"$pieces pieces/jobs"
    same "$pieces pieces: status" $? 0
    whole_and_joined "$pieces pieces" "$pieces pieces"
    echo "$pieces pieces on $(nproc) processors: $took"
done
# A job reads its own piece alone: the last number before its command is how many bytes, but in the last job.
bytes=$(sed '$d; s/ -- .*//' '8 pieces/jobs' | awk '{ sum += $NF } END { printf "%.0f", sum }')
same '8 pieces: bytes that all but the last job read' "$bytes" $(((131072 * 7 / 8 + 7 + 6 * 1032) * 1024))

# Two observations in one array, ranges that begin at multiples of an odd step from an odd delay, and two files.
small=(--nchan 64 --spectra 8192 --delay 100 --period 512 --height 2)
"${at[psr_make]}" "${small[@]}" --number 3 first.dada && "${at[psr_make]}" "${small[@]}" --number 4 second.dada &&
    head -c 300000 second.dada >front.dada || exit 2
# The rest of the second, as a file of its own: its header with the bytes before it.
{ head -c 4096 second.dada | sed 's/^OBS_OFFSET 0$/OBS_OFFSET 295904/' | head -c 4096; tail -c +300001 second.dada; } \
    >rest.dada
words=(--mean=16 --sd=2.828 --min-delay=7 --max-delay=301 --widths=4 --snr=6
    --fold-step=37 --fold-min=500 --fold-max=520)
"$plan" first 5 "${words[@]}" first.dada >said && "$plan" second 3 "${words[@]}" front.dada rest.dada >said
same 'plan of two observations: status' $? 0
by_slurm 8 first second
same 'sbatch of two observations: status' $? 0
"$PSR_SEARCH" "${words[@]}" first.dada >whole
whole_and_joined 'the first observation' first
"$PSR_SEARCH" "${words[@]}" second.dada >whole
whole_and_joined 'the second observation' second

# A part that is missing is named, and run again alone; a job that fails leaves its line.
mapfile -t names <second/parts
rm "second/${names[1]}.text"
"$join" second >joined 2>notes
same 'join without a part: status, lines' "$? $(wc -l <joined) $(grep -c "${names[1]}" notes)" '3 0 1'
"$root/cluster/parallel.bash" second
same 'parallel again: status' $? 0
whole_and_joined 'the second observation again' second
"$plan" none 4 "${words[@]}" missing.dada >said 2>notes
same 'plan of a file that is not there: status, lines, folders' "$? $(wc -l <notes) $(ls -d none 2>/dev/null)" '2 1 '
"$plan" none 4 --mean 16 first.dada >said 2>notes
same 'plan without a deviation: status, lines, folders' "$? $(wc -l <notes) $(ls -d none 2>/dev/null)" '2 1 '
"$plan" none 4 "${words[@]}" --snrr 8 first.dada >said 2>notes
same 'plan of a misspelt option: status, line, folders' "$? $(cat notes) $(ls -d none 2>/dev/null)" \
    '2 plan: psr_search has no option --snrr: did you mean --snr? '
"$plan" short 4 --spectra 8192 --mean 16 --sd 2.828 --max-delay 2048 first.dada >said 2>notes
same 'plan of short stretches: status, lines, jobs' "$? $(wc -l <notes) $(wc -l <short/jobs)" '0 1 4'
"$plan" limited 4 "${words[@]}" --max-candidates 1 first.dada >said
"$root/cluster/parallel.bash" limited 2>notes
same 'parallel with a limit that is too low: status, lines' \
    "$? $(grep -c ': status 9: [0-9]* candidates, limit 1$' notes)" '4 4'
same 'what the jobs left' "$(cd limited && echo *.text *.error | wc -w)" 5
by_slurm 4 limited
same 'sbatch with a limit that is too low: status' $? 9

# A hunt by each engine: the same texts.
export PSR_LEVEL=${at[psr_search]%/*}/psr_level
hunted() { # hunted ENGINE WORD ..: hunts by an engine, and compares the texts with those of the first hunt
    local engine=$1
    shift
    timed "$root/companions/psr_hunt" first.dada --dm 0 20 -o "hunt by $engine" "$@" >said 2>notes
    same "psr_hunt by $engine: status, line" "$? $(cat notes)" '0 '
    same "psr_hunt by $engine: texts" "$(cd "hunt by $engine" && cat -- *.text | md5sum)" \
        "$(cd 'hunt by cores' && cat -- *.text | md5sum)"
    echo "psr_hunt by $engine: ${took% (*}"
}
hunted cores
hunted slurm --slurm
hunted parallel --parallel '--jobs 2'

# Parts that don't belong together, and what is no whole text.
refused() { # refused STATUS PART ..: join refuses these, and prints nothing
    local status=$1
    shift
    "$join" "$@" >joined 2>notes
    same "join $*: status, lines" "$? $(wc -l <joined) $(wc -l <notes)" "$status 0 1"
}
cp "second/${names[0]}.text" part
head -n -1 part >'no end'
head -c -1 part >'cut at its end'
sed 2d part >'a line less'
{ echo 'OBS 0'; cat part; } >several
sed '$s/8192$/8191/' "second/${names[1]}.text" >longer
refused 2
refused 3 part 'no end'
refused 3 part 'cut at its end'
refused 3 'a line less'
refused 3 part nothing
refused 3 "$root/cluster"
refused 4 part longer
mapfile -t names < <(sed 's,.*,time by slurm/&.text,' 'time by slurm/parts')
refused 4 "${names[@]:0:7}"
refused 4 "${names[7]}" "${names[0]}"
refused 4 "${names[0]}" part "${names[7]}"
refused 6 "${names[1]}" "${names[0]}" "${names[7]}"
"$plan" none 4 --spectra 131072 --fold-max 90 "${words[@]}" first.dada >said 2>notes
same 'plan by time with folds: status, lines, folders' "$? $(wc -l <notes) $(ls -d none 2>/dev/null)" '2 1 '
refused 5 several
refused 6 part part
"$join" part >/dev/full 2>notes
same 'join to a full device: status' $? 10

[ "$failed" = 0 ] && echo 'the joined texts are those of one search'
exit "$failed"
