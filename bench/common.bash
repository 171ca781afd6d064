# shellcheck shell=bash disable=SC2034
# What the scripts of bench/ and tests/ share: they source it. It sets `root`, the folder of the repository, and `cpu`,
# the processors that programs are built for (those with AVX2 if this is one); all else are functions.
root=$(cd "$(dirname "${BASH_SOURCE[0]}")/.." && pwd) || exit 2
cpu=x86-64
if grep -qw avx2 /proc/cpuinfo; then cpu=x86-64-v3; fi

make_folder() { # make_folder [PARENT]: a new `folder`, in TMPDIR or PARENT, which is removed at the end
    folder=$(mktemp -d ${1:+-p "$1"}) || exit 2
    trap 'rm -rf "$folder"' EXIT
}

declare -A at # where programs are, by their names
find_programs() { # find_programs BINDIR PROGRAM ..: in BINDIR, or if that is empty, as they were last built here
    local bindir program
    [ -z "$1" ] || [ -d "$1" ] || { echo "there is no folder $1" >&2; exit 2; }
    bindir=${1:+$(cd "$1" && pwd)}
    for program in "${@:2}"; do
        at[$program]=${bindir:+$bindir/$program}
        at[$program]=${at[$program]:-$root/crates/${program}_main/out/${program}_main}
        [ -x "${at[$program]}" ] || { echo "${at[$program]} is not there: make install builds it" >&2; exit 2; }
    done
}
build() { # build CRATE [ARGUMENT ..]: proves and builds a program, runs it once with these arguments, prints its path
    local log
    log=$(cd "$root/crates/$1" && rt run --cpu="$cpu" ${2:+--} "${@:2}" 2>&1 >/dev/null) || { echo "$log" >&2; exit 1; }
    echo "$root/crates/$1/out/$1"
}

failed=0
same() { # same WHAT FOUND WANTED: tells if they differ, and then sets `failed`
    [ "$2" = "$3" ] && return
    echo "$1: '$2', wanted '$3'" >&2
    failed=1
}

least() { sort -n | head -n 1; }
greatest() { sort -n | tail -n 1; }
quotient() { awk "BEGIN { printf \"%.2f\", $1 / $2 }"; }
memory() { # memory COMMAND ..: the peak of its memory in MB
    [ -x /usr/bin/time ] || { echo '?' && return; }
    /usr/bin/time -f %M "$@" 2>&1 >/dev/null | tail -n 1 | awk '{ printf "%.0f MB", $1 / 1000 }'
}
tell_machine() { # tell_machine ROUNDS
    sed -n 's/^model name[^:]*: /machine: /p' /proc/cpuinfo | head -n 1
    echo "cores: $(nproc), load: $(cut -d ' ' -f 1 /proc/loadavg), rounds: $1"
}

# Commands that take turns in rounds: the least times of each by its name, in seconds, with the last line and the
# checksum of its output in the last round.
declare -A wall=() cpu_time=() last=() text=()
once() { # once NAME COMMAND ..: a round of a command, whose output is left in the file `NAME` of `folder`
    local name=$1 out=$folder/${1// /_} took real user system
    shift
    took=$( { TIMEFORMAT='%R %U %S'; time "$@" >"$out" 2>"$out.notes"; echo "$?" >"$out.status"; } 2>&1)
    [ "$(cat "$out.status")" = 0 ] ||
        { echo "$name: status $(cat "$out.status"), $(cat "$out.notes")" >&2; exit 1; }
    read -r real user system <<<"$took"
    wall[$name]=$(printf '%s\n' "$real" ${wall[$name]:+"${wall[$name]}"} | least)
    took=$(awk "BEGIN { print $user + $system }")
    cpu_time[$name]=$(printf '%s\n' "$took" ${cpu_time[$name]:+"${cpu_time[$name]}"} | least)
    last[$name]=$(tail -n 1 "$out")
    text[$name]=$(md5sum <"$out")
}
