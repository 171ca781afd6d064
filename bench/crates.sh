#!/usr/bin/env bash
# A table of the crates, with their lines, must-fail edits and processor minutes.
#   bench/crates.sh sample FILE [PROCESS]   beside a running `rt ci` (of this number): sums what its processes take,
#                                           by crate, and writes it to FILE now and then, and when the gate has ended
#   bench/crates.sh [FILE]                  prints the table; minutes stand in it where FILE has them
# A process is looked at twice a second, so what it takes in its last half second is not in the sums.
set -u

# From the lines of /proc/*/stat, a sample up to each empty line: lines 'CRATE proofs|edits SECONDS'.
sums='
function begins_in(pid) { # the first process of the gate above this one, or none
    while (pid > 1 && parent[pid] != gate) pid = parent[pid]
    return pid > 1 ? pid : 0
}
function look(pid,   words, folder, from) { # whose work a process does: a crate and a kind
    from = "tr \"\\0\" \" \" 2>/dev/null </proc/" pid "/cmdline; echo; readlink /proc/" pid "/cwd"
    words = folder = ""
    from | getline words
    from | getline folder
    close(from)
    if (match(words, /--crate-name [a-z0-9_]+/)) words = substr(words, RSTART + 13, RLENGTH - 13)
    else if (match(words, /\/rt-run-[^ ]*\/bin\/[a-z0-9_]+/)) {
        words = substr(words, RSTART, RLENGTH)
        sub(/.*\//, "", words)
        sub(/_tests$/, "", words)
    } else if (match(folder, /\/crates\/[a-z0-9_]+/)) words = substr(folder, RSTART + 8, RLENGTH - 8)
    else return ""
    return words (folder ~ /\/rt-edit/ ? " edits" : " proofs")
}
function add_sample(   pid, key) {
    for (pid in parent) {
        if (pid != gate && !begins_in(pid)) continue
        key = pid " " start[pid]
        if (pid != gate && !(key in work) && tries[key]++ < 4 && (named = look(pid)) != "") work[key] = named
        took[key] = ticks[pid]
    }
    split("", parent)
}
function report(   key, by, n) {
    for (key in took) by[key in work ? work[key] : "rt proofs"] += took[key]
    printf "" >file
    for (key in by) printf "%s %.1f\n", key, by[key] / hertz >file
    close(file)
}
/^$/ {
    add_sample()
    if (++samples % 120 == 0) report()
    next
}
{
    pid = $1
    sub(/.*\) /, "")
    parent[pid] = $2
    ticks[pid] = $12 + $13
    start[pid] = $20
}
END { report() }'

sample() { # sample FILE [PROCESS]
    local gate=${2:-$(pgrep -o -f '(^|/)rt ci( |$)')}
    [ -n "$gate" ] || { echo 'no gate runs' >&2; exit 1; }
    while kill -0 "$gate" 2>/dev/null; do
        cat /proc/[0-9]*/stat 2>/dev/null
        echo
        sleep 0.5
    done | awk -v gate="$gate" -v file="$1" -v hertz="$(getconf CLK_TCK)" "$sums"
}

lines() { # lines FOLDER..: how many lines their files have
    find "$@" -type f -exec cat {} + 2>/dev/null | wc -l
}

table() { # table [FILE]
    local crate
    cd "$(dirname "$0")/../crates" || exit 2
    sed -nE 's/^([a-z0-9_]+):.*/\1/p' ../crates.txt | while read -r crate; do
        echo "$crate $(lines "$crate/src" "$crate/specs") $(lines "$crate/proofs")" \
            "$(find "$crate/must-fail" -name '*.edit' 2>/dev/null | wc -l)"
    done | awk -v file="${1:-}" '
        function row(name, lines, proofs, edits, a, b) {
            printf "%-18s %7s %7s %6s", name, lines, proofs, edits
            if (file != "") printf " %8s %8s", a, b
            print ""
        }
        BEGIN {
            while (file != "" && (getline said <file) > 0) {
                split(said, part, " ")
                minutes[part[1] " " part[2]] = part[3] / 60
                all[part[2]] += part[3] / 60
            }
            row("crate", "lines", "proofs", "edits", "minutes", "of edits")
        }
        function tenths(n) { return sprintf("%.1f", n) }
        {
            row($1, $2, $3, $4, tenths(minutes[$1 " proofs"]), tenths(minutes[$1 " edits"]))
            lines += $2; proofs += $3; edits += $4
        }
        END {
            row("rt", "", "", "", tenths(minutes["rt proofs"]), "")
            row("all", lines, proofs, edits, tenths(all["proofs"]), tenths(all["edits"]))
        }'
}

case ${1:-} in
    sample) sample "${@:2}" ;;
    *) table "$(realpath "${1:-/dev/null}")" ;;
esac
