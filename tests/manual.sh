#!/usr/bin/env bash
# Runs the documents: manual.sh [BINDIR] [DOCUMENT ..], with the programs in BINDIR or those that were last built here.
# Each line of a document (README.md and docs/) that begins with `$` in a code block is run, and what follows it is
# compared with what it prints. A command goes on over the next line as long as it isn't complete. A line `..` stands
# for any lines. Each document has a fresh folder, and each command must end with status 0. Commands of the companions
# run if numpy and matplotlib are there; if not, a line tells how many were left out.
# Statuses: 0; 1 if something differs; 2 if a program is missing.
set -u
. "$(dirname "$0")/../bench/common.bash"
mapfile -t programs < <(cd "$root/crates" && printf '%s\n' *_main | sed 's/_main$//')
find_programs "${1:-}" "${programs[@]}"
documents=("${@:2}")
[ ${#documents[@]} -gt 0 ] || mapfile -t documents < <(cd "$root" && grep -lE '^ {4,}\$ ' README.md docs/*.md)
make_folder
mkdir "$folder/bin"
for program in "${programs[@]}"; do ln -s "${at[$program]}" "$folder/bin/$program"; done
# a program that is proved stands in place of the companion of its name
companions=$(cd "$root/companions" && printf '%s\n' psr_* | grep -vxFf <(printf '%s\n' "${programs[@]}") |
    paste -sd '|')
beside=
if /usr/bin/python3 -c 'import numpy, matplotlib' 2>/dev/null; then beside=$root/companions:$root/cluster:; fi
export PATH=$folder/bin:$beside$PATH LC_ALL=C.UTF-8 TZ=UTC
ran=0 left_out=0

differs() { # differs WHERE COMMAND: shows what was wanted and what came
    printf '%s: %s\n' "$1" "$2" >&2
    diff --label wanted --label found "$folder/wanted" "$folder/found" >&2
    failed=1
}
pattern() { # the lines of a file as a pattern of the shell, in which `..` stands for any lines
    sed -e 's/[][\\*?(|)!@+]/\\&/g' -e 's/^\.\.$/*/' "$1"
}
run_command() { # run_command WHERE COMMAND: in the folder `here`, compared with the file `wanted`
    local status
    if [ -z "$beside" ] && [[ $2 =~ (^|[ \|\(])($companions)' ' ]]; then
        ((left_out++))
        return
    fi
    (cd "$folder/here" && timeout 300 bash -c "$2" </dev/null) >"$folder/found" 2>&1
    status=$?
    ((ran++))
    [ "$status" = 0 ] || echo "status $status" >>"$folder/found"
    # shellcheck disable=SC2053
    [[ $(cat "$folder/found") == $(pattern "$folder/wanted") ]] || differs "$1" "$2"
}
run_document() { # run_document FILE
    local name=${1#"$root"/} line number=0 indent='' command='' complete='' begun=0
    rm -rf "$folder/here"
    mkdir "$folder/here"
    finish() {
        [ -n "$command" ] && run_command "$name:$begun" "$command"
        command=
    }
    while IFS= read -r line || [ -n "$line" ]; do
        ((number++))
        if [[ $line =~ ^(\ {4,})\$\ (.*)$ ]]; then
            local begins=("${BASH_REMATCH[@]:1}")
            finish
            indent=${begins[0]} command=${begins[1]} begun=$number
            : >"$folder/wanted"
        elif [ -n "$command" ] && [[ $line == "$indent"* ]]; then
            if [ -z "$complete" ]; then
                command+=$'\n'${line#"$indent"}
            else
                printf '%s\n' "${line#"$indent"}" >>"$folder/wanted"
                continue
            fi
        else
            finish
            continue
        fi
        complete=yes
        { [[ $command == *\\ ]] || ! bash -nc "$command" 2>/dev/null; } && complete=
    done <"$1"
    finish
}
for document in "${documents[@]}"; do run_document "$root/$document"; done
echo "$ran commands ran; $left_out were left out, which need numpy and matplotlib"
exit "$failed"
