#!/usr/bin/env bash
# Tries what is made of the tables: pages.sh. The pages of man/ must be those that man/pages makes, and the completions
# those that completions/make makes; `man` must show each page without a warning in at most 350 lines of 80 columns, and
# no page may name a file of the repository by a path that is not installed. Then some completions are asked for.
# `--help` of the companions needs numpy and matplotlib: if these are missing, one line says so, and nothing is tried.
# Statuses: 0; 1 if something differs.
set -u
. "$(dirname "$0")/../bench/common.bash"
/usr/bin/python3 -c 'import numpy, matplotlib' 2>/dev/null ||
    { echo 'pages: not tried; they need numpy and matplotlib' >&2; exit 0; }
make_folder
mkdir "$folder/man"
/usr/bin/python3 -B "$root/man/pages" "$folder/man" || exit 1
/usr/bin/python3 -B "$root/completions/make" "$folder/bash" || exit 1

diff -r -x '[!p]*' -x 'pages' "$root/man" "$folder/man" >&2 || { echo 'man/pages makes other pages' >&2; failed=1; }
diff "$root/completions/malletbean.bash" "$folder/bash" >&2 ||
    { echo 'completions/make makes other completions' >&2; failed=1; }
for page in "$folder/man"/*.1; do
    name=${page##*/}
    if command -v man >/dev/null; then
        shown=$(MANWIDTH=80 man --warnings -l "$page" 2>"$folder/warnings" | wc -l)
        same "warnings of man on $name" "$(cat "$folder/warnings")" ''
        [ "$shown" -le 350 ] || same "lines of $name, of which there may be 350" "$shown" ''
    fi
    same "paths in $name" "$(grep -noE '[^/a-z](bench|companions|completions|crates|cluster|packaging|tests)/[a-z_.]+' \
        <(grep -v -e '/usr/local/share/doc' -e '^\.\\"' "$page" | sed 's/[^ ]* of the repository//'))" ''
done

# shellcheck source=completions/malletbean.bash
. "$root/completions/malletbean.bash"
offers() { # offers WANTED WORD ..: what is offered for the last of these words
    COMP_WORDS=("${@:2}") COMP_CWORD=$(($# - 2)) COMPREPLY=()
    _malletbean "$2" "${!#}" "${*: -2:1}"
    same "completions of '${*:2}'" "${COMPREPLY[*]}" "$1"
}
cd "$folder" || exit 2
offers '--widths' psr_search --w
offers '1 2 4 8 16 32' psr_search --widths ''
offers '8 16' psr_make --nbit ''
offers 'none' psr_mask ''
offers 'new' psr_part 100 ne
offers '' psr_mask none --mean ''
offers '' psr_mask none --record
offers '' psr_part 100 new --fold
offers '--file-size' psr_record --file
offers 'psr_search' psr_why psr_s
offers '1 2 3 4 5 6 7' psr_why psr_search --shards ''
offers 'new' psr_why psr_part 100 ne
offers '--spectra' psr_plan --sp
[ "$failed" = 0 ] && echo "$(find "$folder/man" -name '*.1' | wc -l) pages and the completions are those of the tables"
exit "$failed"
