#!/usr/bin/env bash
# Tries make install, uninstall, check and deb: install.sh, on a copy of the repository in which small programs of C
# stand for the proved ones, and `rt` does nothing. What is installed must be complete and name its place; nothing may
# be left after uninstall; programs that were built by other means are refused; and lintian finds no error in the
# package. Statuses: 0; 1 if something is not as it should be; 2 if a tool is missing.
set -u
. "$(dirname "$0")/../bench/common.bash"
for tool in make cc git man lintian dpkg-deb; do
    command -v "$tool" >/dev/null || { echo "install.sh needs $tool" >&2; exit 2; }
done
make_folder
(cd "$root" && git ls-files -coz --exclude-standard | xargs -0 cp -a --parents -t "$folder" 2>/dev/null)
cd "$folder" && git init -q . && git add -A && git -c user.name='A Person' -c user.email=person@example.org \
    commit -qm 'A copy' || exit 2
mkdir tools
cat >tools/rt <<'EOF'
#!/usr/bin/env bash
# stands for rt: `rt run` in a program's folder builds a program of C, and ends with the status of the stored run
case $1 in
    version) echo 'rt of a test' ;;
    run)
        status=$(cat status 2>/dev/null || echo 0)
        mkdir -p out && printf 'int main(int n, char **v) { (void)v; return n > 1 ? %d : 0; }\n' "$status" |
            cc -O2 -x c -o "out/$(basename "$PWD")" - && exit "$status"
        ;;
esac
EOF
chmod +x tools/rt
printf 'tools/\n' >>.git/info/exclude
export PATH=$folder/tools:$PATH GIT_CONFIG_GLOBAL=/dev/null
mapfile -t programs < <(cd "$root/crates" && printf '%s\n' *_main | sed 's/_main$//')

run() { # run STATUS MAKE-ARGUMENT ..: make ends with this status, 0 or other; its output is left in `said`
    local status=0
    make --no-print-directory "${@:2}" >said 2>&1 || status=1
    same "status of make ${*:2} ($(tail -n 1 said))" "$status" "$1"
}
lines() { # lines WHAT WANTED: `said` has so many lines
    same "lines of $1" "$(wc -l <said) $(head -n 1 said)" "$2 $(head -n 1 said)"
}

run 1 install PREFIX=
lines 'make install PREFIX=' 1
run 0 install DESTDIR="$folder/stage" PREFIX=/opt/mallet
there=$folder/stage/opt/mallet
for program in "${programs[@]}"; do [ -x "$there/bin/$program" ] || same "$program" 'not installed' ''; done
same 'its link' "$(readlink "$there/bin/psr_look")" ../share/malletbean/companions/psr_look
same 'broken links' "$(find "$there" -xtype l)" ''
same 'files that name DESTDIR' "$(grep -rl "$folder/stage" "$there")" ''
find "$there/share/doc" -name '*.md' -print0 | xargs -0 "$root/.ci/links" >&2 || same 'dead links' some ''
same 'documents that man pages name and that are not there' "$(
    for page in "$there"/share/man/man1/*.1; do
        tr -d '\134,' <"$page" | sed -n 's/^In \(.*\): \(.*\)$/\1 \2/p' | while read -r place names; do
            for name in $names; do [ -f "$folder/stage$place/$name" ] || echo "${page##*/}: $place/$name"; done
        done
    done)" ''
for page in "$there"/bin/*; do
    [ -f "$there/share/man/man1/${page##*/}.1" ] || same "${page##*/}.1" 'not installed' ''
    [ -e "$there/share/bash-completion/completions/${page##*/}" ] || same "completion of ${page##*/}" 'not there' ''
done
same 'BUILT' "$(cd "$there/share/doc/malletbean" && sha256sum --quiet -c BUILT 2>&1)" ''
same 'its version' "$(sed -n '1s/^# Malletbean \([0-9.]*\).*/\1/p' "$there/share/doc/malletbean/BUILT")" \
    "$(sed -n 's/^## //p' CHANGELOG.md | head -n 1 | cut -d ' ' -f 1)"
same 'psr_why' "$("$there/bin/psr_why" psr_search --mean 16)" 'psr_search: --sd is missing'
for program in psr_plan psr_join psr_look; do
    same "$program --help" "$("$there/bin/$program" --help 2>&1 | head -n 1 | cut -d ' ' -f 1)" usage:
done
run 0 uninstall DESTDIR="$folder/stage" PREFIX=/opt/mallet
same 'what uninstall left' "$(find "$folder/stage/opt" -mindepth 1)" ''
run 1 uninstall PREFIX="$folder/nowhere"
lines 'make uninstall PREFIX=nowhere' 2

run 0 install prefix="$folder/own" PROGRAMS=psr_search
run 0 install prefix="$folder/own" PROGRAMS=psr_record
same 'programs in BUILT' "$(grep -c '^# psr_' "$folder/own/share/doc/malletbean/BUILT")" 2
echo changed >>"$folder/own/share/doc/malletbean/README.md"
run 1 uninstall prefix="$folder/own"
same 'what uninstall left' "$(find "$folder/own" -type f)" "$folder/own/share/doc/malletbean/README.md"

run 1 check PREFIX=/typo
same 'make check PREFIX=/typo' "$(head -n 1 said)" 'there is no folder /typo/bin'
echo 'int main(void) { return 1; }' | cc -x c -o out/psr_make -
packaging/copy '' "$folder/other" psr_make >said 2>&1
same 'status of copy of what was built by other means' "$?" 1
lines 'copy of what was built by other means' 1
same 'what copy left' "$(ls "$folder/other" 2>/dev/null)" ''

for kind in '' x86-64-v3; do
    run 0 deb CPU="$kind"
    package=malletbean${kind:+-v3}
    deb=$(echo out/"$package"_*_amd64.deb)
    lintian --fail-on error "$deb" >said 2>&1 || { cat said >&2; same "errors that lintian finds in $package" "$?" 0; }
    dpkg-deb -x "$deb" "$folder/$package"
    same "links of $package that are broken" "$(find "$folder/$package" -xtype l)" ''
    same "folders of documents of $package" "$(ls "$folder/$package/usr/share/doc")" "$package"
    page=$(zcat "$folder/$package"/usr/share/man/man1/psr_search.1.gz | tr -d '\134')
    same "place that the pages of $package name" "$(grep -o '/usr/[a-z/]*doc/[a-z0-9-]*' <<<"$page")" \
        "/usr/share/doc/$package"
done
[ "$failed" = 0 ] && echo 'what make installs and packages is complete, and goes again'
exit "$failed"
