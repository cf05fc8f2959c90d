# Sets `program` where bin/program.sh couldn't: something changed, or this is the first call. What was built here comes first, where
# nothing that it was built from is newer. Then comes the program of dist/, where the sums of its sources are those of the tree.
# Else the program is built: only a proved crate is built, so each crate that it needs is proved first, and a line for each goes to
# standard error. Status 3: it can't be built.

is_built() {
    [ -x "$out/maglev" ] || return 1
    [ "$out/sources" -nt "$out/maglev" ] || python3 "$top/bin/build.py" --sources maglev || return 1
    all_older "$out/sources" "$out/maglev"
}

# What the program of dist/ is made from, as a list for out/.
list_dist() {
    echo 'paths="dist/maglev dist/maglev.sha256 dist/sources.sha256'
    cut -c67- "$top/dist/sources.sha256"
    echo '"'
}

# Whether dist/ has the program of this tree, and it runs on this machine.
has_sums() {
    (cd "$top" && sha256sum -c --status dist/maglev.sha256 dist/sources.sha256) && "$top/dist/maglev" --version >/dev/null 2>&1
}

# The list is kept where the sums hold, so that later calls look only for what is newer. The first one is reported.
is_dist() {
    [ -x "$top/dist/maglev" ] || return 1
    [ ! -e "$out/dist" ] || ! all_older "$out/dist" "$out/dist" || return 0
    { mkdir -p "$out" && list_dist >"$out/dist.$$"; } 2>/dev/null
    has_sums || { rm -f "$out/dist.$$" && return 1; }
    [ -e "$out/dist.$$" ] || return 0
    [ -e "$out/dist" ] || echo "maglev: running the program of dist/, proved by the gate; bin/prove proves and builds it here" >&2
    mv -f "$out/dist.$$" "$out/dist"
}

build_program() {
    echo "maglev: proving and building the program" >&2
    python3 "$top/bin/build.py" maglev >&2
}

if is_built; then
    program=$out/maglev
elif is_dist; then
    program=$top/dist/maglev
elif build_program; then
    program=$out/maglev
else
    echo "maglev: the program can't be built" >&2
    exit 126
fi
