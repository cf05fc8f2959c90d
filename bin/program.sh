# Sets `program` to what bin/maglev runs, for a script that has set `top`, the top of the repository: what was built here, or the
# program of dist/, where nothing changed since that was found out. Else bin/choose.sh finds out. Each call reads this, so it's short.
out=$top/crates/maglev/out
program=

# Whether all that a list names is there, and is older than a file. The shell's own look costs less than another program.
all_older() {
    . "$1"
    for path in $paths; do
        [ "$top/$path" -ot "$2" ] || return 1
    done
}

if [ -x "$out/maglev" ] && [ ! "$out/sources" -nt "$out/maglev" ]; then
    : # its list is older than it
elif [ -x "$out/maglev" ] && all_older "$out/sources" "$out/maglev"; then
    program=$out/maglev
elif [ -e "$out/dist" ] && all_older "$out/dist" "$out/dist"; then
    program=$top/dist/maglev
fi
[ -n "$program" ] || . "$top/bin/choose.sh"
