# common.sh: what the scripts of this folder share; they source it.
set -eu
top=$(cd "$(dirname "$(readlink -f "${BASH_SOURCE[0]}")")/.." && pwd)

# A folder for a script's files, which goes when it ends.
work=$(mktemp -d)
trap 'rm -rf "$work"' EXIT

# What a timed program reads on standard input.
input=/dev/null

# build NAME: builds the benchmark crates/NAME, and sets `ours` to its program.
build() {
    ours=$top/crates/$1/out/$1
    (cd "$top/crates/$1" && rt run </dev/null >/dev/null 2>&1) || { echo "$1 can't be built" >&2; exit 1; }
}

# seconds COMMAND..: the wall time of one run.
seconds() {
    { TIMEFORMAT=%R; time "$@" <"$input" >/dev/null 2>/dev/null; } 2>&1
}

# best COMMAND..: the least wall time of five runs, in seconds.
best() {
    for _ in 1 2 3 4 5; do seconds "$@"; done | sort -g | head -n 1
}

# scenario WORKERS CAPACITY NODES STEPS [KEY]: prints a scenario of tables of 65,537 slots, in which flows are spread over the
# nodes by their hash, and the one version has a service of three servers. NODES and STEPS are strings of TOML with commas
# between them, KEY is one more key.
scenario() {
    cat <<END
format = 1
size = 65537
hash = "fnv"
scheme = "maglev"
spread = "hash"
workers = $1
capacity = $2
nodes = [$3]
steps = [$4]
${5:-}
[[versions]]
number = 1
[[versions.services]]
vip = "192.0.2.1"
proto = "tcp"
port = 80
members = ["A@10.8.0.1", "B@10.8.0.2", "C@10.8.0.3"]
END
}
