#!/usr/bin/env bash
# versions.sh: what versions and services cost the cluster core. A packet's processor time and instructions where the version
# that was prepared first of 1, 32 and 1,024 is in use, with 1, 16 and 256 services; and processor time and memory of preparing
# versions of 256 services with tables of 65,537 slots: one version, 62 in which no service changes, and 62 in which one does.
source "$(dirname "$(readlink -f "${BASH_SOURCE[0]}")")/common.sh"
build bench_core

# processor COMMAND..: the least processor time of five runs, in seconds.
processor() {
    for _ in 1 2 3 4 5; do { TIMEFORMAT=%U; time "$@" >/dev/null 2>/dev/null; } 2>&1; done | sort -g | head -n 1
}

# instructions PACKETS VERSIONS SERVICES: how many instructions a run takes.
instructions() {
    valgrind --tool=cachegrind --cache-sim=no --cachegrind-out-file=/dev/null "$ours" "$1" 1000 "$2" "$3" 1 2>&1 >/dev/null |
        sed -n 's/,//g; s/.*I *refs: *//p'
}

# a_packet VERSIONS SERVICES: instructions and nanoseconds of a packet, those of many less those of none.
a_packet() {
    local many none
    many=$(processor "$ours" 2000000 1000 "$1" "$2" 1) none=$(processor "$ours" 0 1000 "$1" "$2" 1)
    awk -v a="$many" -v b="$none" 'BEGIN { printf "%.0f ns", (a - b) / 2000000 * 1e9 }'
    if command -v valgrind >/dev/null; then
        many=$(instructions 100000 "$1" "$2") none=$(instructions 0 "$1" "$2")
        awk -v a="$many" -v b="$none" 'BEGIN { printf ", %.0f instructions", (a - b) / 100000 }'
    fi
}

for shape in "1 1" "32 1" "1024 1" "1 16" "1 256" "62 256"; do
    read -r versions services <<<"$shape"
    echo "$versions versions of $services services: $(a_packet "$versions" "$services") a packet"
done

# prepare WORDS VERSIONS MEMBERS CHANGES: time and memory of preparing the versions.
prepare() {
    local memory
    memory=$(/usr/bin/time -f %M "$ours" 0 1 "$2" 256 "$3" "$4" 2>&1 >/dev/null | tail -n 1)
    echo "$1: $(processor "$ours" 0 1 "$2" 256 "$3" "$4") s, $((memory / 1024)) MB"
}

prepare "1 version of 256 services of 20 members" 1 20 0
prepare "62 versions, none of the services changes" 62 20 0
prepare "62 versions, one service changes in each" 62 20 1
prepare "62 versions of 256 services of one member" 62 1 0
