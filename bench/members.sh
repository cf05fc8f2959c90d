#!/usr/bin/env bash
# members.sh: times `compare` where one list has 4,096 members, and where one has as many as a command line can hold,
# which is refused: doubles are found by a sort, so the judgement takes well under a second.
source "$(dirname "$(readlink -f "${BASH_SOURCE[0]}")")/common.sh"
. "$top/bin/program.sh"
maglev=$program
for count in 4096 7400; do # 128 KiB is the longest argument on Linux
    list=$(seq -f 'b%g@10.8.0.1' "$count" | paste -sd ' ')
    words=(compare --size 65537 --hash fnv --old "$list" --new b1@10.8.0.1)
    answer=$("$maglev" "${words[@]}" 2>&1 | head -n 1) || true
    took=$(seconds "$maglev" "${words[@]}") || true
    echo "$count members (${#list} bytes): $answer, $took s"
done
