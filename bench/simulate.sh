#!/usr/bin/env bash
# simulate.sh: times `simulate` of 1,000,000 packets of 100,000 flows, with 100 servers and tables of 65,536 entries, beside a C
# program that does the same by hand (bench/simulate.c), and `explain` and `simulate --list` beside `simulate`. Of nine whole
# runs each, in turns, the fastest counts; of the first two also the medians. Then the most memory that each takes, also for
# 4,000,000 packets.
source "$(dirname "$(readlink -f "${BASH_SOURCE[0]}")")/common.sh"
. "$top/bin/program.sh"
maglev=$program
cc -O2 -o "$work/peer" "$top/bench/simulate.c"
python3 "$top/bench/many_clients.py" "$work/input.pcap" 1000000 100000
python3 "$top/bench/many_clients.py" "$work/longer.pcap" 4000000 100000

# The servers in ascending order of name, as words of a command line and as members of a service.
servers=$(for at in $(seq 0 99); do echo "B$at 10.8.0.$at"; done | LC_ALL=C sort)
members=$(sed 's/\(.*\) \(.*\)/"\1@\2", /' <<<"$servers")
scenario 1 65536 '"10.9.0.1"' '"install 0 1", "take 4000000"' | sed "s/^members = .*/members = [$(tr -d '\n' <<<"$members")]/" >"$work/scenario.toml"

ours=("$maglev" simulate "$work/scenario.toml" "$work/input.pcap" "$work/ours.pcap")
listed=("$maglev" simulate --list "$work/scenario.toml" "$work/input.pcap" "$work/ours.pcap")
explained=("$maglev" explain "$work/scenario.toml" "$work/input.pcap" 1999998 2000000)
theirs=("$work/peer" 65537 65536 "$work/input.pcap" "$work/theirs.pcap" $servers)
for _ in 1 2 3 4 5 6 7 8 9; do
    seconds "${ours[@]}" >>"$work/times.ours"
    seconds "${theirs[@]}" >>"$work/times.theirs"
    seconds "${explained[@]}" >>"$work/times.explained"
    seconds "${listed[@]}" >>"$work/times.listed"
done
least() { sort -g "$work/times.$1" | head -n 1; }
median() { sort -g "$work/times.$1" | sed -n 5p; } # of nine
cmp -s "$work/ours.pcap" "$work/theirs.pcap" && same=equal || same=DIFFERENT
awk -v a="$(least ours)" -v b="$(least theirs)" -v s="$same" 'BEGIN { printf "simulate %.3f s, C %.3f s, ratio %.2f, outputs %s\n", a, b, a / b, s }'
awk -v a="$(median ours)" -v b="$(median theirs)" 'BEGIN { printf "medians: simulate %.3f s, C %.3f s, ratio %.2f\n", a, b, a / b }'
awk -v a="$(least explained)" -v b="$(least ours)" 'BEGIN { printf "explain %.3f s, simulate %.3f s, ratio %.2f\n", a, b, a / b }'
awk -v a="$(least listed)" -v b="$(least ours)" 'BEGIN { printf "simulate --list %.3f s, without %.3f s, ratio %.2f\n", a, b, a / b }'

# peak WORDS..: the most memory that a command takes, in MB.
peak() { python3 -c 'import os, resource, subprocess, sys
subprocess.run(sys.argv[1:], stdout=subprocess.DEVNULL, check=True)
print(f"{resource.getrusage(resource.RUSAGE_CHILDREN).ru_maxrss / 1000:.1f} MB")' "$@"; }
echo "simulate takes $(peak "${ours[@]}"), of 4,000,000 packets $(peak "$maglev" simulate "$work/scenario.toml" "$work/longer.pcap" /dev/null)"
echo "explain takes $(peak "${explained[@]}"), of 4,000,000 packets $(peak "$maglev" explain "$work/scenario.toml" "$work/longer.pcap" 1 2)"
echo "simulate --list takes $(peak "${listed[@]}")"
