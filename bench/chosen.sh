#!/usr/bin/env bash
# chosen.sh [FLOWS PACKETS]: times `simulate`, also with `--splits`, over packets of flows that were chosen to fall into one
# bucket of a table and one group of a map by the key that everybody knows, beside as many of common flows, and prints the ratio
# of the best runs; then how evenly such flows, and others in patterns, are spread over 8,192 of them under 200 drawn keys.
# Choosing 65,536 flows takes some seconds.
source "$(dirname "$(readlink -f "${BASH_SOURCE[0]}")")/common.sh"
flows=${1:-65536} packets=${2:-200000}
. "$top/bin/program.sh"
maglev=$program
cc -O2 -o "$work/chosen" "$top/bench/chosen_flows.c"
"$work/chosen" "$flows" 16 >"$work/clients"
awk -v n="$flows" 'BEGIN { for (i = 0; i < n; i++) print "10.0." int(i / 250) % 250 "." i % 250, 1024 + int(i / 62500) }' >"$work/others"
python3 "$top/bench/many_clients.py" "$work/common.pcap" "$packets" "$flows" "$work/others"
python3 "$top/bench/many_clients.py" "$work/chosen.pcap" "$packets" "$flows" "$work/clients"
scenario 1 65536 '"10.9.0.1"' "\"install 0 1\", \"take $packets\"" >"$work/scenario.toml"
for words in "" --splits; do
    a=$(best "$maglev" simulate ${words:+"$words"} "$work/scenario.toml" "$work/chosen.pcap" "$work/sent.pcap")
    b=$(best "$maglev" simulate ${words:+"$words"} "$work/scenario.toml" "$work/common.pcap" "$work/sent.pcap")
    awk -v a="$a" -v b="$b" -v p="$packets" -v f="$flows" -v w="$words" \
        'BEGIN { printf "%d packets of %d flows, simulate %s: chosen %.3f s, common %.3f s, ratio %.2f\n", p, f, w, a, b, a / b }'
done
cc -O2 -o "$work/loads" "$top/bench/key_loads.c"
"$work/loads" 200
