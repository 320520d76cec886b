# A part of tools/test-tools: the ports of tools/java-wires and tools/java-roles.
# shellcheck shell=bash disable=SC2154

# Two runs side by side have ports of their own; one behind another may have those of the first again.
claims() { (PORT_LOCKS=$room/locks && . tools/wires/ports.sh && claim_ports && echo "$ports" >"$room/ports.$1" && until [ -e "$room/ports.end" ]; do sleep 0.1; done); }
if command -v flock >/dev/null; then
    for run in one two; do claims $run & done
    for run in one two; do
        for _ in $(seq 600); do
            if [ -s "$room/ports.$run" ]; then break; fi
            sleep 0.1
        done
    done
    touch "$room/ports.end"
    wait
    [ -s "$room/ports.one" ] && [ -s "$room/ports.two" ] && ! cmp -s "$room/ports.one" "$room/ports.two"
    count "ports: two runs side by side have others: $(cat "$room/ports.one" "$room/ports.two" | tr '\n' ' ')" $?
fi
# Each port is given once, and one at which somebody listens isn't; where none is left that is said.
(
    . tools/wires/ports.sh
    ports=41000
    mkdir "$room/ports" && room=$room/ports
    answers() { [ "$1" -eq 41002 ]; }
    for _ in 1 2 3 4 5; do port 5 2>/dev/null; done | sort | tr '\n' ' ' >"$room/given"
    [ "$(cat "$room/given")" = '41000 41001 41003 41004 ' ]
)
count "ports: each is given once, and none that is taken" $?
