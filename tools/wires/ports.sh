# Ports of loopback for tools/java-wires and tools/java-roles. Each run has some for itself, and gives each of them once.
# shellcheck shell=bash disable=SC2154

# How many ports a run has.
most_ports=2000

# The first of 10000 ports that nobody gets by connecting to others, where the system has so many.
first_port() {
    local low=32768 high=60999 first
    read -r low high 2>/dev/null </proc/sys/net/ipv4/ip_local_port_range
    for first in 10000 20000 50000; do
        if [ $((first + 10000)) -le "$low" ] || [ $first -gt "$high" ]; then break; fi
    done
    # Where there are none the usual ones may be taken by others, and what finds one taken is tried again.
    [ $((first + 10000)) -le "$low" ] || [ $first -gt "$high" ] || first=10000
    echo $first
}

# Takes a part of the ports for this run and what it starts, by a lock that ends with them: `ports` is the first. Where all parts
# are taken, or nothing locks, it is any. PORT_LOCKS names another folder of locks.
claim_ports() {
    local first part locks=${PORT_LOCKS:-/tmp/mungo.ports.$UID} held
    first=$(first_port)
    if command -v flock >/dev/null && mkdir -p -m 700 "$locks" 2>/dev/null && [ -O "$locks" ]; then
        for part in 0 1 2 3 4; do
            exec {held}<>"$locks/$part" || break
            if flock -n "$held"; then
                ports=$((first + part * most_ports))
                return
            fi
            exec {held}>&-
        done
    fi
    ports=$((first + RANDOM % 5 * most_ports))
}

# Whether somebody listens at the port.
answers() { (exec 3<>"/dev/tcp/127.0.0.1/$1") 2>/dev/null; }

# A free port among the first so many of `ports`, each time another: a folder that can be made claims it. Ends with 1 where there
# is none: HOW_MANY.
port() {
    local tries at
    for tries in {1..500}; do
        at=$((ports + RANDOM % $1))
        if mkdir "$room/port.$at" 2>/dev/null && ! answers $at; then
            echo $at
            return
        fi
    done
    echo "no port is free from $ports on" >&2
    return 1
}
