# Parts of tools/java-wires: what wire files say, and settings that are wrong.

# Wants a wire file to have lines for all messages of a protocol with a peer: FILE PROTOCOL PEER.
covers() {
    jvm -cp "$lib" mungo.lib.Lines "$top/examples/$1" "$top/examples/$2" "$3" >"$room/said" 2>&1
    count "$1 has all messages of $2" $? "$room/said"
}

# Wire files that are right, and the cases of tools/wires/refused: a text, and what is said of it.
part_files() {
    covers redis/wire redis/C.scr S
    covers pop3/wire pop3/C.scr S
    covers http/wire http/C.scr S
    covers smtp/wire smtp/C.scr S
    covers smtp/server_wire smtp/S.scr C
    covers smtp_codes/wire smtp_codes/C.scr S
    covers maven/src/main/resources/mail.wire maven/src/main/mungo/C.scr S
    jvm -cp "$lib" mungo.lib.Lines "$top/tools/wires/odd.wire" "$top/examples/adder/C.scr" S >"$room/said" 2>&1
    is "a wire without a protocol's messages" $? 1 "$room/said"
    says "a wire without a protocol's messages: which" <(sed 's/.*: //' "$room/said") "no lines for add(int) to S
no lines for total(int) from S
no lines for bye() to S"
    printf 'limit 1\nlimit 0\n' >"$room/w"
    jvm -cp "$lib" mungo.lib.Lines "$room/w" >"$room/said" 2>&1
    is "a wire file that is wrong" $? 1 "$room/said"
    says "a wire file that is wrong: why" "$room/said" "$room/w:2: limit can't be 0"
    jvm -cp "$lib" Refused "$top/tools/wires/refused" >"$room/said" 2>&1
    local line
    while IFS= read -r line; do
        [ "${line%% *}" = ok ]
        count "refused: $line" $?
    done <"$room/said"
    is "refused: cases" "$(wc -l <"$room/said")" "$(grep -c '^= ' "$top/tools/wires/refused")" "$room/said"
}

# Wants the status and the last line on standard error of a role with these options: NAME STATUS LINE OPTIONS..
wrong() {
    local name=$1 status=$2 line=$3
    shift 3
    jvm "$@" -cp "$room/taker/class:$lib" CMain >"$room/out" 2>"$room/err"
    is "$name" $? "$status" "$room/err"
    says "$name: the line" <(tail -1 "$room/err") "$line"
}

# Wants that a role has no peer S with these options, for the REASON: NAME REASON OPTIONS..
lonely() {
    local seconds was
    for seconds in "${vain[@]}"; do
        jvm "${@:3}" -Dmungo.patience="$seconds" -cp "$room/taker/class:$lib" CMain >"$room/out" 2>"$room/err"
        was=$?
        [ "$(head -1 "$room/err")" = "$2" ] && break
    done
    is "$1" $was 7 "$room/err"
    says "$1: the lines" "$room/err" "$2
${2%%:*}: no peer S"
}

part_settings() {
    taker
    local at here=C=127.0.0.1:1 wire=$top/tools/wires/odd.wire
    at=$(port $each)
    wrong "bad patience" 70 "mungo: mungo.patience has soon, and not seconds from 0 to 1000000" -Dmungo.patience=soon
    wrong "bad limit" 70 "mungo: mungo.limit has 0, and not seconds from 1 to 1000000" -Dmungo.limit=0
    wrong "bad port" 70 "mungo: mungo.roles has S=127.0.0.1:70000, and not ROLE=HOST:PORT" -Dmungo.roles=S=127.0.0.1:70000
    wrong "no port" 70 'mungo: mungo.roles has S\x1b=127.0.0.1, and not ROLE=HOST:PORT' -Dmungo.roles=$'S\x1b=127.0.0.1,'"$here"
    wrong "no host" 70 "mungo: mungo.roles has S=:4, and not ROLE=HOST:PORT" -Dmungo.roles="$here,S=:4"
    wrong "no name" 70 "mungo: mungo.roles has S 1, and not the name of a role" -Dmungo.roles="S 1=127.0.0.1:4"
    wrong "two addresses" 70 "mungo: mungo.roles has two addresses of C" -Dmungo.roles="$here,C=127.0.0.1:2"
    wrong "bad role" 70 'mungo: mungo.role has \x1b, and not the name of a role' -Dmungo.role=$'\x1b'
    wrong "no secret" 70 "mungo: mungo.secret is empty" -Dmungo.secret=
    wrong "a short secret" 70 "mungo: mungo.secret has 15 letters, and not at least 16" -Dmungo.secret=fifteen-letters
    wrong "no address of one's own" 70 "mungo: C can't listen: no address is known" -Dmungo.role=C -Dmungo.roles=S=127.0.0.1:4
    wrong "no host of one's own" 70 "mungo: C can't listen at 127.0.0.1.1.:4: no host has the name 127.0.0.1.1." -Dmungo.role=C \
        -Dmungo.roles=S=127.0.0.1:4,C=127.0.0.1.1.:4
    lonely "a host that isn't there" "T: S at 127.0.0.1.1.:4: no host has the name 127.0.0.1.1." -Dmungo.role=T \
        -Dmungo.roles=S=127.0.0.1.1.:4
    lonely "nobody there" "T: S at 127.0.0.1:$at: Connection refused" -Dmungo.role=T -Dmungo.roles=S=127.0.0.1:"$at"
    lonely "nobody comes" "C: S at 127.0.0.1:4: it hasn't connected" -Dmungo.role=C -Dmungo.roles=S=127.0.0.1:4,C=127.0.0.1:"$at"
    start "$room/holder" "${peer[@]}" wait
    at=$(first_line "$room/holder")
    wrong "a port that is taken" 70 "mungo: C can't listen at 127.0.0.1:$at: Address already in use" -Dmungo.role=C \
        -Dmungo.roles=S=127.0.0.1:4,C=127.0.0.1:"$at"
    wrong "no wire file" 70 "mungo: mungo.wire has S=lines:/absent: no file and no resource /absent" -Dmungo.roles=S=127.0.0.1:4 \
        -Dmungo.wire=S=lines:/absent
    wrong "no such wire" 70 "mungo: mungo.wire has S=NoSuch:it: NoSuch" -Dmungo.roles=S=127.0.0.1:4 -Dmungo.wire=S=NoSuch:it
    wrong "no wire at all" 70 "mungo: mungo.wire has S, and not ROLE=lines:FILE, ROLE=tls:FILE, ROLE=amqp:.. or ROLE=CLASS:WORD" -Dmungo.wire=S
    wrong "no address of a wire" 70 "mungo: mungo.wire has S=lines:$wire: mungo.roles has no address of S" -Dmungo.wire=S="lines:$wire"
    jvm -cp "$room/taker/class:$lib" mungo.lib.Session C=CMain D=DMain >"$room/out" 2>"$room/err"
    is "no main" $? 1 "$room/err"
    says "no main: the line" "$room/err" "mungo: NoMain DMain"
    jvm -cp "$room/taker/class:$lib" mungo.lib.Session C=CMain C=CMain >"$room/out" 2>"$room/err"
    is "a role twice" $? 2 "$room/err"
}
