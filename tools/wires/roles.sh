# Parts of tools/java-wires: roles of mungo in processes of their own, and peers that only seem to be such.

# The program `taker`: the role C prints what S says.
taker() {
    [ -d "$room/taker" ] || program taker C 'role C, role S' 'hi(String) from S;' \
        'System.out.println("heard " + r.receive_hiStringFromS());'
}

# Plays C of `taker` once against a peer that connects to it and does ACTIONS, with the options in the array `options`. Its
# status comes into `was`.
meets() {
    local at
    at=$(port $each)
    start "$room/peer" "${peer[@]}" to:"$at" "$@"
    jvm -Dmungo.role=C -Dmungo.roles=C=127.0.0.1:"$at",S=127.0.0.1:1 "${long[@]}" "${options[@]}" \
        -cp "$room/taker/class:$lib" CMain >"$room/out" 2>"$room/err"
    was=$?
}

# Wants the status of the role that was played, and the last line on standard error, or what is printed where the status is 0;
# and that the role has ended before its peer gave it up: NAME STATUS LINE.
ended_so() {
    is "$1" $was "$2" "$room/err"
    if [ "$2" -eq 0 ]; then tail -1 "$room/out"; else tail -1 "$room/err"; fi >"$room/last"
    says "$1: the line" "$room/last" "$3"
    ! grep -q '^late' "$room/peer"
    count "$1: before its peer gives it up" $? "$room/peer"
}

# Plays C of `taker` against a peer that does ACTIONS: NAME STATUS LINE ACTIONS..
duel() {
    local was
    meets "${@:4}"
    last_ends
    ended_so "${@:1:3}"
}

# The same against a peer that isn't taken as S, for the REASON, though it has said what it has to say: NAME REASON ACTIONS..
shuns() {
    local seconds was plain=("${options[@]}") reason="C: S at 127.0.0.1:1: $2"
    for seconds in "${vain[@]}"; do
        options=("${plain[@]}" -Dmungo.patience="$seconds")
        meets "${@:3}"
        stop_last
        grep -q '^sent' "$room/peer" && [ "$(head -1 "$room/err")" = "$reason" ] && break
    done
    options=("${plain[@]}")
    ended_so "$1" 7 "C: no peer S"
    says "$1: why" <(head -1 "$room/err") "$reason"
    grep -q '^sent' "$room/peer"
    count "$1: the peer has come" $? "$room/peer"
}

# Wants the first line on standard error, which says why: NAME LINE.
why() { says "$1: why" <(head -1 "$room/err") "$2"; }

# Peers that are taken as the role that is awaited, and what they send then.
part_roles() {
    taker
    local options=() greet=greet:S,C
    duel "a role" 0 "heard there" $greet text:hi send:S text:there close
    duel "a role in pieces" 0 "heard x" slow:'mungo 1\n' told:1 send:S told:1 slow:C told:2 send:h send:i send:S text:x close
    duel "another message" 7 "C: mismatch S ho" $greet text:ho send:- close
    duel "another kind" 7 "C: mismatch S hi" $greet text:hi send:- close
    duel "a label that a terminal would obey" 7 'C: mismatch S \x1b[31m\x0a' $greet text:'\x1b[31m\n' send:- close
    duel "a label without end" 7 'C: mismatch S ""' $greet told:2147483647 rest
    why "a label without end" "C: S: a text of 2147483647 bytes, and it may have 255"
    duel "a length below 0" 7 'C: mismatch S "hi"' $greet text:hi send:S told:-5 rest
    duel "a text that is too long" 7 'C: mismatch S "hi"' $greet text:hi send:S told:17000000 rest
    duel "a kind that is none" 7 'C: mismatch S "hi"' $greet text:hi send:X rest
    duel "no UTF-8" 7 'C: mismatch S "hi"' $greet text:hi send:S text:'\xff' rest
    duel "garbage" 7 'C: mismatch S ""' $greet send:'GET / HTTP/1.0\r\n\r\n' rest
    duel "the end" 8 "C: waits S" $greet close
    duel "a reset" 8 "C: waits S" $greet reset
    duel "the end in a label" 7 'C: mismatch S ""' $greet told:5 send:ab close
    duel "the end in a text" 7 'C: mismatch S "hi"' $greet text:hi send:S told:5 send:ab close
    options=(-Xmx24m)
    duel "a length without bytes, and the end" 7 'C: mismatch S "hi"' $greet text:hi send:S told:16000000 close
    duel "a thread that dies" 5 "C: memory" $greet text:hi send:S told:16000000 pour:x
    options=(-Dmungo.limit=1)
    duel "a length without bytes" 8 "C: waits S" $greet text:hi send:S told:16000000 rest
    why "a length without bytes" "C: S: no message within 1 seconds"
    duel "silence" 8 "C: waits S" $greet rest
    duel "drips" 8 "C: waits S" $greet told:200 drip:a
}

# Peers that aren't taken as the role that is awaited, and secrets.
part_meetings() {
    taker
    local options=()
    shuns "no greeting" "it hasn't connected" send:'GET / HTTP/1.0\r\n\r\n' say:sent rest
    shuns "another role is meant" "it hasn't connected" greet:S,D say:sent rest
    shuns "another role comes" "it hasn't connected" greet:T,C say:sent rest
    shuns "half a greeting" "it hasn't connected" send:mung say:sent rest
    secrets
}

# Peers that take up room.
part_crowds() {
    taker
    strangers
    greeting_ends
    dies
    floods
    unread
}

secrets() {
    local seconds was wasS other="one with this name has come, and it has another secret"
    options=(-Dmungo.secret=sesame-open-thyself)
    duel "a secret" 0 "heard there" prove:S,C,sesame-open-thyself text:hi send:S text:there close
    says "a secret: the other side" "$room/peer" $'sent\nproof right'
    shuns "another secret" "$other" prove:S,C,simsim-open-thyself text:hi send:S text:there close
    shuns "a proof that is sent back" "$other" reflect:S,C text:hi send:S text:there close
    shuns "a proof for another connection" "$other" replay:S,C,sesame-open-thyself wait
    shuns "no secret" "it hasn't connected" greet:S,C say:sent text:hi send:S text:there close
    options=()
    shuns "a secret where none is set" "it hasn't connected" prove:S,C,sesame-open-thyself text:hi send:S text:there close
    program giver S 'role C, role S' 'hi(String) to C;' 'r.send_hiStringToC("there");'
    pair sesame-open-thyself 300 300
    is "two roles, one secret: C" "$was" 0 "$room/err"
    is "two roles, one secret: S" "$wasS" 0 "$room/S.err"
    says "two roles, one secret: what C prints" "$room/out" "heard there"
    for seconds in "${vain[@]}"; do
        pair simsim-open-thyself "$seconds" $((4 * seconds))
        grep -q 'it has another secret$' "$room/S.err" && grep -q 'may have another secret$' "$room/err" && break
    done
    is "two roles, another secret: C" "$was" 7 "$room/err"
    is "two roles, another secret: S" "$wasS" 7 "$room/S.err"
    says "two roles, another secret: what C says" "$room/err" \
        $'C: S at 127.0.0.1:1: one with this name has come, and it ended at the greeting, and may have another secret\nC: no peer S'
    says "two roles, another secret: what S says" <(sed 's/:[0-9]*:/:PORT:/' "$room/S.err") \
        $'S: C at 127.0.0.1:PORT: it has another secret\nS: no peer C'
}

# Both roles by mungo, S with the secret SECRET, and C with `sesame-open-thyself`, and how long they wait for each other, C as long as S at
# least: SECRET SECONDS_S SECONDS_C. Their statuses come into `was` and `wasS`.
pair() {
    local at other
    at=$(port $each)
    jvm -Dmungo.role=S -Dmungo.roles=C=127.0.0.1:"$at" -Dmungo.secret="$1" -Dmungo.patience="$2" -cp "$room/giver/class:$lib" SMain \
        >"$room/S.out" 2>"$room/S.err" &
    other=$!
    MUNGO_SECRET=sesame-open-thyself jvm -Dmungo.role=C -Dmungo.roles=C=127.0.0.1:"$at",S=127.0.0.1:1 -Dmungo.patience="$3" \
        -cp "$room/taker/class:$lib" CMain >"$room/out" 2>"$room/err"
    was=$?
    wait $other
    wasS=$?
}

# Many that connect and say nothing, before the peer comes: it is heard, and they take few threads.
strangers() {
    local at role
    at=$(port $each)
    start "$room/strangers" "${peer[@]}" to:"$at" strangers:120 say:there wait
    java "${short[@]}" -Dmungo.role=C -Dmungo.roles=C=127.0.0.1:"$at",S=127.0.0.1:1 "${long[@]}" -cp "$room/taker/class:$lib" CMain \
        >"$room/out" 2>"$room/err" </dev/null &
    role=$!
    says "strangers who say nothing: all are there" <(first_line "$room/strangers") there
    if [ -r "/proc/$role/status" ]; then
        [ "$(sed -n 's/^Threads:[^0-9]*//p' "/proc/$role/status")" -lt 70 ]
        count "strangers who say nothing: threads" $? "/proc/$role/status"
    fi
    start "$room/peer" "${peer[@]}" to:"$at" greet:S,C text:hi send:S text:there close
    wait $role
    is "strangers who say nothing" $? 0 "$room/err"
    says "strangers who say nothing: what is printed" "$room/out" "heard there"
}

# One that connects and says nothing is let go while the role still waits for its peer.
greeting_ends() {
    local at role stranger
    at=$(port $each)
    start "$room/stranger" "${peer[@]}" to:"$at" wait
    stranger=$last
    jvm -Dmungo.role=C -Dmungo.roles=C=127.0.0.1:"$at",S=127.0.0.1:1 "${long[@]}" -cp "$room/taker/class:$lib" CMain \
        >"$room/out" 2>"$room/err" &
    role=$!
    wait "$stranger"
    says "a stranger who says nothing is let go" "$room/stranger" gone
    start "$room/peer" "${peer[@]}" to:"$at" greet:S,C text:hi send:S text:there close
    wait $role
    is "a stranger who says nothing, and then the peer" $? 0 "$room/err"
    says "a stranger who says nothing, and then the peer: what is printed" "$room/out" "heard there"
}

# A role that a larger program plays, whose peer sends more than there is memory for: its line is closed, and the program goes on.
dies() {
    local at
    at=$(port $each)
    start "$room/peer" "${peer[@]}" to:"$at" greet:S,C text:hi send:S told:16000000 pour:x
    jvm -Xmx24m "${long[@]}" -cp "$lib" Plays "$at" "$room/peer" >"$room/out" 2>"$room/err"
    is "a thread that dies in a larger program" $? 0 "$room/err"
    says "a thread that dies in a larger program: what is answered" "$room/out" "memory
the peer has gone"
}

# A peer that sends without end, while the role waits for another, which speaks when that sending waits too: then the role goes on.
floods() {
    local at b
    program flooded C 'role B, role C, role S' 'a() from B; hi(int) from S;' \
        'r.receive_aFromB(); System.out.println("heard " + r.receive_hiIntFromS());'
    at=$(port $each)
    start "$room/flood" "${peer[@]}" to:"$at" greet:S,C flood:'\0\0\0\2hiI\0\0\0\7'
    start "$room/B" "${peer[@]}" until:"$room/flood" text:a send:- close
    b=$(first_line "$room/B")
    jvm -Xmx48m -Dmungo.role=C -Dmungo.roles=B=127.0.0.1:"$b",C=127.0.0.1:"$at",S=127.0.0.1:1 "${long[@]}" \
        -cp "$room/flooded/class:$lib" CMain >"$room/out" 2>"$room/err"
    is "a flood" $? 0 "$room/err"
    says "a flood: what is printed" "$room/out" "heard 7"
    grep -q '^flooded' "$room/flood"
    count "a flood: sending waits" $? "$room/flood"
}

# A peer that reads nothing. It doesn't see the end of the role either, which stands behind what it hasn't read.
unread() {
    local at was
    program sender C 'role C, role S' 'rec X { a(String) to S; continue X; }' \
        'String t = "0123456789abcdef"; int i = 0; while (i < 12) { t = t + t; i++; } do { r.send_aStringToS(t); } while (true);'
    at=$(port $each)
    start "$room/peer" "${peer[@]}" to:"$at" greet:S,C wait
    jvm -Dmungo.role=C -Dmungo.roles=C=127.0.0.1:"$at",S=127.0.0.1:1 "${long[@]}" -Dmungo.limit=1 -cp "$room/sender/class:$lib" \
        CMain >"$room/out" 2>"$room/err"
    was=$?
    stop_last
    ended_so "a peer that reads nothing" 8 "C: waits S"
    why "a peer that reads nothing" "C: S: it has taken no message for 1 seconds"
}

# Roles that a larger program plays.
part_play() {
    "$mungo" check "$top/tools/wires/Quotient.java" >"$room/said" 2>&1
    is "play: the class that divides is checked" $? 0 "$room/said"
    jvm "${long[@]}" -Dport="$(port $each)" -cp "$lib" Plays >"$room/out" 2>"$room/err"
    is "play" $? 0 "$room/err"
    says "play: what is answered" "$room/out" "both: done 25 times
both, no threads are left
interrupted: waits A
interrupted before the peer is there: waits S
elsewhere: java.lang.IllegalStateException
here: 2
elsewhere: done
behind a play: the thread main plays no role: a role is played by the thread that has called Session.play
anew: waits S
thrown on: IllegalStateException: mine
nobody: no peer S
zero divisor
a division of one's own is thrown on: / by zero
a division of Java's is thrown on: BigInteger divide by zero
an overflow is thrown on: integer overflow
memory
swallowed: no peer T
fault
wrong name: Session.play has a b, and not the name of a role
goes on"
}

# A role that serves sessions of a larger program: seven at once, how they end, and what is told of them.
part_serve() {
    jvm "${long[@]}" -Dmungo.sessions=7 -cp "$lib" Serves >"$room/out" 2>"$room/err"
    is "serve" $? 0 "$room/err"
    says "serve: what is told" "$room/out" "S: 0 run, 0 wait, 44 have begun; done 40, fault 1, mismatch 1, no peer 1, waits 1
at once: 7 of 7
JMX: 1, begun 44, done 40
JMX: 0, behind the end
closed: S: 0 run, 1 wait, 1 have begun; done 1
Session.serve has a b, and not the name of a role
no threads are left"
    says "serve: the endings that are lines" <(grep '^S: ' "$room/err" | sort) "S: C: it isn't there
S: fault
S: mismatch C other
S: no peer C
S: waits C"
    jvm -Dmungo.sessions=none -cp "$lib" Serves >"$room/out" 2>"$room/err"
    grep -q 'mungo.sessions has none, and not a number from 1 to 100000' "$room/err"
    count "serve: a wrong number" $? "$room/err"
}
