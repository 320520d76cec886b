# Parts of tools/java-wires: peers of wires that misbehave, and a role between one of mungo and a peer with a wire.

# The programs `odd`, `injected` and `long`: C says hi with a text, and prints which of four answers it gets.
odd_programs() {
    local choice='choice at S { yes() from S; } or { number(int) from S; } or { no(String) from S; } or { many(String) from S; }'
    local taken='switch (r.receive_CChoice1LabelFromS()) {
        case yes: r.receive_yesFromS(); System.out.println("yes"); break;
        case number: System.out.println("number " + r.receive_numberIntFromS()); break;
        case no: System.out.println("no " + r.receive_noStringFromS()); break;
        case many: System.out.println("many " + r.receive_manyStringFromS()); break; }'
    program odd C 'role C, role S' "hi(String) to S; $choice" "r.send_hiStringToS(\"there\"); $taken"
    program injected C 'role C, role S' "hi(String) to S; $choice" "r.send_hiStringToS(\"there\\r\\nDELETE all\"); $taken"
    program long C 'role C, role S' "hi(String) to S; $choice" \
        "String t = \"0123456789abcdef\"; int i = 0; while (i < 20) { t = t + t; i++; } r.send_hiStringToS(t); $taken"
}

# Plays a program by a wire file once against a peer that does ACTIONS: PROGRAM FILE ACTIONS.. Its status comes into `was`.
odd_plays() {
    local at
    start "$room/peer" "${peer[@]}" "${@:3}"
    at=$(first_line "$room/peer")
    plays "$room/$1/class" CMain "$at" "lines:$2"
    was=$?
}

# Plays a program by the wire file in `odd_wire`, whose limit is no matter: NAME PROGRAM STATUS LINE ACTIONS..
odd() {
    local was
    odd_plays "$2" "$odd_wire" "${@:5}"
    last_ends
    ended_so "$1" "$3" "$4"
}

# The same by a limit that passes, for the REASON, once the peer has come so far: NAME PROGRAM REASON ACTIONS..
odd_waits() {
    local was seconds reason
    for seconds in "${vain[@]}"; do
        sed "s/^limit .*/limit $seconds/" "$top/tools/wires/odd.wire" >"$room/late.wire"
        odd_plays "$2" "$room/late.wire" "${@:4}"
        reason="C: S: ${3/SECONDS/$seconds}"
        stop_last
        [ "$(head -1 "$room/err")" = "$reason" ] && break
    done
    ended_so "$1" 8 "C: waits S"
    why "$1" "$reason"
}

part_wires() {
    local odd_wire at
    odd_wire=$(roomy tools/wires/odd.wire)
    odd_programs
    odd "a message" odd 0 yes read 'send:YES\r\n' close
    odd "a number" odd 0 "number -5" read 'send:N -5\r\n' close
    odd "bytes" odd 0 "many a" read 'send:M1\r\na\r\n' close
    odd "a message in pieces" odd 0 "no way" read 'slow:NO way\r\n' close
    odd "a number that is too large" odd 7 'C: mismatch S "N 99999999999"' read 'send:N 99999999999\r\n' close
    odd "no message fits" odd 7 'C: mismatch S "MAYBE"' read 'send:MAYBE\r\n' close
    odd "two messages fit" odd 7 'C: mismatch S "TWICE"' read 'send:TWICE\r\n' close
    why "two messages fit" "C: S: it fits one() of line 26 and two() of line 29 of $odd_wire"
    odd "a label that isn't expected" odd 7 'C: mismatch S other' read 'send:OTHER\r\n' close
    why "a label that isn't expected" 'C: S sent "OTHER"'
    odd "the peer ends" odd 8 'C: waits S' read close
    odd "the peer resets the connection" odd 8 'C: waits S' read reset
    odd "the peer ends in a line" odd 7 'C: mismatch S ""' read send:YES close
    odd "the peer ends in bytes" odd 7 'C: mismatch S "M5"' read 'send:M5\r\nab' close
    odd "a line feed alone" odd 7 'C: mismatch S "YES"' read 'send:YES\n' close
    odd "a carriage return inside" odd 7 'C: mismatch S ""' read 'send:YE\rS\r\n' close
    odd "a line that is too long" odd 7 'C: mismatch S ""' read pour:0
    why "a line that is too long" "C: S: it has more than 2000 bytes"
    odd "a size that is too large" odd 7 'C: mismatch S "M9999999"' read 'send:M9999999\r\n' close
    odd "a size that is none" odd 7 'C: mismatch S "M99999999999999"' read 'send:M99999999999999\r\n' close
    odd "more than was told" odd 7 'C: mismatch S "M1\x0ab"' read 'send:M1\r\nab\r\n' close
    odd "no UTF-8" odd 7 'C: mismatch S ""' read 'send:\xff\xfe\r\n' close
    odd "letters that a terminal would obey" odd 7 'C: mismatch S "\x1b[31m\x9b"' read 'send:\x1b[31m\xc2\x9b\r\n' close
    odd "letters that end a line elsewhere" odd 0 $'no a\u2028b\u0085c' read 'send:NO a\xe2\x80\xa8b\xc2\x85c\r\n' close
    odd "a value with a line feed" injected 7 'C: unfit S hi' rest
    says "a value with a line feed: what was sent" <(tail -n +2 "$room/peer") "b''"
    sed 's/^limit/charset US-ASCII\nlimit/; s/HI {value}/HI größer {value}/' "$odd_wire" >"$room/ascii.wire"
    odd_wire=$room/ascii.wire
    odd "a letter that the charset hasn't" odd 7 'C: unfit S hi' rest
    sed '/^longest/d' "$(roomy tools/wires/odd.wire)" >"$room/wide.wire"
    odd_wire=$room/wide.wire
    odd "a line of a megabyte" odd 7 'C: mismatch S ""' read pour:0
    why "a line of a megabyte" "C: S: it has more than 1048576 bytes"
    sed 's/^longest.*/longest 2000000/; s/^< OTHER/< (?:X|Y)*/' "$(roomy tools/wires/odd.wire)" >"$room/deep.wire"
    odd_wire=$room/deep.wire
    odd "a line that is too long for its pattern" odd 7 "C: mismatch S \"$(printf '%0200d' 0 | tr 0 X)\".." \
        read "send:$(printf '%0100000d' 0 | tr 0 X)\\r\\n" close
    plays "$room/odd/class" CMain 1 Echo:it
    is "a wire of one's own" $? 0 "$room/err"
    says "a wire of one's own: what is printed" "$room/out" "no it there"
}

# Peers that let a role wait.
part_late() {
    odd_programs
    odd_waits "the peer is silent" odd 'no message within SECONDS seconds' read wait
    odd_waits "the peer sends a byte now and then" odd 'no message within SECONDS seconds, but ""' read drip:a
    odd_waits "the peer sends half a line" odd 'no message within SECONDS seconds, but ""' read send:YE wait
    odd_waits "the peer sends half of the bytes" odd 'no message within SECONDS seconds, but "M5"' read 'send:M5\r\nab' wait
    odd_waits "a slow pattern" odd 'no message within SECONDS seconds, but "Saaaaaaaaaaaaaaaaaaaaaaaaaaaaaa"' \
        read 'send:Saaaaaaaaaaaaaaaaaaaaaaaaaaaaaa\r\n' wait
    odd_waits "a peer that doesn't read" long "it hasn't taken the message within SECONDS seconds" wait
}

# A role between one of mungo, in the process or outside, and a peer with a wire.
part_mixed() {
    local at b role wire all='role B, role C, role S'
    wire=$(roomy tools/wires/odd.wire)
    program middle C "$all" 'line(String) from B; hi(String) to S; no(String) from S; number(String) to B;' \
        'r.send_hiStringToS(r.receive_lineStringFromB()); String said = r.receive_noStringFromS();
        System.out.println("S says " + said); r.send_numberStringToB(said);'
    program edge B "$all" 'line(String) to C; number(String) from C;' \
        'r.send_lineStringToC("by way of C"); System.out.println("C says " + r.receive_numberStringFromC());'
    start "$room/peer" "${peer[@]}" read 'send:NO 7\r\n' close
    at=$(first_line "$room/peer")
    jvm -Dmungo.roles=S=127.0.0.1:"$at" -Dmungo.wire=S="lines:$wire" "${long[@]}" -cp "$room/middle/class:$room/edge/class:$lib" \
        mungo.lib.Session B=BMain C=CMain >"$room/out" 2>"$room/err"
    is "mixed, one process" $? 0 "$room/err"
    says "mixed, one process: what is printed" <(sort "$room/out") "B: C says 7
C: S says 7"
    last_ends
    says "mixed, one process: what S heard" <(tail -1 "$room/peer") "b'HI by way of C\\r\\n'"
    start "$room/peer" "${peer[@]}" read 'send:NO 7\r\n' close
    at=$(first_line "$room/peer")
    b=$(port $each)
    jvm -Dmungo.role=B -Dmungo.roles=B=127.0.0.1:"$b",C=127.0.0.1:1 "${long[@]}" -cp "$room/edge/class:$lib" BMain \
        >"$room/B.out" 2>&1 &
    role=$!
    jvm -Dmungo.role=C -Dmungo.roles=B=127.0.0.1:"$b",S=127.0.0.1:"$at" -Dmungo.wire=S="lines:$wire" "${long[@]}" \
        -cp "$room/middle/class:$lib" CMain >"$room/out" 2>"$room/err"
    is "mixed, two processes: C" $? 0 "$room/err"
    wait $role
    is "mixed, two processes: B" $? 0 "$room/B.out"
    says "mixed, two processes: what is printed" <(cat "$room/B.out" "$room/out") "C says 7
S says 7"
}
