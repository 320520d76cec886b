# Parts of tools/java-wires: roles and lines of text by TLS, with certificates that are right and wrong.

# Makes an authority NAME in $room/tls, and a store of certificates that trusts it.
authority() {
    local at=$room/tls/$1
    mkdir -p "$room/tls"
    openssl req -x509 -newkey ec -pkeyopt ec_paramgen_curve:P-256 -nodes -days 30 -subj "/CN=$1" -keyout "$at.key" -out "$at.pem" 2>/dev/null
    keytool -J-XX:TieredStopAtLevel=1 -importcert -noprompt -alias "$1" -file "$at.pem" -keystore "$at.trust" -storetype PKCS12 \
        -storepass secret >/dev/null 2>&1
}

# Makes a certificate NAME of the authority CA with the alternative names, for so many days: NAME CA ALTERNATIVES DAYS.
certificate() {
    local at=$room/tls/$1
    openssl req -newkey ec -pkeyopt ec_paramgen_curve:P-256 -nodes -subj "/CN=$1" -keyout "$at.key" -out "$at.csr" 2>/dev/null
    openssl x509 -req -in "$at.csr" -CA "$room/tls/$2.pem" -CAkey "$room/tls/$2.key" -set_serial $RANDOM -days "$4" \
        -extfile <(echo "subjectAltName=$3") -out "$at.pem" 2>/dev/null
    openssl pkcs12 -export -inkey "$at.key" -in "$at.pem" -passout pass:secret -out "$at.p12"
    chmod 644 "$at".*
}

certificates() {
    authority ca
    authority other
    certificate own ca DNS:localhost,IP:127.0.0.1 30
    certificate expired ca DNS:localhost,IP:127.0.0.1 -1
    certificate elsewhere ca DNS:elsewhere.example 30
    certificate strange other DNS:localhost,IP:127.0.0.1 30
}

# The options of a role with the certificate NAME, or without TLS where it is `none`: NAME [TRUST].
by_tls() {
    [ "$1" = none ] || echo "-Dmungo.tls=$room/tls/$1.p12,$room/tls/${2:-ca}.trust -Dmungo.tls.password=secret"
}

# Both roles by mungo, each with a certificate, and for how many seconds S waits for C, which listens before: C S SECONDS.
# Their statuses come into `was` and `wasS`.
sealed() {
    local at other
    at=$(port $each)
    # shellcheck disable=SC2046
    jvm -Dmungo.role=C -Dmungo.roles=C=localhost:"$at",S=localhost:1 $(by_tls "$1") -Dmungo.patience=$(($3 + 3)) \
        -cp "$room/taker/class:$lib" CMain >"$room/out" 2>"$room/err" &
    other=$!
    await answers "$at"
    # shellcheck disable=SC2046
    jvm -Dmungo.role=S -Dmungo.roles=C=localhost:"$at",S=localhost:1 $(by_tls "$2") -Dmungo.patience="$3" -cp "$room/giver/class:$lib" \
        SMain >"$room/S.out" 2>"$room/S.err"
    wasS=$?
    wait $other
    was=$?
}

# Roles that don't take each other, and what they say, as patterns of grep: NAME C S SAID_BY_C SAID_BY_S.
refuses() {
    local seconds was wasS
    for seconds in 2 10 60; do
        sealed "$2" "$3" "$seconds"
        grep -q "$4" "$room/err" && grep -q "$5" "$room/S.err" && break
    done
    is "$1: C" "$was" 7 "$room/err"
    is "$1: S" "$wasS" 7 "$room/S.err"
    says "$1: how they end" <(tail -qn 1 "$room/err" "$room/S.err") $'C: no peer S\nS: no peer C'
    grep -q "$4" "$room/err"
    count "$1: what C says" $? "$room/err"
    grep -q "$5" "$room/S.err"
    count "$1: what S says" $? "$room/S.err"
}

part_tls() {
    command -v openssl >/dev/null || { lacking "no openssl here for certificates"; return; }
    local was wasS options=()
    taker
    program giver S 'role C, role S' 'hi(String) to C;' 'r.send_hiStringToC("there");'
    certificates
    sealed own own 300
    is "roles by TLS: C" "$was" 0 "$room/err"
    is "roles by TLS: S" "$wasS" 0 "$room/S.err"
    says "roles by TLS: what is printed" "$room/out" "heard there"
    # Which of the two sees it, says it; the other sees an alert, or that the connection has ended before that.
    refuses "TLS, S has expired" own expired 'one has come, and its certificate has expired' .
    refuses "TLS, C has expired" expired own . 'its certificate has expired'
    refuses "TLS, S has another name" own elsewhere "isn't one of localhost, but of elsewhere.example" 'it ended at the greeting'
    refuses "TLS, C has another name" elsewhere own . 'its certificate has another name (No .* matching localhost found'
    refuses "TLS, S has a stranger's certificate" own strange 'one has come, and it shows no certificate' .
    refuses "TLS, C has a stranger's certificate" strange own . 'its certificate comes from nobody who is trusted'
    refuses "TLS, C has none" none own "it hasn't connected" .
    options=("-Dmungo.tls=$room/tls/own.p12,$room/tls/ca.trust" -Dmungo.tls.password=secret)
    shuns "TLS, S has none" "one has come, and it doesn't speak TLS" greet:S,C say:sent rest
    options=()
    jvm -Dmungo.role=C -Dmungo.roles=C=localhost:1,S=localhost:1 -Dmungo.tls=,"$room/tls/ca.trust" -Dmungo.tls.password=secret \
        -cp "$room/taker/class:$lib" CMain >"$room/out" 2>"$room/err"
    is "TLS without a key" $? 70 "$room/err"
    says "TLS without a key: why" "$room/err" "mungo: mungo.tls has no key, and roles know each other by both"
    jvm -Dmungo.role=C -Dmungo.tls="$room/tls/own.p12,$room/tls/ca.trust" -Dmungo.tls.password=wrong \
        -cp "$room/taker/class:$lib" CMain >"$room/out" 2>"$room/err"
    is "a wrong password" $? 70 "$room/err"
    grep -q "the store $room/tls/own.p12 can't be read" "$room/err"
    count "a wrong password: why" $? "$room/err"
    sealed_texts
}

# Lines of text by TLS: a peer that says yes, whose certificate is right or not.
sealed_texts() {
    local at name wire
    odd_programs
    wire=$(roomy tools/wires/odd.wire)
    for name in own expired elsewhere strange; do
        start "$room/peer" timeout 400 python3 "$top/tools/wires/tls_peer.py" "$room/tls/$name.pem" "$room/tls/$name.key"
        at=$(first_line "$room/peer")
        jvm -Dmungo.role=C -Dmungo.roles=S=localhost:"$at" -Dmungo.wire=S="tls:$wire" -Dmungo.tls=,"$room/tls/ca.trust" \
            -Dmungo.tls.password=secret "${long[@]}" -cp "$room/odd/class:$lib" CMain >"$room/out" 2>"$room/err"
        echo $? >>"$room/err"
        stop_last
        case $name in
            own) says "texts by TLS" <(cat "$room/err" "$room/out") $'0\nyes' ;;
            *)
                tail -n 2 "$room/err" >"$room/last"
                says "texts by TLS, $name" "$room/last" $'C: no peer S\n7'
                grep -q "^C: S at localhost:$at: its certificate $(sealed_because $name)" "$room/err"
                count "texts by TLS, $name: why" $? "$room/err" ;;
        esac
    done
}

sealed_because() {
    case $1 in
        expired) echo "has expired" ;;
        elsewhere) echo "has another name" ;;
        strange) echo "comes from nobody who is trusted" ;;
    esac
}
