# Parts of tools/java-wires: real servers, and real clients of a server of mungo.

# Servers run as the user nobody where root starts them, and else as the user who does.
user=$(id -un) group=$(id -gn) as_user=()
if [ "$(id -u)" = 0 ]; then
    user=nobody group=nogroup as_user=(setpriv --reuid nobody --regid nogroup --clear-groups)
fi

# Writes the settings of tools/wires/FILE for a server: FILE PORT FOLDER.
settings() {
    mkdir -p "$3"
    sed -e "s|@ROOM@|$3|g; s|@PORT@|$2|g; s|@USER@|$user|g; s|@GROUP@|$group|g" \
        -e "s|@UID@|$(id -u "$user")|g; s|@GID@|$(id -g "$user")|g" -e "s|@EXIM@|$(command -v exim4)|g" "$top/tools/wires/$1" >"$3/conf"
    chown -R "$user" "$3"
}

# Whether a mail was delivered below a folder.
has_mail() { [ -n "$(find "$1" -type f -path '*/new/*')" ]; }

# The mails that were delivered below a folder come into the file F, when the server gets to it, and are gone there: FOLDER F.
mails() {
    await has_mail "$1"
    find "$1" -type f -path '*/new/*' -exec cat {} + | tr -d '\r' >"$2"
    find "$1" -type f -path '*/new/*' -delete
}

# The clients of examples/smtp and examples/smtp_codes with a server: NAME PORT FOLDER.
delivers() {
    local name=$1 at=$2 folder=$3 way
    for way in class javac; do
        plays "$room/smtp/$way" CMain "$at" "lines:$(roomy examples/smtp/wire)" -Xverify:all
        is "smtp to $name, $way" $? 0 "$room/err"
        says "smtp to $name, $way: what is printed" "$room/out" "server mail.example
accepted bob@mail.example
rejected eve@other.example 550
queued 250"
        mails "$folder" "$room/mails"
        says "smtp to $name, $way: the mail" <(sed '1,/^$/d' "$room/mails") "line 1
line 2"
        grep -q bob@mail.example "$room/mails"
        count "smtp to $name, $way: whose mail it is" $? "$room/mails"
        plays "$room/codes/$way" CMain "$at" "lines:$(roomy examples/smtp_codes/wire)" -Xverify:all
        is "codes to $name, $way" $? 0 "$room/err"
        # Each server has words of its own.
        sed -nE 's/^(server: mail.example|refused: |early: |to .*|not to .*|delivered).*/\1/p' "$room/out" >"$room/said"
        says "codes to $name, $way: what is printed" "$room/said" "server: mail.example
refused: 
early: 
not to <eve@other.example>
to <bob@mail.example>
delivered"
        mails "$folder" "$room/mails"
        says "codes to $name, $way: the mail" <(sed '1,/^$/d' "$room/mails") ".
QUIT"
    done
}

# A python that has aiosmtpd: prints its name.
python_of_mail() {
    local python
    for python in python3 /usr/bin/python3; do
        "$python" -c 'import aiosmtpd' 2>/dev/null && echo "$python" && return 0
    done
    return 1
}

part_smtp() {
    local at python
    by_both smtp "$top/examples/smtp/C.scr" "$top/examples/smtp/CMain.java"
    by_both codes "$top"/examples/smtp_codes/*.*
    if python=$(python_of_mail); then
        at=$(port $each)
        start "$room/aiosmtpd.said" "$python" "$top/tools/wires/mail_server.py" "$at" "$room/maildir"
        listens "$at"
        count "aiosmtpd is there" $? "$room/aiosmtpd.said"
        delivers aiosmtpd "$at" "$room/maildir"
    else
        lacking "no aiosmtpd here"
    fi
    if command -v exim4 >/dev/null && command -v setpriv >/dev/null; then
        at=$(port $each)
        settings exim.conf "$at" "$room/exim"
        "${as_user[@]}" mkdir "$room/exim/mail" "$room/exim/spool"
        start "$room/exim.said" "${as_user[@]}" exim4 -C "$room/exim/conf" -bdf
        listens "$at"
        count "exim is there" $? "$room/exim.said"
        delivers exim "$at" "$room/exim/mail"
    else
        lacking "no exim here"
    fi
}

# The server of examples/smtp, to which Python's mail client delivers; and to which that of examples/smtp does, both by wires.
part_smtp_server() {
    local at way server
    by_both smtp_server "$top/examples/smtp/S.scr" "$top/examples/smtp/SMain.java"
    for way in class javac; do
        serves "$way"
        timeout 400 python3 "$top/tools/wires/mail_client.py" "$at" >"$room/said" 2>&1
        wait "$server"
        is "smtp server, $way" $? 0 "$room/err"
        says "smtp server, $way: what the client is told" "$room/said" "refused {'eve@other.example': (550, b'no such mailbox')}"
        says "smtp server, $way: what is printed" "$room/server" "hello client.example
mail from ann@client.example
| line 1
| QUIT
| .dotted
| ..
| 
| end
mails 1"
    done
    [ -d "$room/smtp/class" ] || by_mungo smtp "$top/examples/smtp/C.scr" "$top/examples/smtp/CMain.java"
    serves class
    plays "$room/smtp/class" CMain "$at" "lines:$(roomy examples/smtp/wire)" -Xverify:all
    is "both by wires: the client" $? 0 "$room/err"
    wait "$server"
    # As `mungo run`, but that the client is told the code of the reply, and not the mail's number.
    says "both by wires: what is printed" <(sed 's/^/C: /' "$room/out"; sed 's/^/S: /' "$room/server") \
        "$(grep -v instructions "$top/examples/smtp/expected" | sed 's/queued 1/queued 250/' | sort -s -t: -k1,1)"
}

# Starts the server of examples/smtp by class files of a WAY: its number comes into `server`, its port into `at`.
serves() {
    at=$(port $each)
    jvm -Dmungo.role=S -Dmungo.roles=C=127.0.0.1:"$at" -Dmungo.wire=C="lines:$(roomy examples/smtp/server_wire)" "${long[@]}" \
        -cp "$room/smtp_server/$1:$lib" SMain >"$room/server" 2>"$room/err" &
    server=$!
}

part_redis() {
    local at way
    by_both redis "$top"/examples/redis/*.*
    command -v redis-server >/dev/null || { lacking "no Redis here"; return; }
    at=$(port $each)
    start "$room/redis.said" redis-server --port "$at" --bind 127.0.0.1 --save '' --dir "$room"
    listens "$at"
    count "Redis is there" $? "$room/redis.said"
    for way in class javac; do
        plays "$room/redis/$way" CMain "$at" "lines:$(roomy examples/redis/wire)" -Xverify:all
        is "redis, $way" $? 0 "$room/err"
        says "redis, $way: what is printed" <(tr -d '\r' <"$room/out") "no absent
counter is 41
counter is 42
counter is 43
counter is 42
counter has 42
text: ERR value is not an integer or out of range
text has größer
*1
\$8
FLUSHALL

counter has 42"
        says "redis, $way: what the server has" <(redis-cli -p "$at" get counter; redis-cli -p "$at" strlen text) "42
28"
        redis-cli -p "$at" flushall >/dev/null
    done
}

part_pop3() {
    local at way n
    by_both pop3 "$top"/examples/pop3/*.*
    if ! command -v dovecot >/dev/null || ! command -v setpriv >/dev/null || [ ! -e /usr/lib/dovecot/pop3 ]; then
        lacking "no dovecot here"
        return
    fi
    at=$(port $each)
    settings dovecot.conf "$at" "$room/dove"
    "${as_user[@]}" mkdir -p "$room/dove"/{run,state,mail/new,mail/cur,mail/tmp}
    start "$room/dove.said" "${as_user[@]}" dovecot -F -c "$room/dove/conf"
    listens "$at"
    count "dovecot is there" $? "$room/dove.said"
    for way in class javac; do
        for n in 1 2; do
            printf 'Subject: mail %d\n\nline of %d\n.dotted\n' $n $n | "${as_user[@]}" tee "$room/dove/mail/new/100$n.$way.host" >/dev/null
        done
        plays "$room/pop3/$way" CMain "$at" "lines:$(roomy examples/pop3/wire)"
        is "pop3, $way" $? 0 "$room/err"
        says "pop3, $way: what is printed" "$room/out" "refused: [AUTH] Authentication failed.
2 mails of 78 bytes
Subject: mail 1

line of 1
.dotted
Subject: mail 2

line of 2
.dotted
absent: There's no message 3."
        [ -z "$(find "$room/dove/mail/new" "$room/dove/mail/cur" -type f)" ]
        count "pop3, $way: the mailbox is empty" $?
    done
}

part_http() {
    local at way version
    by_both http "$top"/examples/http/*.*
    mkdir -p "$room/www/folder"
    echo "hello, größer page" >"$room/www/hello.txt"
    : >"$room/www/empty.txt"
    for version in 1.0 1.1; do
        python3 -m http.server --help | grep -q -- --protocol || { lacking "an http.server without --protocol"; return; }
        at=$(port $each)
        start "$room/http.said" python3 -m http.server --protocol HTTP/$version --bind 127.0.0.1 --directory "$room/www" "$at"
        listens "$at"
        count "http.server $version is there" $? "$room/http.said"
        for way in class javac; do
            plays "$room/http/$way" CMain "$at" "lines:$(roomy examples/http/wire)" -Xverify:all
            is "http $version, $way" $? 0 "$room/err"
            says "http $version, $way: what is printed" "$room/out" "/hello.txt: hello, größer page

no /absent.txt
/empty.txt: 
/folder: Moved Permanently, 301
post: Unsupported method ('POST'), 501"
        done
    done
}

# The sources of the Maven project are judged, and built by javac alone, and its program delivers to aiosmtpd.
part_packages() {
    local python project=$top/examples/maven/src/main made=$room/classes
    mkdir -p "$room/source" "$made"
    "$mungo" check "$project"/mungo/*.scr "$project"/java/demo/mail/*.java >"$room/said" 2>&1
    is "packages: the sources are accepted" $? 0 "$room/said"
    "$mungo" check "$project"/mungo/*.scr "$top"/examples/maven/refused/Sure.java >"$room/said" 2>&1
    is "packages: the variant is refused" $? 1 "$room/said"
    "$mungo" translate --package demo.mail --out "$room/source" "$project"/mungo/*.scr >"$room/said" 2>&1
    is "packages: translate" $? 0 "$room/said"
    "$mungo" check "$room"/source/*.* "$project"/java/demo/mail/*.java >"$room/said" 2>&1
    is "packages: the sources are accepted with what translate wrote" $? 0 "$room/said"
    by_javac -Xlint:all -Werror -cp "$lib" -d "$made" "$room"/source/*.java "$project"/java/demo/*.java \
        "$project"/java/demo/mail/*.java >"$room/said" 2>&1
    is "packages: javac" $? 0 "$room/said"
    cp "$(roomy examples/maven/src/main/resources/mail.wire)" "$made"
    python=$(python_of_mail) || { lacking "no aiosmtpd here for the sources in a package"; return; }
    demo packages "$made:$lib" "$python"
}

# The program of the Maven project delivers to aiosmtpd: NAME CLASSPATH PYTHON.
demo() {
    local at
    at=$(port $each)
    start "$room/aiosmtpd.said" "$3" "$top/tools/wires/mail_server.py" "$at" "$room/maildir"
    listens "$at"
    count "$1: aiosmtpd is there" $? "$room/aiosmtpd.said"
    jvm "${long[@]}" -cp "$2" demo.App 127.0.0.1 "$at" >"$room/out" 2>"$room/err"
    is "$1: the program" $? 0 "$room/err"
    says "$1: what is printed" "$room/out" "queued: OK
done 0
rejected: not a mailbox here
done 550
unfit S recipient -1"
    mails "$room/maildir" "$room/mails"
    says "$1: the mail" <(sed '1,/^$/d' "$room/mails") "Hello!
.
QUIT
..dots"
}

# The Maven project is built offline with its tests, and its program run.
part_maven() {
    local python repository=/usr/share/maven-repo made=$room/maven
    if ! command -v mvn >/dev/null || [ ! -e $repository/org/codehaus/mojo/exec-maven-plugin/3.1.0 ] \
        || [ ! -e $repository/org/codehaus/mojo/build-helper-maven-plugin/3.3.0 ] \
        || [ ! -e $repository/org/apache/maven/plugins/maven-surefire-plugin ]; then
        lacking "no Maven here with Debian's plugins"
        return
    fi
    cp -rs $repository "$room/m2"
    cp -r "$top/examples/maven" "$made"
    cp "$(roomy examples/maven/src/main/resources/mail.wire)" "$made/src/main/resources"
    (cd "$made" && timeout 400 mvn -B -q -o -Dmaven.repo.local="$room/m2" -Dmungo.home="$top" \
        -Dmungo="$(command -v "$mungo")" test </dev/null >"$room/said" 2>&1)
    is "maven: mvn test" $? 0 "$room/said"
    grep -q 'tests="4"' "$made"/target/surefire-reports/*.xml
    count "maven: four tests have run" $? "$room/said"
    python=$(python_of_mail) || { lacking "no aiosmtpd here for the Maven project"; return; }
    demo maven "$made/target/classes" "$python"
}
