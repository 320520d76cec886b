# A part of tools/test-tools: names that a terminal or a tool would obey, devices, full disks, an end from outside, and a
# CDPATH in the environment.
# shellcheck shell=bash disable=SC2154

# explain and check: with bytes below 32 and 127 in names and in files, each line takes one line.
sturdy=$room/sturdy
mkdir "$sturdy"
odd=$sturdy/$'a\nb\x1b[31m.java'
printf 'class A {\n\tpublic static void main(String[] args) { /* \033[7m\177 */ int x; }\n}\n' >"$odd"
gives "check, a name and a text that a terminal would obey" 1 tools/check "$odd" <<TEXT
$sturdy/a\\x0ab\\x1b[31m.java:2:60: Syntax
    2 | 	public static void main(String[] args) { /* \\x1b[7m\\x7f */ int x; }
      | 	                                                                ^ a local is declared with its value: int x = ..;
TEXT
gives "check, an unread file with an odd name" 3 tools/check "$sturdy/"$'no\ne.java' <<TEXT
mungo: read $sturdy/no\\x0ae.java
TEXT
cp "$room/Helper.java" "$sturdy/"$'\nH.java'
gives "check, a class without a typestate in a file with an odd name" 1 tools/check "$room/Main.java" "$sturdy/"$'\nH.java' <<TEXT
$room/Main.java:3:16: UnknownClass Helper
    3 |         Helper h = null;
      |                ^ no file of the command has a class Helper with a typestate, or an enum Helper (was a file left out?)
      $sturdy/\\x0aH.java has the class Helper without a typestate: it has static methods alone, and no objects
TEXT
printf 'mungo: NoMain a\tb\rc\001\177\n' >"$room/lines"
gives "explain, a name that a terminal would obey" 0 sh -c "tools/explain <'$room/lines'" <<'TEXT'
mungo: NoMain a\x09b\x0dc\x01\x7f
      | the program has no class a\x09b\x0dc\x01\x7f with a static void main(String[] args)
TEXT

# Names that awk takes for an assignment, and the shell for several words.
cp examples/file/FileProtocol.protocol "$sturdy/x=y.protocol"
cp examples/file/refused/Forgetful.java "$sturdy/b=it's \$(here).java"
gives "check, names that a tool would obey" 1 env -C "$sturdy" "$top/tools/check" x=y.protocol "b=it's \$(here).java" \
    "$top/examples/file/File.java" <<'TEXT'
b=it's $(here).java:20:5: LeftOpen f Close
   20 |     }
      |     ^ the object of f may be in Close here, and is dropped before it is finished
      Close of FileProtocol offers: close()
      Close comes from f.hasNext() in line 8
TEXT
env -C "$sturdy" "$top/tools/draw" x=y.protocol >"$room/got" && tools/draw examples/file/FileProtocol.protocol | diff - "$room/got"
count "draw, a name that awk would obey" $?

# A device without an end.
ln -s /dev/zero "$sturdy/Zero.java"
gives "check, a link to a device" 1 tools/check "$sturdy/Zero.java" <<TEXT
$sturdy/Zero.java:1:1: TooLarge
    1 | 
      | ^ the file has over 1,048,576 bytes, or a typestate over 1,000 states
TEXT
gives "explain, a link to a device" 0 sh -c "echo '$sturdy/Zero.java:2:1: Syntax' | tools/explain" <<TEXT
$sturdy/Zero.java:2:1: Syntax
    2 | 
      | ^ the text does not follow the grammar
TEXT

# What the script ./mungo tells, on a disk that is full.
if [ -c /dev/full ]; then
    for words in -h --help help --version '--explain LeftOpen'; do
        # shellcheck disable=SC2086
        "$launch/mungo" $words >/dev/full 2>/dev/null
        [ $? -eq 4 ]
        count "launcher: $words on a full disk" $?
    done
    "$launch/mungo" --explain LeftClosed >/dev/full 2>/dev/null
    [ $? -eq 2 ]
    count "launcher: --explain of no fault on a full disk" $?
fi

# Files that may not grow, behind a script ./mungo that runs this program.
small=$sturdy/small
mkdir -p "$small"/{tools,release,out}
cp mungo "$small"
printf '#!/bin/sh\necho one\n' >"$small/tools/digest"
echo one >"$small/release/digest"
printf '#!/bin/sh\n[ $# -gt 0 ] || { echo "mungo: words" >&2; exit 2; }\nexec "%s" "$@"\n' "$MUNGO" >"$small/release/mungo"
chmod +x "$small/tools/digest" "$small/release/mungo"
(ulimit -f 0 && exec "$small/mungo" translate --out "$small/out" examples/adder/C.scr) 2>/dev/null
[ $? -eq 4 ]
count "launcher: files that may not grow" $?

# Scripts that go to a folder don't take another of CDPATH, and say nothing of it.
for script in mungo .ci/run tools/* tools/page/lower; do
    if [ -f "$script" ] && grep -qE '(^|[ (&;])cd ["$]' "$script"; then
        [ "$(grep -nE '(^|[ (&;])cd ["$]|^unset CDPATH$' "$script" | head -n 1 | cut -d: -f2)" = 'unset CDPATH' ]
        count "$script: CDPATH is unset first" $?
    fi
done
mkdir -p "$sturdy/other/launch" "$sturdy/other/tools"
said=$(cd "$launch" && CDPATH=$sturdy/other tools/digest)
[ "$said" = "$("$launch/tools/digest")" ]
count "digest: a CDPATH" $?
said=$(cd "$room" && CDPATH=$sturdy/other PATH=$launch/bin:$PATH launch/mungo a 'b c' 2>&1)
[ "$said" = "$(PATH=$launch/bin:$PATH "$launch/mungo" a 'b c')" ] && [ -n "$said" ]
count "launcher: a CDPATH" $?

# A script ./mungo that is ended leaves no folder; one that is killed does, which a later one takes away after an hour.
ended=$sturdy/ended
mkdir -p "$ended/tools" "$ended/.build/launch."{before,lately}
cp mungo "$ended"
printf '#!/bin/sh\nuntil [ -e %s/go ]; do sleep 0.1; done\nexit 1\n' "$ended" >"$ended/tools/digest"
chmod +x "$ended/tools/digest"
touch -d '2 hours ago' "$ended/.build/launch.before"
left() { find "$ended/.build" -mindepth 1 -name 'launch.*' ! -name launch.lately; }
# Ends the script by a signal once it has a folder.
end_by() {
    local try
    "$ended/mungo" check A.java >/dev/null 2>&1 </dev/null &
    for try in $(seq 600); do
        [ "$(left | grep -vc before)" -eq 0 ] || break
        sleep 0.1
    done
    [ -n "$(left | grep -v before)" ]
    count "launcher: a folder before SIG$1" $?
    kill "-$1" $!
    wait $! 2>/dev/null
}
end_by TERM
[ -z "$(left)" ]
count "launcher: SIGTERM leaves no folder, nor what stood there for two hours" $?
end_by KILL
left | xargs touch -d '2 hours ago'
touch "$ended/go"
"$ended/mungo" check A.java >/dev/null 2>&1 </dev/null
[ -z "$(left)" ] && [ -d "$ended/.build/launch.lately" ]
count "launcher: what SIGKILL left goes later" $?

# Files of output replace those of their names, and links are followed. Of a role with too long a name no file can be written.
out=$sturdy/out
mkdir "$out"
writes() {
    local name=$1 file=$2
    shift 2
    ln -sf "$sturdy/behind" "$out/$file"
    echo old >"$sturdy/behind"
    "$MUNGO" "$@" >/dev/null 2>&1
    [ -L "$out/$file" ] && [ -s "$sturdy/behind" ] && [ "$(head -c 3 "$sturdy/behind")" != old ]
    count "$name follows a link" $?
}
adder=(examples/adder/C.scr examples/adder/S.scr examples/adder/CMain.java examples/adder/SMain.java)
writes translate CRole.java translate --out "$out" examples/adder/C.scr
writes project S.scr project --out "$out" examples/global_adder/global/Adder.scr
writes compile CMain.class compile --out "$out" "${adder[@]}"
writes "run --out" SMain.class run --out "$out" --role C=CMain --role S=SMain "${adder[@]}"
# Wants that a command writes for a role of so many bytes, and not for a longer one: NAME BYTES WORDS..
longest() {
    local name=$1 size=$2 role status=0
    shift 2
    for more in 0 1; do
        role=$(printf "%$((size + more))s" '' | tr ' ' R)
        echo "local protocol P at $role(role $role, role S) { hi() to S; }" >"$sturdy/P.scr"
        echo "global protocol P(role $role, role S) { hi() from $role to S; }" >"$sturdy/G.scr"
        echo "class M { public static void main(String[] a) { ${role}Role r = new ${role}Role(); r.send_hiToS(); } }" >"$sturdy/M.java"
        rm -rf "$out" && mkdir "$out"
        "$MUNGO" "$@" >/dev/null 2>&1
        status=$status$?
    done
    [[ $status =~ ^0[^4]4$ ]]
    count "$name: a role of $size bytes has its files, and none of more" $?
}
longest translate 238 translate --out "$out" "$sturdy/P.scr"
longest compile 245 compile --out "$out" "$sturdy/P.scr" "$sturdy/M.java"
longest "run --out" 245 run --out "$out" --main M "$sturdy/P.scr" "$sturdy/M.java"
longest project 251 project --out "$out" "$sturdy/G.scr"
# A check that is stopped by timeout leaves no folder.
mkdir -p "$sturdy/stopped"
printf '#!/bin/sh\nsleep 60\n' >"$sturdy/slow"
chmod +x "$sturdy/slow"
MUNGO=$sturdy/slow TMPDIR=$sturdy/stopped timeout 1 tools/check examples/adder/C.scr >/dev/null 2>&1
status=$?
rmdir "$sturdy/stopped" && [ "$status" -eq 124 ]
count "tools/check that is stopped leaves no folder" $?
