# A part of tools/test-tools: the tokens that mungo reads of Java sources are those of javac, on the examples and on sources
# that are changed at random. tools/tests/tokens/Tokens.java says what is held.
# shellcheck shell=bash disable=SC2154

# Whether there is a javac of at least this version.
has_javac() {
    local version
    command -v java >/dev/null && command -v javac >/dev/null || return 1
    version=$(javac -version 2>&1 | sed -n 's/^javac \([0-9]*\).*/\1/p')
    [ "${version:-0}" -ge "$1" ]
}
# Holds the tokens of PROGRAM to those of javac, on the examples and COUNT changed sources.
tokens() { timeout 300 java "${inside[@]}" -cp "$room/tokens" Tokens "$1" examples "$room/sources" "$2" 1 >"$room/got" 2>&1; }

if has_javac 17; then
    inside=()
    for part in file parser util; do
        inside+=(--add-exports "jdk.compiler/com.sun.tools.javac.$part=ALL-UNNAMED")
    done
    mkdir "$room/tokens" "$room/sources"
    javac "${inside[@]}" -encoding UTF-8 -d "$room/tokens" tools/tests/tokens/*.java
    count "tokens: javac takes the test" $?
    # The script ./mungo would take most of the time; it notes which program it runs.
    program=$MUNGO
    if [ "$(head -c 2 "$MUNGO")" = '#!' ] && [ -f "${MUNGO%/*}/.build/launch/program" ]; then
        program=${MUNGO%/*}/$(head -n 1 "${MUNGO%/*}/.build/launch/program")
    fi
    tokens "$program" 2000
    status=$?
    [ $status -eq 0 ] || cat "$room/got"
    count "tokens: those of javac" $status
    # A program for which a carriage return ends no comment, and one that passes over escapes of Unicode there.
    for blind in "tr '\\r' ' '" "sed 's/\\\\u/\\\\U/g'"; do
        printf '#!/bin/sh\n%s <"$4" >"$4.seen"\nmv "$4.seen" "$4"\nexec "%s" "$@"\n' "$blind" "$program" >"$room/blind"
        chmod +x "$room/blind"
        ! tokens "$room/blind" 60 && grep -q "^FAILED change" "$room/got"
        count "tokens: others are seen ($blind)" $?
    done
else
    echo "test-tools: no JDK of 17 or later here, so that tokens aren't held to javac's"
fi
