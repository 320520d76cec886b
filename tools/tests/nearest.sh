# A part of tools/test-tools: the nearest command, which ./mungo puts behind the line of the program where standard error is a
# terminal and the first word is no command; by pseudo-terminals of python3, where that is here.
# shellcheck shell=bash disable=SC2154

# The words that the launcher takes for commands are those that --help has and the program knows.
known=$(sed -n '/^is_command() {$/,/^}$/s/.*case $1 in \(.*\)) ;; .*/\1/p' mungo | tr -d ' ' | tr '|' '\n' | sort)
[ -n "$known" ] && [ "$known" = "$(./mungo --help | sed -n 's/^  mungo \([a-z]*\) .*/\1/p' | sort -u)" ]
count "launcher: its commands are those of --help" $?

# A launcher that runs the program that is tried.
near=$room/near
mkdir -p "$near"/{tools,release}
cp mungo "$near" && printf '#!/bin/sh\necho one\n' >"$near/tools/digest" && echo one >"$near/release/digest"
# What is tried may be the launcher itself, which then has no terminal.
printf '#!/bin/sh\n[ $# -gt 0 ] || { echo "mungo: words" >&2; exit 2; }\n"%s" "$@" 2>"%s"\nstatus=$?\ncat "%s" >&2\nexit $status\n' \
    "$MUNGO" "$near/said" "$near/said" >"$near/release/mungo"
chmod +x "$near/tools/digest" "$near/release/mungo"
cat >"$near/terminal.py" <<'END_OF_TERMINAL'
"""Runs the words with a terminal as standard error, puts on standard output what it shows, and ends with their status."""
import os, pty, subprocess, sys

shown, given = pty.openpty()
child = subprocess.Popen(sys.argv[1:], stdin=subprocess.DEVNULL, stdout=subprocess.DEVNULL, stderr=given)
os.close(given)
text = b""
while True:
    try:
        piece = os.read(shown, 4096)
    except OSError:  # the terminal's other side is closed
        break
    if not piece:
        break
    text += piece
sys.stdout.buffer.write(text.replace(b"\r\n", b"\n"))
sys.stdout.flush()
sys.exit(child.wait())
END_OF_TERMINAL

# What --help has of a command.
said_of() { ./mungo --help | awk -v command="$1" '/^  mungo /{ within = $2 == command } /^$/{ within = 0 } within'; }
# Wants behind the words W.. the line `mungo: words W`, and then what --help has of the command NEAREST, or nothing for "".
nearest_of() {
    local nearest=$1
    shift
    { echo "mungo: words $1" && { [ -z "$nearest" ] || said_of "$nearest"; }; } >"$room/near.wanted"
    gives "launcher: what is nearest to '$*'" 2 python3 "$near/terminal.py" "$near/mungo" "$@" <"$room/near.wanted"
}
if command -v python3 >/dev/null && timeout 60 python3 -c 'import pty; pty.openpty()' 2>/dev/null; then
    [ "$(said_of check | wc -l)" -eq 1 ] && [ "$(said_of run | wc -l)" -eq 4 ] && [ -z "$(said_of chek)" ]
    count "launcher: what --help has of a command" $?
    # A letter too few, too many, another, two exchanged; a front, also the nearest of several, and what begins with one.
    nearest_of check chek examples/adder/C.scr
    nearest_of verify veriify
    nearest_of load lead 1 7
    nearest_of refine refnie A B
    nearest_of translate tran
    nearest_of check c
    nearest_of run run.sh
    nearest_of run 'run --main' A.java
    # Words of the launcher itself, which stand alone.
    nearest_of --version version
    nearest_of --explain --explain
    nearest_of -h, help check
    nearest_of -h, -h check
    # Nothing is near.
    nearest_of '' Main.java
    nearest_of '' x
    nearest_of '' excute
    nearest_of '' ''
    nearest_of '' '*'
    nearest_of '' "$(printf '%070000d' 0)"
    nearest_of check "check$(printf '%070000d' 0)"
    # Of a word that follows a command nothing is said, nor of a program that does what it is to do.
    gives "launcher: wrong words behind a command, on a terminal" 2 python3 "$near/terminal.py" "$near/mungo" check --al A.java <<'TEXT'
mungo: words --al
TEXT
    gives "launcher: a command on a terminal" 0 python3 "$near/terminal.py" "$near/mungo" check examples/hello/Hello.java </dev/null
    # A program that ends otherwise than with 2 is let alone, also where it answers a word that is no command here.
    printf '#!/bin/sh\n[ $# -gt 0 ] || { echo "mungo: words" >&2; exit 2; }\necho "$@" >&2\nexit 5\n' >"$near/release/mungo"
    gives "launcher: another status on a terminal" 5 python3 "$near/terminal.py" "$near/mungo" chek 'a b' <<<'chek a b'
else
    echo "launcher: the nearest command skipped: there is no python3 with pseudo-terminals"
fi
gives "launcher: the nearest command isn't told to a file" 2 ./mungo chek examples/adder/C.scr <<'TEXT'
mungo: words chek
TEXT
