"""The script ./mungo-lsp, in a repository of its own with programs that put a word and take what they are given."""
import os
import shutil
import subprocess
import tempfile

from counting import same
from programs import TOP
from session import SECONDS

ENDING = "mungo-lsp: no program here is of the sources that stand here: mungo-lsp --build proves and builds one\n"
# It puts its word and what it is given; without input it ends as the server does.
PROGRAM = '#!/bin/sh\ngiven=$(cat)\n[ -n "$given" ] || exit 1\necho "WORD $# $given"\n'
# A command `rt` that builds a program.
RT = '#!/bin/sh\n[ "$1" != run ] || { mkdir -p out && cp "$(dirname "$0")/made" out/mungo_lsp; }\n'


def write(path, text, mode=0o644):
    os.makedirs(os.path.dirname(path), exist_ok=True)
    with open(path, "w", encoding="utf-8") as file:
        file.write(text)
    os.chmod(path, mode)


def launched(script, *words):
    """The status of the launcher, and what it puts."""
    path = f"{os.path.dirname(os.path.realpath(script))}/bin:{os.environ['PATH']}"
    how = {"capture_output": True, "text": True, "timeout": SECONDS, "check": False, "env": {**os.environ, "PATH": path}}
    ran = subprocess.run([script, *words], input="some bytes", **how)
    return ran.returncode, ran.stdout, ran.stderr


def try_launcher(top):
    """The shipped program where it is of the sources, else the one that was built, else none."""
    shipped, built, none = (0, "shipped 0 some bytes\n", ""), (0, "built 0 some bytes\n", ""), (70, "", ENDING)
    same("launcher: before there is a program", launched(f"{top}/mungo-lsp"), none)
    write(f"{top}/shipped", PROGRAM.replace("WORD", "shipped"), 0o755)
    subprocess.run([f"{top}/tools/lsp/release", f"{top}/shipped"], check=True)
    same("launcher: what is shipped", launched(f"{top}/mungo-lsp"), shipped)
    same("launcher: the word that some editors give", launched(f"{top}/mungo-lsp", "--stdio"), shipped)
    os.makedirs(f"{top}/elsewhere")
    os.symlink(f"{top}/mungo-lsp", f"{top}/elsewhere/mungo-lsp")
    same("launcher: over a link", launched(f"{top}/elsewhere/mungo-lsp"), shipped)
    write(f"{top}/crates/low/src/lib.rt", "two")
    same("launcher: an edit of the sources", launched(f"{top}/mungo-lsp"), none)
    same("launcher: --build", launched(f"{top}/mungo-lsp", "--build")[0], 0)
    same("launcher: what was built", launched(f"{top}/mungo-lsp"), built)
    write(f"{top}/crates/mungo_lsp/out/mungo_lsp", PROGRAM.replace("WORD", "other"), 0o755)
    same("launcher: another program in its place", launched(f"{top}/mungo-lsp"), none)
    write(f"{top}/crates/low/src/lib.rt", "one")
    same("launcher: the sources as they were", launched(f"{top}/mungo-lsp"), shipped)
    same("launcher: --version", launched(f"{top}/mungo-lsp", "--version")[:2], (0, "mungo-lsp 1.2.3\n"))
    same("launcher: other words", launched(f"{top}/mungo-lsp", "--port", "7")[:2], (2, ""))


def try_all(_):
    with tempfile.TemporaryDirectory(prefix="test-lsp.") as room:
        top = os.path.realpath(room)
        os.makedirs(f"{top}/tools/lsp")
        for name in ("mungo-lsp", "tools/digest", "tools/lsp/release"):
            shutil.copy(f"{TOP}/{name}", f"{top}/{name}")
        write(f"{top}/crates.txt", "low:\nmungo_lsp: low\n")
        write(f"{top}/crates/low/src/lib.rt", "one")
        write(f"{top}/crates/mungo_lsp/src/main.rt", "one")
        write(f"{top}/release/version", "1.2.3\n")
        write(f"{top}/bin/made", PROGRAM.replace("WORD", "built"), 0o755)
        write(f"{top}/bin/rt", RT, 0o755)
        try_launcher(top)
