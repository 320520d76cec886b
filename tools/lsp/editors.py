"""Neovim, Emacs and VS Code's client, each with the settings of `editors/`: a fault comes and goes, and hover tells the state."""
import importlib
import json
import os
import re
import shutil
import subprocess
import sys
import xml.dom.minidom

from counting import count, same
from programs import TOP, Folder, copied, lines_of, read
from session import Session

EDITORS, HERE, SECONDS = f"{TOP}/editors", f"{TOP}/tools/lsp", 900
HOVER = "c.send_byeToS State0 -> end"


def drive(program, name, words, **more):
    """Runs an editor over the adder's client: the lines that it writes of what it saw, as a map; None where it isn't there."""
    if not shutil.which(words[0]):
        print(f"test-lsp: no {words[0]} here, so {name} wasn't tried")
        return None
    # Each editor spells these names in its own way.
    files = copied("adder")
    files["C Mäin.java"] = files.pop("CMain.java")
    with Folder({}) as home, Folder(files, name="ein Ordner ä") as folder:
        saw = f"{home.path}/saw"
        around = {**os.environ, "HOME": home.path, "XDG_CONFIG_HOME": f"{home.path}/config", "XDG_DATA_HOME": f"{home.path}/data"}
        around |= {"XDG_STATE_HOME": f"{home.path}/state", "XDG_CACHE_HOME": f"{home.path}/cache", "XDG_RUNTIME_DIR": home.path}
        around |= {"SAW": saw, "MUNGO_LSP": program, "MUNGO_EDITORS": EDITORS, "FILE": f"{folder.path}/C Mäin.java", **more}
        try:
            how = {"stdin": subprocess.DEVNULL, "capture_output": True, "timeout": SECONDS, "check": False}
            ran = subprocess.run(words, env=around, cwd=folder.path, **how)
        except subprocess.TimeoutExpired:
            count(f"{name} ends", False)
            return {}
        lines = open(saw, encoding="utf-8").read().splitlines() if os.path.exists(saw) else []
        same(f"{name}: its status", ran.returncode, 0)
        count(f"{name} tells what it saw", len(lines) > 0, (ran.stdout + ran.stderr)[-500:].decode(errors="replace"))
        return {line.split(": ", 1)[0]: line.split(": ", 1)[-1] for line in lines}


def try_seen(name, seen):
    """What each editor has to have seen."""
    text = copied("adder")["CMain.java"]
    first = next(number for number, line in enumerate(lines_of(text), 1) if "receive_" in line)
    same(f"{name} starts the server", seen.get("managed"), "yes")
    count(f"{name}: no fault at first", seen.get("at first") in ("", "nil"), str(seen))
    told = [(int(line), code) for line, code in re.findall(r"(\d+)[ .]+([A-Z]\w+)", seen.get("without it", ""))]
    count(f"{name}: a fault comes", ("NotOffered" in [code for _, code in told]) and all(line >= first - 1 for line, _ in told), str(seen))
    same(f"{name}: it goes", seen.get("with it again"), "nothing")
    same(f"{name}: hover", seen.get("hover"), HOVER)
    count(f"{name}: nothing else went wrong", "fault" not in seen, seen.get("fault", ""))


def offered_by(program):
    """The server's capabilities."""
    with Session(program) as it:
        return it.begin()


# What each editor has to see of the adder's client and its protocol, by what the server offers.
OFFERED = {
    "documentSymbolProvider": {"outline": ("CMain, main", "[Class] CMain, [Method] main", "4 CMain, 5 main")},
    "completionProvider": {"complete": ("send_addIntToS, send_byeToS",)},
    "definitionProvider": {"define": ("C.scr 11", "C.scr 11 bye"), "hover in a protocol": ("State0: send_byeToS -> end",)},
    "executeCommandProvider": {"diagram": ("yes", "```mermaid stateDiagram-v2")},
}


def try_offered(program, name, seen):
    """What the editor shows of what the server offers besides; nothing of what it doesn't."""
    offers = offered_by(program)
    for offer, things in OFFERED.items():
        for thing, wanted in things.items():
            got = seen.get(thing, "")
            if offers.get(offer):
                count(f"{name}: {thing}", got in wanted, f"got {got!r}, wanted one of {wanted}")
            else:
                count(f"{name}: no {thing}", got in ("", "none"), got)


def try_neovim(program):
    """Neovim without a screen, with `editors/neovim` on its runtime path, as docs/EDITORS.md has it."""
    words = ["nvim", "--headless", "-u", "NONE", "-i", "NONE", "-n"]
    words += ["--cmd", f"set runtimepath^={EDITORS}/vim,{EDITORS}/neovim", "--cmd", f"let g:mungo_lsp = '{program}'"]
    words += ["-c", "runtime! plugin/mungo.lua ftdetect/mungo.vim", "-c", "filetype on", "-c", f"luafile {HERE}/nvim.lua"]
    draws = {"DRAWS": "yes"} if offered_by(program).get("executeCommandProvider") else {}
    seen = drive(program, "Neovim", words, **draws)
    if seen is not None:
        try_seen("Neovim", seen)
        try_offered(program, "Neovim", seen)
        same("Neovim: what completes", seen.get("omnifunc", "v:lua.vim.lsp.omnifunc"), "v:lua.vim.lsp.omnifunc")


def try_emacs(program):
    """Emacs in a batch, where it has eglot."""
    if shutil.which("emacs"):
        words = ["emacs", "--batch", "--eval", "(kill-emacs (if (require 'eglot nil t) 0 1))"]
        if subprocess.run(words, stdin=subprocess.DEVNULL, capture_output=True, timeout=SECONDS, check=False).returncode:
            print("test-lsp: Emacs has no eglot here, so it wasn't tried")
            return
    seen = drive(program, "Emacs", ["emacs", "--batch", "-l", f"{HERE}/emacs.el"])
    if seen is not None:
        try_seen("Emacs", seen)
        try_offered(program, "Emacs", seen)


def try_code(program):
    """The extension of VS Code by node, with a stand-in for what VS Code gives to it."""
    seen = drive(program, "VS Code's client", ["node", f"{HERE}/code.js"])
    if seen is not None:
        try_seen("VS Code's client", seen)
        count("VS Code's client: hints", int(seen.get("hints", "0")) == 3, str(seen))
        again = "mungo-lsp: it ended with SIGKILL, and is started again."
        same("VS Code's client: a server that is killed is started again", seen.get("behind a kill"), f"true 2 {again}")
        given_up = "mungo-lsp: it ended with SIGKILL. It was started again 5 times in three minutes, and now it isn't, until a file is opened."
        given_up += " The setting mungo.server names the program."
        same("VS Code's client: five times", seen.get("behind six kills"), f"'' 6 6 {given_up}")
        same("VS Code's client: a file that is opened starts it", seen.get("behind a file that is opened"), "true 7")
        same("VS Code's client: a server that is stopped isn't started again", seen.get("stopped"), "true 0")
        same("VS Code's client: a server that isn't there is told, and isn't started again", seen.get("no server"), "1 1 1")
        try_offered(program, "VS Code's client", seen)


def words_in(text, pattern):
    """The words of the lists that a pattern finds in the colours of an editor, of each list a set."""
    return {frozenset(re.findall(r"[A-Za-z]+", it)) for it in re.findall(pattern, text)}


def try_settings(_):
    """The settings of the other editors can be read, start the server for its three languages, and have the same words in colours."""
    held = json.loads(read(f"{EDITORS}/kate/lspclient.json"))["servers"]
    named = sorted(it["highlightingModeRegex"] for it in held.values())
    same("Kate's settings", (named, held["scribble"]["command"]), (["^Java$", "^Scribble$", "^Typestate$"], ["mungo-lsp"]))
    held = json.loads(read(f"{EDITORS}/sublime/LSP.sublime-settings"))["clients"]["mungo"]
    same("Sublime's settings", (held["command"], held["selector"].count("source.")), (["mungo-lsp"], 3))
    if sys.version_info >= (3, 11):
        held = importlib.import_module("tomllib").loads(read(f"{EDITORS}/helix/languages.toml"))
        named = [it["name"] for it in held["language"] if "mungo" in it["language-servers"]]
        same("Helix's settings", (named, held["language-server"]["mungo"]["command"]), (["scribble", "typestate", "java"], "mungo-lsp"))
    else:
        print("test-lsp: this Python reads no TOML, so Helix's settings weren't read")
    for name in ("scribble", "typestate"):
        vim = words_in(read(f"{EDITORS}/vim/syntax/{name}.vim"), r"(?m)^syntax keyword \w+ (.*)$")
        code = words_in(json.dumps(json.loads(read(f"{EDITORS}/vscode/syntaxes/{name}.json"))).replace("\\b", ""), r'"\\*\(([a-zA-Z|]+)\)')
        sublime = words_in(read(f"{EDITORS}/sublime/{name.capitalize()}.sublime-syntax"), r"(?m)^ *- match: \\b\(([a-zA-Z|]+)\)\\b$")
        lists = xml.dom.minidom.parse(f"{EDITORS}/kate/{name}.xml").getElementsByTagName("list")
        kate = {frozenset(one.firstChild.data for one in it.getElementsByTagName("item")) for it in lists}
        same(f"words in colours: {name} in VS Code and Sublime Text", sublime, code)
        same(f"words in colours: {name} in vim and Kate", {it - {"drop"} for it in kate}, vim)


def try_all(program):
    for part in (try_settings, try_neovim, try_emacs, try_code):
        part(program)
