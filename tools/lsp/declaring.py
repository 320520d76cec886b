"""What a document declares, and diagrams, each where the server offers it."""
import os
import subprocess

from counting import count, same
from programs import NATIVE, TOP, Folder, copied, examples, part_of
from session import SECONDS, UTF8, UTF16, Session

PROTOCOL, CLASS, METHOD, FIELD, ENUM, STATE = 11, 5, 6, 8, 10, 22
# What some documents declare, read off them by hand: names, kinds, and in what each is declared.
DECLARED = {
    ("adder", "C.scr"): [("Adder", PROTOCOL, None)],
    ("session", "C.scr"): [("Login", PROTOCOL, None), ("Session", PROTOCOL, None)],
    ("adder", "CMain.java"): [("CMain", CLASS, None), ("main", METHOD, "CMain")],
    ("file", "FileProtocol.protocol"): [
        ("FileProtocol", PROTOCOL, None),
        ("Init", STATE, "FileProtocol"),
        ("open", METHOD, "Init"),
        ("Open", STATE, "FileProtocol"),
        ("hasNext", METHOD, "Open"),
        ("Read", STATE, "FileProtocol"),
        ("read", METHOD, "Read"),
        ("Close", STATE, "FileProtocol"),
        ("close", METHOD, "Close"),
    ],
    ("idle", "ConnectionProtocol.protocol"): [
        ("ConnectionProtocol", PROTOCOL, None),
        ("Closed", STATE, "ConnectionProtocol"),
        ("open", METHOD, "Closed"),
        ("Idle", STATE, "ConnectionProtocol"),
        ("use", METHOD, "Idle"),
        ("close", METHOD, "Idle"),
        ("Busy", STATE, "ConnectionProtocol"),
        ("done", METHOD, "Busy"),
    ],
    ("file", "File.java"): [
        ("FileStatus", ENUM, None),
        ("BooleanEnum", ENUM, None),
        ("File", CLASS, None),
        ("left", FIELD, "File"),
        *((name, METHOD, "File") for name in ("open", "hasNext", "read", "close")),
    ],
}


def symbols(session, uri):
    return session.request("textDocument/documentSymbol", {"textDocument": {"uri": uri}})["result"] or []


def try_names(session, title, folder, name):
    """Each name that a document declares stands in its range."""
    told = [(one["name"], one["location"]) for one in symbols(session, folder.uri(name))]
    named = [(part_of(folder.files[name], where["range"], session.encoding), folder.uri(name)) for _, where in told]
    same(f"{title}, {name}: names in their ranges", named, [(one, where["uri"]) for one, where in told])
    return len(told)


def try_symbols(program):
    """What documents declare, and that each name stands in its range."""
    with Session(program) as it:
        it.begin(UTF16)
        for (example, name), wanted in DECLARED.items():
            with Folder(copied(example)) as folder:
                it.open(folder.uri(name), folder.files[name])
                got = [(one["name"], one["kind"], one.get("containerName")) for one in symbols(it, folder.uri(name))]
                same(f"{example}/{name}: what it declares", got, wanted)
                it.change(folder.uri(name), 2, "{")
                same(f"{example}/{name}: what can't be read declares nothing", symbols(it, folder.uri(name)), [])
                it.about("didClose", folder.uri(name))
        for title, files, _ in examples():
            with Folder(files) as folder:
                for name in folder.sources():
                    it.open(folder.uri(name), files[name])
                    try_names(it, title, folder, name)
                    it.about("didClose", folder.uri(name))
        same("symbols of what isn't open, nor a file", symbols(it, "file:///nowhere/A.java"), [])


def try_letters(program):
    """Names behind letters of several bytes, in both encodings."""
    files = copied("file")
    for name, words in (("FileProtocol.protocol", ("FileStatus open", "Read =")), ("File.java", ("public void", "int left"))):
        for word in words:
            files[name] = files[name].replace(word, f"/*é€\U0001f600*/ {word}")
    for encodings in (UTF8, UTF16):
        with Folder(files) as folder, Session(program) as it:
            it.begin(encodings)
            for name in ("FileProtocol.protocol", "File.java"):
                it.open(folder.uri(name), files[name])
                wanted = len(DECLARED["file", name])
                same(f"letters in {it.encoding}, {name}: symbols", try_names(it, f"letters in {it.encoding}", folder, name), wanted)


def drawn(path):
    """What tools/draw puts of a file, where it draws it."""
    how = {"capture_output": True, "text": True, "timeout": SECONDS, "check": False, "env": {**os.environ, "MUNGO": NATIVE}}
    ran = subprocess.run([f"{TOP}/tools/draw", path], **how)
    return ran.stdout if ran.returncode == 0 else None


def diagram(session, uri):
    return session.request("workspace/executeCommand", {"command": "mungo.diagram", "arguments": [uri]}).get("result")


def try_diagrams(program):
    """The diagram of each protocol and typestate of the examples is what tools/draw puts."""
    with Session(program) as it:
        it.begin(UTF16)
        for title, files, _ in examples():
            with Folder(files) as folder:
                for name in folder.sources():
                    it.open(folder.uri(name), files[name])
                    wanted = None if name.endswith(".java") else drawn(f"{folder.path}/{name}")
                    same(f"{title}, {name}: its diagram", diagram(it, folder.uri(name)), wanted)
                    it.about("didClose", folder.uri(name))
        with Folder(copied("idle")) as folder:
            name = "ConnectionProtocol.protocol"
            it.open(folder.uri(name), folder.files[name].replace("Busy = {", "Busy = {\n        void stop(): end,"))
            count("a diagram is of the text in the editor", "    Busy --> [*] : stop()\n" in (diagram(it, folder.uri(name)) or ""))
            it.change(folder.uri(name), 2, "typestate {")
            same("the diagram of what can't be read", diagram(it, folder.uri(name)), None)
        count("another command is refused", "error" in it.request("workspace/executeCommand", {"command": "mungo.none"}))


def try_all(program):
    with Session(program) as it:
        offers = it.begin()
    parts = {"documentSymbolProvider": (try_symbols, try_letters), "executeCommandProvider": (try_diagrams,)}
    for name, some in parts.items():
        if offers.get(name):
            for part in some:
                part(program)
        else:
            print(f"test-lsp: the server has no {name}")
