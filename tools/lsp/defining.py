"""Where methods are defined, and what protocols and typestates say of them, where the server offers it."""
import os
import re
import subprocess
import tempfile

from counting import count, same
from programs import NATIVE, Folder, copied, examples, lines_of, read
from session import SECONDS, UTF8, UTF16, Session, place, span, units

LETTERS = "/*é€\U0001f600*/ "
COMMENT = re.compile(r"//[^\n]*|/\*.*?\*/", re.S)
MESSAGE = re.compile(r"\b(\w+)\s*\(\s*(\w*)\s*\)\s*(to|from)\s+(\w+)\s*;")
CHOICE = re.compile(r"\bchoice\s+at\s+(\w+)")
STATE = re.compile(r"(\w+)\s*=\s*\{([^}]*)\}")
METHOD = re.compile(r"\w+\s+(\w+)\s*\([^)]*\)\s*:\s*(<[^>]*>|\w+)")
# What a payload adds to a call's name.
PAYLOADS = {"": "", "int": "Int", "boolean": "Boolean", "String": "String"}
CLASSES = {"java.lang.Integer": "Int", "java.lang.Boolean": "Boolean", "java.lang.String": "String"}


def bare(text):
    """A text with blanks in the place of its comments, so that all else stands where it stood."""
    return COMMENT.sub(lambda it: re.sub(r"[^\n]", " ", it[0]), text)


def span_of(text, begin, end, encoding):
    """The range of a part of a line, from a letter up to another."""
    front = lines_of(text[:begin])
    at = units(front[-1], encoding)
    return span(len(front) - 1, at, at + units(text[begin:end], encoding))


def words_of(text):
    """The messages of a local protocol, and its choices that are made elsewhere: the call of each, and where its first word stands;
    in the order of the text."""
    told = bare(text)
    aliases = {it[2]: CLASSES[it[1]] for it in re.finditer(r'type\s*<java>\s*"([^"]*)"\s*from\s*"[^"]*"\s*as\s+(\w+)', text)}
    me = re.search(r"protocol\s+\w+\s+at\s+(\w+)", told)[1]
    found = []
    for it in MESSAGE.finditer(told):
        label, payload, way, peer = it.groups()
        carried = label + {**PAYLOADS, **aliases}[payload]
        call = f"send_{carried}To{peer}" if way == "to" else f"receive_{carried}From{peer}"
        found.append((call, it.start(1), it.end(1)))
    elsewhere = [it for it in CHOICE.finditer(told) if it[1] != me]
    for number, it in enumerate(elsewhere, 1):
        found.append((f"receive_{me}Choice{number}LabelFrom{it[1]}", it.start(), it.start() + len("choice")))
    return sorted(found, key=lambda it: it[1])


def states_of(text):
    """The states of a typestate, each with its methods: names, where these stand, and where they lead, as a layout has it."""
    found, told = [], bare(text)
    for state in STATE.finditer(told):
        methods = []
        for it in METHOD.finditer(told, state.start(2), state.end(2)):
            parts = re.sub(r"\s", "", it[2]).replace(":", ": ").replace(",", ", ")
            methods.append((it[1], it.start(1), parts))
        found.append((state[1], methods))
    return found


def translated(path):
    """The typestate of a protocol, as `translate` writes it."""
    with tempfile.TemporaryDirectory(prefix="test-lsp.") as room:
        how = {"capture_output": True, "timeout": SECONDS, "check": False}
        if subprocess.run([NATIVE, "translate", "--out", room, path], **how).returncode:
            return None
        return next(read(f"{room}/{it}") for it in os.listdir(room) if it.endswith(".protocol"))


def spots_of(folder, name):
    """Over which words of a protocol or typestate something is said, and what: beginnings, ends, and the lines."""
    text = folder.files[name]
    if name.endswith(".protocol"):
        methods = [(state, *it) for state, methods in states_of(text) for it in methods]
        return [(at, at + len(method), [f"{state}: {method} -> {to}"]) for state, method, at, to in methods]
    states = states_of(translated(f"{folder.path}/{name}"))
    says = lambda call: [f"{state}: {call} -> {to}" for state, methods in states for method, _, to in methods if method == call]
    return [(begin, end, says(call)) for call, begin, end in words_of(text)]


def hovered(session, uri, at):
    """What is said over a place: the lines, and the range."""
    said = session.hover(uri, at["line"], at["character"])
    return (said["contents"]["value"].splitlines(), said["range"]) if said else None


def try_hover(session, folder, name, title):
    """What is said over each message of a protocol, or each method of a typestate."""
    text, uri, encoding = folder.files[name], folder.uri(name), session.encoding
    spots = spots_of(folder, name)
    for begin, end, lines in spots:
        around = span_of(text, begin, end, encoding)
        for at in (around["start"], around["end"]):
            same(f"{title}: hover over {text[begin:end]}", hovered(session, uri, at), (lines, around))
    return len(spots)


# What is said over some words, read off the protocols by hand.
SAID = (
    ("adder", "C.scr", "add(", ["State0: send_addIntToS -> State1"]),
    ("adder", "C.scr", "total(", ["State1: receive_totalIntFromS -> State0"]),
    ("adder", "C.scr", "bye(", ["State0: send_byeToS -> end"]),
    ("file", "FileProtocol.protocol", "open(", ["Init: open -> <OK: Open, ERROR: end>"]),
    ("file", "FileProtocol.protocol", "read(", ["Read: read -> Open"]),
    ("idle", "ConnectionProtocol.protocol", "close(", ["Idle: close -> end"]),
)


def try_said(program):
    """What is said over words of protocols and typestates, also where the program is none; and where nothing is."""
    with Session(program) as it:
        it.begin(UTF16)
        for example, name, word, lines in SAID:
            with Folder(copied(example)) as folder:
                text, uri = folder.files[name], folder.uri(name)
                it.open(uri, text, language="scribble")
                begin = text.index(word)
                around = span_of(text, begin, begin + len(word) - 1, it.encoding)
                same(f"{example}/{name}: hover over {word}", hovered(it, uri, around["start"]), (lines, around))
                it.open(folder.uri("Wrong.java"), "class {")
                same(f"{example}/{name}: hover over {word} beside a wrong file", hovered(it, uri, around["end"]), (lines, around))
                for other in ("protocol ", "choice ", "typestate ", "end ", "\n"):
                    if other in text:
                        at = span_of(text, text.index(other), text.index(other), it.encoding)["start"]
                        same(f"{example}/{name}: hover over {other.strip()}", hovered(it, uri, at), None)
                it.change(uri, 2, text.replace("{", "", 1))
                same(f"{example}/{name}: hover in what can't be read", hovered(it, uri, around["start"]), None)
                it.about("didClose", folder.uri("Wrong.java"))
                it.about("didClose", uri)


def try_hovers(program):
    """What is said over each message and each method of the examples, and behind letters of several bytes."""
    spots = 0
    with Session(program) as it:
        it.begin(UTF16)
        for title, files, _ in examples():
            with Folder(files) as folder:
                for name in folder.sources():
                    if name.endswith(".protocol") or (name.endswith(".scr") and translated(f"{folder.path}/{name}")):
                        it.open(folder.uri(name), files[name], language="scribble")
                        spots += try_hover(it, folder, name, f"{title}, {name}")
                        it.about("didClose", folder.uri(name))
    count("words are met", spots >= 100, str(spots))
    for encodings in (UTF8, UTF16):
        files = {"C.scr": re.sub(r"\b(add|total|bye)\(", LETTERS + r"\1(", copied("adder")["C.scr"])}
        files["P.protocol"] = copied("file")["FileProtocol.protocol"].replace("FileStatus ", LETTERS + "FileStatus ")
        with Folder(files) as folder, Session(program) as it:
            it.begin(encodings)
            for name in folder.sources():
                it.open(folder.uri(name), files[name], language="scribble")
                try_hover(it, folder, name, f"letters in {it.encoding}, {name}")


def defined(session, uri, at):
    """Where the method at a place is defined."""
    answer = session.request("textDocument/definition", {"textDocument": {"uri": uri}, "position": at})["result"] or []
    return [answer] if isinstance(answer, dict) else answer


def class_of(text, variable):
    """The class with which a variable or a field is declared."""
    found = re.search(rf"\b([A-Z]\w*)\s+{variable}\s*[=;,)]", bare(text))
    return found[1] if found else None


def wanted_places(folder, name, path, encoding):
    """Where the method of a call is defined: in the protocol of its role each word that the call stands for, else in its class."""
    variable, method = path.rsplit(".", 1)
    kind = class_of(folder.files[name], variable.removeprefix("this."))
    for one, text in folder.files.items():
        if one.endswith(".scr") and re.search(rf"\bprotocol\s+\w+\s+at\s+{kind.removesuffix('Role')}\b", text):
            words = [(begin, end) for call, begin, end in words_of(text) if call == method]
            return [{"uri": folder.uri(one), "range": span_of(text, *it, encoding)} for it in words]
    for one, text in folder.files.items():
        there = re.search(rf"\bclass\s+{kind}\b.*?\b({method})\s*\([^)]*\)\s*\{{", bare(text), re.S) if one.endswith(".java") else None
        if there:
            return [{"uri": folder.uri(one), "range": span_of(text, there.start(1), there.end(1), encoding)}]
    return None


def try_defined(session, folder, name, title):
    """Where the method of each call of a file is defined, from the first and from the last letter of the call's path."""
    text, uri, encoding = folder.files[name], folder.uri(name), session.encoding
    calls = folder.calls(name)
    for row, column, path, _, _ in calls:
        line = lines_of(text)[row - 1]
        begin = len(line.encode()[: column - 1].decode())
        wanted = wanted_places(folder, name, path, encoding)
        for at in (begin, begin + len(path)):
            got = defined(session, uri, place(row - 1, units(line[:at], encoding)))
            same(f"{title}: where {path} of line {row} is defined", got, wanted)
    return len(calls)


# A protocol in which a call stands for two messages.
TWICE = {
    "C.scr": """local protocol P at C(role C, role S) {
    choice at C {
        a() to S;
        done() from S;
    } or {
        b() to S;
        done() from S;
    }
}
""",
    "Main.java": """class Main {
    public static void main(String[] args) {
        CRole c = new CRole();
        c.send_aToS();
        c.receive_doneFromS();
    }
}
""",
}


def try_by_hand(program):
    """Definitions that were read off some programs by hand, and what has none."""
    with Folder(copied("adder")) as folder, Session(program) as it:
        it.begin(UTF8)
        main, text = folder.uri("CMain.java"), folder.files["CMain.java"]
        it.open(main, text)
        for path, word in (("c.send_addIntToS", "add("), ("c.receive_totalIntFromS", "total("), ("c.send_byeToS", "bye(")):
            row = next(number for number, line in enumerate(lines_of(text)) if path in line)
            begin = lines_of(text)[row].index(path)
            line = next(number for number, line in enumerate(lines_of(folder.files["C.scr"])) if word in line)
            at = lines_of(folder.files["C.scr"])[line].index(word)
            wanted = [{"uri": folder.uri("C.scr"), "range": span(line, at, at + len(word) - 1)}]
            for inside in (0, 1, 2, len(path)):
                same(f"definition of {path}", defined(it, main, place(row, begin + inside)), wanted)
        same("definition where no call is", defined(it, main, place(0, 0)), [])
        same("definition behind the text", defined(it, main, place(9999, 9)), [])
        same("definition in a protocol", defined(it, folder.uri("C.scr"), place(6, 12)), [])
        same("definition in what isn't open, nor a file", defined(it, "file:///nowhere/A.java", place(0, 0)), [])
        it.change(main, 2, text.replace("int i = 1", "int i = true"))
        same("definition in what is not well typed", defined(it, main, place(7, 14)), [])
    with Folder(TWICE) as folder, Session(program) as it:
        it.begin(UTF16)
        main = folder.uri("Main.java")
        it.open(main, folder.files["Main.java"])
        wanted = [{"uri": folder.uri("C.scr"), "range": span(line, 8, 12)} for line in (3, 6)]
        same("a call that stands for two messages", defined(it, main, place(4, 12)), wanted)
        it.open(folder.uri("C.scr"), f"// A line more.\n{TWICE['C.scr']}", language="scribble")
        wanted = [{"uri": folder.uri("C.scr"), "range": span(line, 8, 12)} for line in (4, 7)]
        same("definitions are of the texts in the editor", defined(it, main, place(4, 12)), wanted)


def try_definitions(program):
    """Where the method of each call of the examples is defined; and behind letters of several bytes, in both encodings."""
    calls = 0
    with Session(program) as it:
        it.begin(UTF16)
        for title, files, _ in examples():
            with Folder(files) as folder:
                for name in folder.sources():
                    if name.endswith(".java"):
                        it.open(folder.uri(name), files[name])
                        calls += try_defined(it, folder, name, f"{title}, {name}")
                        it.about("didClose", folder.uri(name))
    count("calls are met", calls >= 50, str(calls))
    for encodings in (UTF8, UTF16):
        adder, door = copied("adder"), copied("idle")
        files = {**adder, "Connection.java": door["Connection.java"], "ConnectionProtocol.protocol": door["ConnectionProtocol.protocol"]}
        files["C.scr"] = re.sub(r"\b(add|total|bye)\(", LETTERS + r"\1(", files["C.scr"])
        files["CMain.java"] = files["CMain.java"].replace("c.send_", f"{LETTERS}c.send_").replace(
            "int i = 1;", f"int i = 1; Connection line = new Connection(); {LETTERS}line.open();")
        files["Connection.java"] = files["Connection.java"].replace("public ", f"{LETTERS}public ")
        with Folder(files) as folder, Session(program) as it:
            it.begin(encodings)
            it.open(folder.uri("CMain.java"), files["CMain.java"])
            same(f"letters in {it.encoding}: calls", try_defined(it, folder, "CMain.java", f"letters in {it.encoding}"), 4)


def try_all(program):
    with Session(program) as it:
        offers = it.begin()
    if not offers.get("definitionProvider"):
        print("test-lsp: the server has no definitionProvider, so hovers in protocols weren't tried either")
        return
    for part in (try_said, try_hovers, try_by_hand, try_definitions):
        part(program)
