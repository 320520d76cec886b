"""Completion behind a dot, where the server offers it: the methods that the states of the object offer there."""
from counting import count, same
from programs import Folder, copied, lines_of
from session import UTF8, UTF16, Session, place, units

MARK = "not always"
LETTERS = "/*é€\U0001f600*/ "

# What stands in the place of `c.send_byeToS();` behind the loop of the adder's client, where its object is in State0: the cursor
# is at the bar.
TYPED = ("c.|", "c.|;", "c.se|", "c.se|;", "c.|send_byeToS();", "c.se|nd_byeToS();", "c.send_byeToS|", "c.send_byeToS|();")
OFFERED = [("send_addIntToS", "void send_addIntToS(int)", None), ("send_byeToS", "void send_byeToS()", None)]
TAKEN = [("receive_totalIntFromS", "int receive_totalIntFromS()", None)]

# A typestate whose methods have parameters and results, a class of it, and a program that has an object of it in two states, one
# that may be null, and one whose variable gave it away.
DOOR = {
    "DoorProtocol.protocol": """typestate DoorProtocol {
    Shut = {
        boolean isLocked(int, String): Shut,
        void open(): Open,
        void lock(): end
    }
    Open = {
        boolean isLocked(int, String): Open,
        void close(): Shut,
        Door swap(Door): Open
    }
}
""",
    "Door.java": """@Typestate("DoorProtocol")
class Door {
    public boolean isLocked(int tries, String key) { return tries > 3; }
    public void open() { System.out.println("open"); }
    public void close() { System.out.println("shut"); }
    public void lock() { System.out.println("locked"); }
    public Door swap(Door d) { return d; }
}
""",
    "Main.java": """class Main {
    public static void main(String[] args) {
        int i = 0;
        Door shut = new Door();
        Door door = new Door();
        Door maybe = null;
        if (i > 0) {
            door.open();
            maybe = new Door();
        }
        Door given = new Door();
        Door taken = given;
        ..
    }
}
""",
}
IS_LOCKED = "boolean isLocked(int, String)"
# What Shut offers, what Open does, and what both do: first what each of them offers, then what only one does.
SHUT = [("isLocked", IS_LOCKED, None), ("lock", "void lock()", None), ("open", "void open()", None)]
OPEN = [("close", "void close()", None), ("isLocked", IS_LOCKED, None), ("swap", "Door swap(Door)", None)]
BOTH = [
    ("isLocked", IS_LOCKED, None),
    ("close", "void close()", MARK),
    ("lock", "void lock()", MARK),
    ("open", "void open()", MARK),
    ("swap", "Door swap(Door)", MARK),
]
# An object that may be null offers nothing there.
SHUT_OR_NULL = [(name, signature, MARK) for name, signature, _ in SHUT]
# What stands in the place of the dots, with the cursor at the bar; and what is offered there.
ROWS = (
    ("a statement, in one state", "shut.|", SHUT),
    ("a statement, in two states", "door.|", BOTH),
    ("a part of a name", "door.isL|;", BOTH),
    ("another name that stands there", "shut.op|en();", SHUT),
    ("arguments that stand there", 'shut.is|Locked((1 + 2), "key");', SHUT),
    ("a condition", "if (door.|) { }", BOTH),
    ("a part of a name in a condition", "if (door.isL|) { i = 1; }", BOTH),
    ("a call in a condition", 'while (!door.is|Locked(i, "key")) { i++; }', BOTH),
    ("a condition of two", 'if (i > 1 && door.|isLocked(i, "key")) { i = 1; }', BOTH),
    ("a value", "boolean is = door.|;", BOTH),
    ("an argument", "System.out.println(door.|);", BOTH),
    ("behind other statements", "shut.open(); shut.|", OPEN),
    ("what may be null", "maybe.|", SHUT_OR_NULL),
    ("what may be null, in a test of it", "if (maybe != null) { maybe.| }", SHUT),
    ("what was given away", "given.|", []),
    ("what was taken", "taken.|", SHUT),
    ("what is no object", "i.|", []),
    ("what isn't there", "none.|", []),
    ("behind no dot", "door|", []),
    ("in a comment", "// door.|", []),
    ("in a text", 'System.out.println("door.|");', []),
    ("behind a number", "i = 1.|;", []),
)


def asked(session, uri, row, column):
    """What may be put at a place, as the server has it."""
    context = {"triggerKind": 2, "triggerCharacter": "."}
    params = {"textDocument": {"uri": uri}, "position": place(row, column), "context": context}
    answer = session.request("textDocument/completion", params)["result"] or []
    return answer["items"] if isinstance(answer, dict) else answer


def in_order(items):
    """Names, signatures and marks, in the order in which editors show them."""
    items = sorted(items, key=lambda it: it.get("sortText", it["label"]))
    return [(it["label"], it.get("detail"), it.get("labelDetails", {}).get("description")) for it in items]


class Typing:
    """A document of a session in which lines are typed, each in the place of one of its own."""

    def __init__(self, session, folder, name):
        self.session, self.uri, self.lines, self.version = session, folder.uri(name), lines_of(folder.files[name]), 1
        session.open(self.uri, folder.files[name])

    def offered(self, row, typed):
        """What is offered where a line has these words, at the bar."""
        front, behind = typed.split("|")
        indent = " " * 8
        self.version += 1
        lines = [*self.lines[:row], f"{indent}{front}{behind}", *self.lines[row + 1 :]]
        self.session.change(self.uri, self.version, "\n".join(lines))
        return asked(self.session, self.uri, row, units(indent + front, self.session.encoding))


def row_of(text, part):
    return next(row for row, line in enumerate(lines_of(text)) if part in line)


def try_adder(program):
    """Behind `c.` stand the methods that the state of the object offers."""
    with Folder(copied("adder")) as folder, Session(program) as it:
        it.begin(UTF16)
        text, typing = folder.files["CMain.java"], Typing(it, folder, "CMain.java")
        for typed in TYPED:
            items = typing.offered(row_of(text, "c.send_bye"), typed)
            same(f"behind {typed}", in_order(items), OFFERED)
            count(f"behind {typed}: methods", all(one.get("kind") == 2 for one in items), str(items))
        same("in another state", in_order(typing.offered(row_of(text, "c.receive_"), "t = c.|")), TAKEN)
        same("in another state, as a value", in_order(typing.offered(row_of(text, "c.receive_"), "t = 1 + c.|;")), TAKEN)
        typing.offered(row_of(text, "c.send_bye"), "c.send_byeToS|();")
        same("behind a line that isn't there", asked(it, typing.uri, 9999, 0), [])
        same("in a protocol", asked(it, folder.uri("C.scr"), 5, 8), [])
        same("in what isn't open, nor a file", asked(it, "file:///nowhere/A.java", 0, 0), [])
    with Folder(copied("adder")) as folder, Session(program) as it:
        it.begin(UTF8)
        text, typing = folder.files["SMain.java"], Typing(it, folder, "SMain.java")
        wanted = [("receive_SChoice1LabelFromC", "SChoice1 receive_SChoice1LabelFromC()", None)]
        same("in a switch", in_order(typing.offered(row_of(text, "switch"), "switch (s.|) {")), wanted)
        wanted = [("receive_byeFromC", "void receive_byeFromC()", None)]
        same("in a branch", in_order(typing.offered(row_of(text, "receive_byeFromC"), "s.|")), wanted)


def try_rows(program):
    """Statements and conditions, in one state and in several, in both encodings, and behind letters of several bytes."""
    row = row_of(DOOR["Main.java"], "        ..")
    for encodings in (UTF8, UTF16):
        with Folder(DOOR) as folder, Session(program) as it:
            it.begin(encodings)
            typing = Typing(it, folder, "Main.java")
            for title, typed, wanted in ROWS:
                same(f"{title}, in {it.encoding}", in_order(typing.offered(row, typed)), wanted)
                if not typed.startswith("//"):
                    same(f"{title}, behind letters, in {it.encoding}", in_order(typing.offered(row, LETTERS + typed)), wanted)


def try_fields(program):
    """An own field, inside and outside of a test for null."""
    close = ("close", "void close()")
    with Folder(copied("list")) as folder, Session(program) as it:
        it.begin(UTF16)
        text, typing = folder.files["Node.java"], Typing(it, folder, "Node.java")
        inside, outside = row_of(text, "next.close()"), row_of(text, '"closed "')
        for path in ("next", "this.next"):
            same(f"{path}, which isn't null", in_order(typing.offered(inside, f"{path}.|")), [(*close, None)])
            same(f"{path}, which is null or at its end", in_order(typing.offered(outside, f"{path}.|")), [])
            same(f"{path}, of a method before", in_order(typing.offered(row_of(text, "v = k"), f"{path}.|")), [])


def try_all(program):
    with Session(program) as it:
        offers = it.begin().get("completionProvider")
    if not offers:
        print("test-lsp: the server has no completionProvider")
        return
    same("completion begins behind a dot", offers.get("triggerCharacters"), ["."])
    for part in (try_adder, try_rows, try_fields):
        part(program)
