"""Faults that come with a change and go with the next, positions in both encodings, closing, saving, and folders."""
import os

from counting import count, same
from programs import Folder, copied, line_of, lines_of, told_of
from session import UTF8, UTF16, Session, place, span, units

TAKES = "            System.out.println(c.receive_totalIntFromS());\n"


def line_with(text, part):
    """The number of the first line that has a part, from 0."""
    return next(number for number, line in enumerate(lines_of(text)) if part in line)


def faults_of(session, uri):
    """The codes that the editor shows for a document."""
    return [it["code"] for it in session.shown.get(uri, [])]


def try_change(program):
    """A fault that comes with a change goes with the next one."""
    with Folder(copied("adder")) as folder, Session(program) as it:
        it.begin(UTF8)
        main, text = folder.uri("CMain.java"), folder.files["CMain.java"]
        told = it.open(main, text, version=3)
        same("a program that is accepted", [(one["uri"], one["diagnostics"]) for one in told],
             [(folder.uri(name), []) for name in folder.sources()])
        versions = {name: it.versions.get(folder.uri(name)) for name in folder.sources()}
        same("versions, of what is open alone", versions, {**dict.fromkeys(folder.sources()), "CMain.java": 3})
        row = line_with(text, "receive_totalIntFromS")
        taken = lines_of(text)[row] + "\n"
        without = {"start": place(row, 0), "end": place(row + 1, 0)}
        it.change(main, 4, (without, ""))
        count("a fault comes with a change", "NotOffered" in faults_of(it, main), str(it.shown.get(main)))
        same("its version", it.versions.get(main), 4)
        fault = it.shown.get(main, [])[0]
        same("its fields", (fault.get("severity"), fault.get("source")), (1, "mungo"))
        said = fault["message"].split("\n")
        count("its sentence", len(said) == 2 and said[0].startswith("NotOffered c State1: "), fault["message"])
        count("its repair", said[-1].startswith("Repair: call "), fault["message"])
        it.change(main, 5, (span(row, 0, 0), taken))
        same("it goes with the next change", (faults_of(it, main), it.versions.get(main)), ([], 5))
        it.change(main, 6, "class CMain {")
        same("a change of the whole text", faults_of(it, main), ["Syntax"])
        it.change(main, 7, (None, "class CMain { }"))
        same("a change of the whole text, by a range that is null", faults_of(it, main), [])
        it.change(main, 8, "", (span(0, 0, 0), "cla"), (span(0, 3, 3), "ss CMain { }"))
        same("three changes at once", faults_of(it, main), [])
        it.change(main, 9, ({"start": place(0, 12), "end": place(0, 0)}, "class"))
        same("a range whose end is named first", faults_of(it, main), ["Syntax"])
        it.change(folder.uri("SMain.java"), 1, "class {")
        same("a change of what isn't open changes nothing", faults_of(it, folder.uri("SMain.java")), [])
        it.open(folder.uri("SMain.java"), "class SMain {", version=1)
        same("another document that is opened", faults_of(it, folder.uri("SMain.java")), ["Syntax"])
        same("the end", it.stop(), 0)


# A line with letters of one, two, three and four bytes, and of one and two code units, before a fault. What is told of it is
# counted by hand: 8 blanks, and `/*é€😀*/ ` of 9 letters of which the emoji counts twice: 2 + 2 + 3 + 4 + 2 + 1 bytes.
LETTERS = """class Main {
    public static void main(String[] args) {
        /*é€\U0001f600*/ int wrong = missing;
    }
}
"""
COLUMNS = {"utf-8": (8 + 14 + 12, 7), "utf-16": (8 + 9 + 12, 7)}


def try_encodings(program):
    """Places behind letters of two, three and four bytes, told and taken, in both encodings."""
    for encodings, name in ((UTF8, "utf-8"), (UTF16, "utf-16")):
        begin, size = COLUMNS[name]
        with Folder({"Main.java": LETTERS}) as folder, Session(program) as it:
            it.begin(encodings)
            main = folder.uri("Main.java")
            it.open(main, LETTERS)
            same(f"{name}: the fault", [(one["code"], one["range"]) for one in it.shown.get(main, [])],
                 [("UnknownName", span(2, begin, begin + size))])
            lines = [line_of("Main.java", LETTERS, one, name) for one in it.shown.get(main, [])]
            same(f"{name}: the same as a line", lines, folder.native("check", "--all"))
            it.change(main, 2, (span(2, begin, begin + size), "7"))
            same(f"{name}: a change behind the letters", faults_of(it, main), [])
            # The emoji becomes a letter of two bytes; then what stands behind it is changed in the same notification.
            front, emoji = units("        /*é€", name), units("\U0001f600", name)
            behind = units("        /*é€ä*/ int wrong = ", name)
            it.change(main, 3, (span(2, front, front + emoji), "ä"), (span(2, behind, behind + 1), "gone"))
            same(f"{name}: a change of the letters, and one behind it", [(one["code"], one["range"]) for one in it.shown.get(main, [])],
                 [("UnknownName", span(2, behind, behind + 4))])
            it.change(main, 4, (span(2, behind, behind + 4000), "7;"))
            same(f"{name}: a range to behind the end of its line", faults_of(it, main), [])
            it.change(main, 5, ({"start": place(1, 0), "end": place(9999, 0)}, ""))
            same(f"{name}: a range to behind the last line", faults_of(it, main), ["Syntax"])


def try_line_ends(program):
    """Lines end with a line feed, a carriage return, or both."""
    for name, end in (("line feeds", "\n"), ("both", "\r\n")):
        text = LETTERS.replace("\n", end)
        with Folder({"Main.java": text}) as folder, Session(program) as it:
            it.begin(UTF16)
            main = folder.uri("Main.java")
            it.open(main, text)
            begin, size = COLUMNS["utf-16"]
            same(f"{name}: the fault", [one["range"] for one in it.shown.get(main, [])], [span(2, begin, begin + size)])
            it.change(main, 2, (span(2, begin, begin + size), "7"))
            same(f"{name}: a change", faults_of(it, main), [])


def try_closing(program):
    """What is closed counts by its text on the disk, and in a folder where nothing is open nothing is told."""
    with Folder(copied("adder")) as folder, Session(program) as it:
        it.begin(UTF8)
        client, server = folder.uri("CMain.java"), folder.uri("SMain.java")
        it.open(client, "class CMain {")
        it.open(server, folder.files["SMain.java"])
        same("before closing", faults_of(it, client), ["Syntax"])
        it.about("didClose", client)
        same("a closed document counts by its text on the disk", faults_of(it, client), [])
        folder.write("CMain.java", "class CMain { int }")
        it.about("didSave", server)
        same("a file that changed on the disk, when another is saved", told_of(it, folder), folder.faults())
        count("its fault", faults_of(it, client) == ["Syntax"], str(it.shown))
        folder.remove("CMain.java")
        it.about("didSave", server)
        same("a file that is gone shows nothing", faults_of(it, client), [])
        it.change(server, 2, "class SMain {")
        same("a fault, before all is closed", faults_of(it, server), ["Syntax"])
        it.about("didClose", server)
        same("when the last is closed nothing is shown", {uri: shown for uri, shown in it.shown.items() if shown}, {})
        told = it.about("didSave", server)
        same("in a folder where nothing is open nothing is told", told, [])
        it.open(server, "class SMain {", version=9)
        same("what is opened again", (faults_of(it, server), it.versions.get(server)), (["Syntax"], 9))


def try_folders(program):
    """Each folder is a program of its own."""
    with Folder(copied("adder")) as one, Folder(copied("adder")) as two, Session(program) as it:
        it.begin(UTF8)
        first, second = one.uri("CMain.java"), two.uri("CMain.java")
        it.open(first, "class CMain {")
        it.open(second, two.files["CMain.java"])
        same("a fault in one of two folders", (faults_of(it, first), faults_of(it, second)), (["Syntax"], []))
        told = it.change(second, 2, "class CMain { int }")
        same("a change in the other tells of it alone", {os.path.dirname(it["uri"]) for it in told}, {os.path.dirname(second)})
        same("a fault in both", (faults_of(it, first), faults_of(it, second)), (["Syntax"], ["Syntax"]))
        it.about("didClose", first)
        same("one folder is closed", (faults_of(it, first), faults_of(it, second)), ([], ["Syntax"]))
    with Folder(copied("adder")) as outer, Session(program) as it:
        os.mkdir(f"{outer.path}/more")
        with open(f"{outer.path}/more/Broken.java", "w", encoding="utf-8") as file:
            file.write("class {")
        it.begin(UTF8)
        it.open(outer.uri("CMain.java"), outer.files["CMain.java"])
        same("a folder within is no part of it", {uri: shown for uri, shown in it.shown.items() if shown}, {})


def try_names(program):
    """Names of files with blanks and other letters, names that are no files, and files that are none."""
    with Folder(copied("adder"), name="ein Ordner ä€") as folder, Session(program) as it:
        folder.write("Über uns.java", "class Other { int f() { return gone; } }")
        folder.write("notes.txt", "class {")
        folder.write(".#Hidden.java", "class {")
        it.begin(UTF8)
        it.open(folder.uri("CMain.java"), folder.files["CMain.java"])
        it.open(folder.uri("Über uns.java"), folder.files["Über uns.java"])
        same("names with blanks and other letters", told_of(it, folder), folder.faults())
        count("a fault there", any(it.shown.values()), str(it.shown))
        same("no others are told", sorted(it.shown), sorted(folder.uri(name) for name in folder.sources()))
    uris = ("untitled:Main.java", "Main.java", "vscode-notebook:/a/Main.java", "file:///nowhere/at/all/Main.java")
    for uri in (*uris, "file:///nowhere/%FF/Main.java"):
        with Session(program) as it:
            it.begin(UTF8)
            it.open(uri, "class Main {")
            same(f"{uri} counts by its text", {uri: [one["code"] for one in shown] for uri, shown in it.shown.items()}, {uri: ["Syntax"]})
            it.about("didClose", uri)
            same(f"{uri}, closed", it.shown, {uri: []})
    with Session(program) as it:
        it.begin(UTF8)
        same("a document that is no source", it.open("file:///nowhere/notes.txt", "class {", language="plaintext"), [])


def try_spellings(program):
    """A file whose name an editor spells otherwise than the server does counts once, by what is open, and is told by that name."""
    files = {**copied("adder"), "Käse +$(1).java": "class Cheese { int f() { return gone; } }"}
    with Folder(files) as folder:
        plain = folder.uri("Käse +$(1).java")
        # As Neovim spells it, and as Emacs does.
        emacs = plain.replace("%2B", "+").replace("%24", "$").replace("%28", "(").replace("%29", ")")
        for uri in (emacs.replace("%C3%A4", "%c3%a4"), emacs):
            with Session(program) as it:
                it.begin(UTF8)
                it.open(uri, "class Cheese { }")
                same(f"{uri} is open, and isn't read too", {one: shown for one, shown in it.shown.items() if shown}, {})
                same(f"{uri}: each file once", len(it.shown), len(folder.sources()))
                it.change(uri, 2, "class {")
                shown = {one: [fault["code"] for fault in shown] for one, shown in it.shown.items() if shown}
                same(f"{uri}: told by the name that the editor has for it", shown, {uri: ["Syntax"]})
                it.about("didClose", uri)
                same(f"{uri}, closed", {one: shown for one, shown in it.shown.items() if shown}, {})


def try_fronts(program):
    """A file of this machine is one, whichever front its name has, and so is its folder."""
    for front in ("file:", "file://localhost"):
        with Folder(copied("adder")) as folder, Session(program) as it:
            it.begin(UTF8)
            other = lambda name: folder.uri(name).replace("file://", front, 1)
            it.open(folder.uri("CMain.java"), folder.files["CMain.java"])
            it.open(other("C.scr"), "local", language="scribble")
            shown = {one: [fault["code"] for fault in shown] for one, shown in it.shown.items() if shown}
            same(f"{front}: what is open counts", shown, {other("C.scr"): ["Syntax"]})
            it.about("didClose", other("C.scr"))
            same(f"{front}: closed", {one: shown for one, shown in it.shown.items() if shown}, {})


def try_bytes(program):
    """Files on the disk that are no UTF-8, empty, or too large."""
    files = {"A.java": b"class A { }\n// \xff\n", "B.java": b"", "C.java": b"/" * 1_048_577, "D.java": "class D { }"}
    with Folder(files) as folder, Session(program) as it:
        it.begin(UTF8)
        it.open(folder.uri("D.java"), files["D.java"])
        same("no UTF-8, empty, too large", told_of(it, folder), folder.faults())
        os.mkdir(f"{folder.path}/E.java")
        os.symlink("nowhere", f"{folder.path}/F.java")
        it.about("didSave", folder.uri("D.java"))
        same("a folder and a broken link with names of sources are no files", told_of(it, folder), folder.faults())


def try_all(program):
    for part in (try_change, try_encodings, try_line_ends, try_closing, try_folders, try_names, try_spellings, try_fronts, try_bytes):
        part(program)
