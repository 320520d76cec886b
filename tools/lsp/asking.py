"""Hover and inlay hints beside what `show` says on the command line."""
from counting import count, same
from programs import Folder, copied, examples, lines_of
from session import UTF8, UTF16, Session, place, span, units

# What stands behind a call in the adder's client, and what hover says of each: read off its typestate by hand.
ADDER = {
    "c.send_addIntToS": ("c.send_addIntToS State0 -> State1", {"State0": {"send_addIntToS", "send_byeToS"}}),
    "c.receive_totalIntFromS": ("c.receive_totalIntFromS State1 -> State0", {"State1": {"receive_totalIntFromS"}}),
    "c.send_byeToS": ("c.send_byeToS State0 -> end", {"State0": {"send_addIntToS", "send_byeToS"}}),
}


def try_adder(program):
    """Hover tells what an object may be before and after a call, and what each of these states offers."""
    with Folder(copied("adder")) as folder, Session(program) as it:
        it.begin(UTF8)
        main, text = folder.uri("CMain.java"), folder.files["CMain.java"]
        it.open(main, text)
        for path, (wanted, offers) in ADDER.items():
            row = next(number for number, line in enumerate(lines_of(text)) if path in line)
            begin = lines_of(text)[row].index(path)
            for at in (begin, begin + 1, begin + len(path) - 1):
                said = it.hover(main, row, at)
                if not count(f"hover at {path} + {at - begin}", said is not None):
                    continue
                first, *rest = said["contents"]["value"].splitlines()
                same(f"hover at {path} + {at - begin}", (first, said["range"]), (wanted, span(row, begin, begin + len(path))))
                told = {line.split(": ", 1)[0]: set(line.split(": ", 1)[-1].split()) for line in rest}
                same(f"hover at {path}: what the states offer", told, offers)
        same("hover where no call is", it.hover(main, 0, 0), None)
        same("hover behind the text", it.hover(main, 9999, 9), None)
        same("hover in a protocol", it.hover(folder.uri("C.scr"), 3, 3), None)
        same("hover in what isn't open, nor a file", it.hover("file:///nowhere/A.java", 0, 0), None)


def in_order(hint):
    """By what hints are ordered, whichever member of a position comes first."""
    return hint[0]["line"], hint[0]["character"]


def wanted_hints(folder, name, encoding):
    """Where hints stand, behind the path of each call, and the states that they have to name."""
    lines, found = lines_of(folder.files[name]), []
    for row, column, path, _, after in folder.calls(name):
        front = lines[row - 1].encode()[: column - 1].decode()
        found.append((place(row - 1, units(front + path, encoding)), set(after.split())))
    return found


def try_shown(session, folder, name, title):
    """Hints and hover at each call of a file are what `show` has of it."""
    uri, encoding = folder.uri(name), session.encoding
    calls, wanted = folder.calls(name), wanted_hints(folder, name, encoding)
    hints = session.hints(uri) or []
    states = lambda label: set(label.replace(":", " ").replace("->", " ").replace("→", " ").split())
    got = sorted(((it["position"], states(it["label"])) for it in hints), key=in_order)
    same(f"{title}: hints", got, sorted(wanted, key=in_order))
    for (row, _, path, before, after), (at, _) in zip(calls, wanted):
        begin = at["character"] - units(path, encoding)
        said = session.hover(uri, row - 1, begin) or {"contents": {"value": ""}, "range": None}
        first = (said["contents"]["value"].splitlines() or [""])[0]
        around = span(row - 1, begin, at["character"])
        same(f"{title}: hover in line {row}", (first, said["range"]), (f"{path} {before} -> {after}", around))
    return len(calls)


def try_examples(program):
    """Hover and hints at each call of the examples, and of what is refused of them."""
    calls = 0
    with Session(program) as it:
        it.begin(UTF16)
        for name, files, _ in examples():
            with Folder(files) as folder:
                for one in folder.sources():
                    if one.endswith(".java"):
                        it.open(folder.uri(one), files[one])
                        calls += try_shown(it, folder, one, f"{name}, {one}")
                        it.about("didClose", folder.uri(one))
    count("calls are met", calls >= 50, str(calls))


def try_letters(program):
    """Hints and hover behind letters of several bytes, in both encodings, and of a part of the text."""
    files = copied("adder")
    files["CMain.java"] = files["CMain.java"].replace("c.send_", "/*é€\U0001f600*/ c.send_")
    for encodings in (UTF8, UTF16):
        with Folder(files) as folder, Session(program) as it:
            it.begin(encodings)
            main = folder.uri("CMain.java")
            it.open(main, files["CMain.java"])
            try_shown(it, folder, "CMain.java", f"letters in {it.encoding}")
            all_of = it.hints(main)
            row = all_of[0]["position"]["line"]
            around = {"start": place(row, 0), "end": place(row + 1, 0)}
            some = it.request("textDocument/inlayHint", {"textDocument": {"uri": main}, "range": around})["result"]
            same(f"hints of one line in {it.encoding}", some, [one for one in all_of if one["position"]["line"] == row])
            it.change(main, 2, "class CMain {")
            same(f"hints of what can't be read in {it.encoding}", it.hints(main) or [], [])
            same(f"hover in what can't be read in {it.encoding}", it.hover(main, row, all_of[0]["position"]["character"]), None)


def try_broken(program):
    """Hover and hints at a call whose dot stands in the next line, or behind blanks."""
    for between in ("\n                .", " . ", ".\r\n"):
        with Folder(copied("adder")) as folder, Session(program) as it:
            it.begin(UTF8)
            main, path = folder.uri("CMain.java"), f"c{between}send_byeToS"
            text = folder.files["CMain.java"].replace("c.send_byeToS", path)
            it.open(main, text)
            before = lines_of(text[: text.index(path)])
            begin, ends = place(len(before) - 1, len(before[-1])), lines_of(text[: text.index(path) + len(path)])
            around = {"start": begin, "end": place(len(ends) - 1, len(ends[-1]))}
            for at in (begin, around["end"]):
                said = it.hover(main, at["line"], at["character"]) or {"contents": {"value": ""}, "range": None}
                first = (said["contents"]["value"].splitlines() or [""])[0]
                same(f"hover at {path!r}", (first, said["range"]), ("c.send_byeToS State0 -> end", around))
            count(f"a hint behind {path!r}", around["end"] in [one["position"] for one in it.hints(main)])


def try_all(program):
    for part in (try_adder, try_examples, try_letters, try_broken):
        part(program)
