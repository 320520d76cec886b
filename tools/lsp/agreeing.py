"""What the editor shows beside what the command line says: of all examples and what is refused of them, and under edits."""
import random
import statistics
import time

from counting import count, same
from programs import Folder, copied, examples, lines_of, told_of
from session import UTF8, UTF16, Session, place, units

EDITS, SEED, MILLISECONDS = 40, 7, 100
# What random edits put: words and signs of the languages, and letters of several bytes.
WORDS = ["", " ", "\n", ";", "}", "{", "x", "c", "int ", "return", "// é", "/* \U0001f600 */ "]
WORDS += ["€", '"', "State1", "null", "\r\n", "\r", "end"]


def try_examples(program):
    """The diagnostics of each example, and of each variant that is refused, are exactly the lines of `check --all`."""
    refused = 0
    with Session(program) as it:
        it.begin(UTF8)
        for name, files, first in examples():
            with Folder(files) as folder:
                it.open(folder.uri(first), files[first])
                wanted = folder.faults()
                refused += any(wanted.values())
                same(f"{name}: the lines of check --all", told_of(it, folder), wanted)
                it.about("didClose", folder.uri(first))
        same("when all is closed nothing is shown", {uri: shown for uri, shown in it.shown.items() if shown}, {})
    count("some variants are refused", refused >= 10, str(refused))


def position_in(text, at, encoding):
    """The position of a letter of a text that stands at no line's end of two letters."""
    lines = lines_of(text[:at])
    return place(len(lines) - 1, units(lines[-1], encoding))


def random_edit(draw, text):
    """Where an edit begins and ends, and what it puts. None stands between the two letters of a line's end."""
    begin = draw.randrange(len(text) + 1)
    end = min(len(text), begin + draw.choice([0, 0, 0, 1, 1, 2, 8, 40]))
    inside = lambda at: 0 < at < len(text) and text[at - 1 : at + 1] == "\r\n"
    return begin - inside(begin), end + inside(end), draw.choice(WORDS)


def try_edits(program, name, encodings, seed):
    """Random edits of all files of a program, one after the other: what is shown stays what the command line says."""
    draw = random.Random(seed)
    with Folder(copied(name)) as folder, Session(program) as it:
        it.begin(encodings)
        for one in folder.sources():
            it.open(folder.uri(one), folder.files[one])
        for turn in range(EDITS):
            one = draw.choice(folder.sources())
            text, changes = folder.files[one], []
            for _ in range(draw.choice([1, 1, 1, 2, 3])):
                begin, end, put = random_edit(draw, text)
                around = {"start": position_in(text, begin, it.encoding), "end": position_in(text, end, it.encoding)}
                changes.append((around, put))
                text = text[:begin] + put + text[end:]
            if draw.random() < 0.15:
                text = copied(name)[one]
                changes.append(text)
            folder.write(one, text)
            it.change(folder.uri(one), turn + 2, *changes)
            if not same(f"{name}, {it.encoding}, edit {turn + 1} of seed {seed}", told_of(it, folder), folder.faults()):
                return


def long_client():
    """A client of the adder of 200 lines."""
    lines = [f"        c.send_addIntToS({it}); System.out.println(c.receive_totalIntFromS());" for it in range(194)]
    head = ["class CMain {", "    public static void main(String[] args) {", "        CRole c = new CRole();"]
    return "\n".join([*head, *lines, "        c.send_byeToS();", "    }", "}"])


def try_speed(program):
    """A change of a file of 200 lines is judged in time. The quickest of many counts, since machines have other work."""
    with Folder({**copied("adder"), "CMain.java": long_client()}) as folder, Session(program) as it:
        it.begin(UTF8)
        main, took = folder.uri("CMain.java"), []
        it.open(main, long_client())
        same("a file of 200 lines", (it.shown.get(main), len(lines_of(long_client()))), ([], 200))
        while len(took) < 20 or (min(took) > MILLISECONDS and len(took) < 600):
            began = time.monotonic()
            it.change(main, len(took) + 2, ({"start": place(4, 0), "end": place(4, 0)}, " "))
            took.append((time.monotonic() - began) * 1000)
        began = time.monotonic()
        hints = it.hints(main) or []
        asked = (time.monotonic() - began) * 1000
    said = f"in {min(took):.0f} to {max(took):.0f} ms, half of them within {statistics.median(took):.0f}"
    said += f"; its {len(hints)} hints take {asked:.0f} ms"
    print(f"a change of a file of 200 lines is judged {said}")
    count(f"a change of a file of 200 lines is judged within {MILLISECONDS} ms", min(took) <= MILLISECONDS, said)


def try_all(program):
    try_examples(program)
    try_speed(program)
    for number, (name, encodings) in enumerate((("file", UTF8), ("adder", UTF16), ("counter", UTF16), ("idle", UTF8))):
        try_edits(program, name, encodings, SEED + number)
