"""Programs in folders of their own, and what the command line says of them."""
import os
import re
import subprocess
import tempfile

from session import SECONDS, units, uri_of

TOP = os.path.dirname(os.path.dirname(os.path.dirname(os.path.realpath(__file__))))
NATIVE = os.path.abspath(os.environ.get("MUNGO", f"{TOP}/release/mungo"))
ENDINGS = (".scr", ".protocol", ".java")
LINE = re.compile(r"(.+):(\d+):(\d+): (\S+)(.*)")
CALL = re.compile(r"(.+):(\d+):(\d+): (\S+) (.+) -> (.+)")


def read(path):
    with open(path, encoding="utf-8", newline="") as file:
        return file.read()


def is_source(name):
    return name.endswith(ENDINGS) and not name.startswith(".")


def lines_of(text):
    """The lines of a text as the protocol counts them."""
    return re.split(r"\r\n|\n|\r", text)


class Folder:
    """A new folder with some files, a map from names to texts; with a name it has this, and stands in a new one."""

    def __init__(self, files, name=""):
        self.room = tempfile.TemporaryDirectory(prefix="test-lsp.")
        self.path, self.files = os.path.join(os.path.realpath(self.room.name), name).rstrip("/"), {}
        os.makedirs(self.path, exist_ok=True)
        for name, text in files.items():
            self.write(name, text)

    def write(self, name, text):
        """Writes a file on the disk; what an editor has of it is another matter."""
        self.files[name] = text
        with open(f"{self.path}/{name}", "wb") as file:
            file.write(text if isinstance(text, bytes) else text.encode())

    def remove(self, name):
        del self.files[name]
        os.remove(f"{self.path}/{name}")

    def uri(self, name):
        return uri_of(f"{self.path}/{name}")

    def sources(self):
        return sorted((it for it in self.files if is_source(it)), key=lambda it: self.uri(it).encode())

    def native(self, *words):
        """What the command line says of all sources, in the order of their names: a list of lines."""
        how = {"cwd": self.path, "stdin": subprocess.DEVNULL, "capture_output": True, "timeout": SECONDS, "check": False}
        ran = subprocess.run([NATIVE, *words, *self.sources()], **how)
        return (ran.stdout if words == ("show",) else ran.stderr).decode(errors="replace").splitlines()

    def faults(self):
        """The lines of `check --all`, those of each file by its name."""
        found = {name: [] for name in self.sources()}
        for line in self.native("check", "--all"):
            parts = LINE.fullmatch(line)
            found[parts[1] if parts else self.sources()[0]].append(line)
        return found

    def calls(self, name):
        """The calls in a file: line, column, path, before and after, as `show` tells them."""
        calls = (CALL.fullmatch(it) for it in self.native("show"))
        return [(int(it[2]), int(it[3]), it[4], it[5], it[6]) for it in calls if it and it[1] == name]

    def __enter__(self):
        return self

    def __exit__(self, *_):
        self.room.cleanup()


def offset_of(text, at, encoding):
    """How many bytes stand before a position. Behind the end of a line stands its end."""
    starts = [0] + [it.end() for it in re.finditer(r"\r\n|\n|\r", text)]
    if at["line"] >= len(starts):
        return len(text.encode())
    line, front = lines_of(text)[at["line"]], ""
    while len(front) < len(line) and units(line[: len(front) + 1], encoding) <= at["character"]:
        front = line[: len(front) + 1]
    return len((text[: starts[at["line"]]] + front).encode())


def part_of(text, around, encoding):
    """The text in a range of one line."""
    line = lines_of(text)[around["start"]["line"]]
    fronts = {units(line[:it], encoding): it for it in range(len(line) + 1)}
    return line[fronts[around["start"]["character"]] : fronts[around["end"]["character"]]]


def line_of(name, text, fault, encoding):
    """The line of the command line that a diagnostic stands for. There a line ends with a line feed alone."""
    before = text.encode()[: offset_of(text, fault["range"]["start"], encoding)]
    line, column = before.count(b"\n") + 1, len(before) - before.rfind(b"\n")
    words = fault["message"].split(": ", 1)[0]
    if words.split(" ", 1)[0] != fault["code"]:
        words = f"{fault['code']} (said: {fault['message']})"
    return f"{name}:{line}:{column}: {words}"


def told_of(session, folder, texts=None):
    """What the editor shows, as lines of the command line, by the names of files."""
    texts = {**folder.files, **(texts or {})}
    found = {}
    for name in folder.sources():
        text = texts[name] if isinstance(texts[name], str) else texts[name].decode(errors="replace")
        shown = session.shown.get(folder.uri(name), [])
        found[name] = [line_of(name, text, it, session.encoding) for it in shown]
    return found


def examples():
    """The programs of `examples/`, and each with what is refused of it: names, files, and the file to be opened first."""
    for name in sorted(os.listdir(f"{TOP}/examples")):
        for folder, _, files in sorted(os.walk(f"{TOP}/examples/{name}")):
            inner = os.path.basename(folder) if folder != f"{TOP}/examples/{name}" else ""
            sources = [it for it in sorted(files) if is_source(it)]
            if inner in ("refused", "stuck", "global"):
                above = os.path.dirname(folder)
                beside = {it: read(f"{above}/{it}") for it in sorted(os.listdir(above)) if is_source(it)}
                for it in sources:
                    yield f"{name}, {inner}/{it}", {**beside, it: read(f"{folder}/{it}")}, it
            elif sources:
                yield name if not inner else f"{name}/{inner}", {it: read(f"{folder}/{it}") for it in sources}, sources[0]


def copied(name):
    """The sources of an example."""
    above = f"{TOP}/examples/{name}"
    return {it: read(f"{above}/{it}") for it in sorted(os.listdir(above)) if is_source(it)}
