"""Recorded sessions with bytes turned, cut or doubled: the server goes on, and answers each request that is one."""
import json
import random
import subprocess

from counting import count, same
from programs import Folder, copied, lines_of
from session import UTF16, Fault, Session, answered, frame_of, place, span

# How many frames are mutated by a run of all tests, and of how many one is mutated with its head.
FRAMES, SEED, HEADS = 200, 1, 8
SIGNS = b'{}[]":,\\0-9eE.ntf \x00\x7f\x80\xc3\xff\r\n'


class Unsure(Exception):
    """JSON about which readers differ."""


def members(pairs):
    if len({key for key, _ in pairs}) < len(pairs):
        raise Unsure
    return dict(pairs)


def number(text):
    if abs(float(text)) > 1e300 or text.startswith("-0"):
        raise Unsure
    return float(text)


def whole(text):
    if text == "-0" or len(text) > 300:
        raise Unsure
    return int(text)


def none(_):
    raise ValueError


def read(body):
    """The value of a body, where it is JSON. Raises ValueError where it isn't."""
    text = body.decode()
    if "\\ud" in text.lower():
        raise Unsure
    return json.loads(text, object_pairs_hook=members, parse_float=number, parse_int=whole, parse_constant=none)


def id_in(message):
    found = message.get("id")
    if isinstance(found, int) and not isinstance(found, bool):
        if not -(2**63) <= found < 2**63:
            raise Unsure
        return found
    return found if isinstance(found, str) else None


def wanted(body):
    """The ids of the responses that a body gets: of a request its own, of what is no message none or its own, else nothing."""
    try:
        message = read(body)
    except ValueError:
        return [None]
    if not isinstance(message, dict):
        return [None]
    if isinstance(message.get("method"), str):
        return [id_in(message)] if "id" in message else []
    return [] if "result" in message or "error" in message else [id_in(message)]


def mutated(draw, sent):
    """Bytes of which some are turned, cut or doubled."""
    sent = bytearray(sent)
    for _ in range(draw.choice([1, 1, 2, 3])):
        at = draw.randrange(len(sent)) if sent else 0
        to = min(len(sent), at + draw.choice([1, 1, 2, 5, 30]))
        kind = draw.randrange(4)
        if kind == 0 and sent:
            sent[at] ^= 1 << draw.randrange(8)
        elif kind == 1 and sent:
            sent[at] = draw.choice(SIGNS)
        elif kind == 2:
            del sent[at:to]
        else:
            sent[at:at] = sent[at:to]
    return bytes(sent)


def record(program, folder):
    """The bodies of a session with each kind of message, without its beginning and end."""
    with Session(program) as it:
        it.begin(UTF16)
        begun = len(it.sent)
        main, text = folder.uri("CMain.java"), folder.files["CMain.java"]
        row = next(number for number, line in enumerate(lines_of(text)) if "receive_" in line)
        it.open(main, text)
        at = lines_of(text)[row].index("c.") + 2
        it.hover(main, row, at)
        it.hints(main)
        for method in ("completion", "definition"):
            it.request(f"textDocument/{method}", {"textDocument": {"uri": main}, "position": place(row, at)})
        it.request("textDocument/documentSymbol", {"textDocument": {"uri": main}})
        it.request("workspace/executeCommand", {"command": "mungo.diagram", "arguments": [folder.uri("C.scr")]})
        it.change(main, 2, ({"start": place(row, 0), "end": place(row + 1, 0)}, ""), (span(0, 0, 0), "// é \U0001f600\n"))
        it.open(folder.uri("SMain.java"), folder.files["SMain.java"])
        it.change(main, 3, text)
        it.notify("workspace/didChangeConfiguration", {"settings": {"mungo": {"x": [1, -2.5e3, True, None]}}})
        it.about("didSave", main)
        it.about("didClose", folder.uri("SMain.java"))
        return [sent.split(b"\r\n\r\n", 1)[1] for sent in it.sent[begun:]]


def try_body(session, body, name):
    """A frame with this body is answered as it has to be, and a request behind it too."""
    try:
        ids = wanted(body)
    except Unsure:
        ids = None
    session.put(body)
    session.put({"jsonrpc": "2.0", "id": "behind", "method": "mungo/none"})
    got = []
    while not got or got[-1] != "behind":
        got.append(session.response().get("id"))
    if ids is None:
        count(name, len(got) <= 2, f"{got[:-1]} of {body!r}")
    else:
        count(name, got[:-1] == ids, f"responses to {got[:-1]}, and not to {ids}: {body!r}")


def try_head(program, folder, draw, bodies, name):
    """A session of which one frame is mutated with its head: what stands before is answered, and the end is a status."""
    begin = frame_of({"jsonrpc": "2.0", "id": "begin", "method": "initialize", "params": {"capabilities": {}}})
    at = draw.randrange(len(bodies))
    front = begin + b"".join(frame_of(it) for it in bodies[:at])
    sent = front + mutated(draw, frame_of(bodies[at])) + b"".join(frame_of(it) for it in bodies[at + 1 :])
    ids = ["begin"] + [it for body in bodies[:at] for it in wanted(body)]
    try:
        status, told, error = answered(program, sent, cwd=folder.path)
        got = [it.get("id") for it in told if "method" not in it]
        holds = 0 <= status < 70 and got[: len(ids)] == ids
        count(name, holds, f"status {status}, responses to {got}, and not {ids}: {sent[len(front):][:300]!r} {error[-300:]!r}")
    except (Fault, ValueError, subprocess.TimeoutExpired) as fault:
        count(name, False, f"{fault}: {sent[len(front):][:300]!r}")


def try_many(program, frames, seed):
    """So many mutated frames, each of its own seed."""
    done = 0
    with Folder(copied("adder")) as folder:
        bodies = record(program, folder)
        while done < frames:
            with Session(program, cwd=folder.path) as it:
                it.begin(UTF16)
                try:
                    for body in bodies[: frames - done]:
                        done += 1
                        draw, name = random.Random(f"{seed} {done}"), f"mutated frame {done} of seed {seed}"
                        if done % HEADS == 0:
                            try_head(program, folder, draw, bodies, name)
                        else:
                            try_body(it, mutated(draw, body), name)
                    status = it.stop()
                    same(f"the end behind mutated frame {done}", (status, it.said), (0, b""))
                except Fault as fault:
                    count(f"mutated frame {done} of seed {seed}", False, str(fault)[:1000])


def try_all(program):
    try_many(program, FRAMES, SEED)
