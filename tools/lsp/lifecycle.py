"""From `initialize` to `exit`: phases, what is no message, what is no frame, and bytes that come as they like."""
import json
import time

from counting import count, same
from programs import Folder
from session import UTF8, UTF16, Session, answered, frame_of

PARSE, REQUEST, METHOD, PARAMS, FRESH = -32700, -32600, -32601, -32602, -32002


def code_of(response):
    return response.get("error", {}).get("code")


def ask(number, method, params=None):
    return {"jsonrpc": "2.0", "id": number, "method": method, "params": params or {}}


def tell(method, params=None):
    return {"jsonrpc": "2.0", "method": method, "params": params or {}}


def opened(text="class A { }", uri="file:///nowhere/A.java"):
    return tell("textDocument/didOpen", {"textDocument": {"uri": uri, "languageId": "java", "version": 1, "text": text}})


def stream(*messages):
    """The frames of messages, and of bodies that are given as bytes."""
    return b"".join(frame_of(it) for it in messages)


BEGIN, STOP = ask("begin", "initialize", {"capabilities": {}}), (ask("stop", "shutdown"), tell("exit"))


def try_phases(program):
    """What may come when, and what it is answered."""
    with Session(program) as it:
        same("a request before initialize", code_of(it.request("textDocument/hover", {})), FRESH)
        same("an unknown request before initialize", code_of(it.request("mungo/none")), FRESH)
        it.put(opened("class {"))
        same("shutdown before initialize", code_of(it.request("shutdown")), FRESH)
        same("a notification before initialize tells nothing", it.published, [])
        capabilities = it.begin()
        same("positions where the client names none", it.encoding, "utf-16")
        sync = capabilities["textDocumentSync"]
        same("texts are told by changes", (sync["openClose"], sync["change"]), (True, 2))
        count("hover is offered", bool(capabilities.get("hoverProvider")))
        count("inlay hints are offered", bool(capabilities.get("inlayHintProvider")))
        same("a second initialize", code_of(it.request("initialize", {"capabilities": {}})), REQUEST)
        same("an unknown method", code_of(it.request("mungo/none")), METHOD)
        same("parameters that are none", code_of(it.request("textDocument/hover", {"position": 1})), PARAMS)
        it.notify("mungo/none", {"x": []})
        it.notify("$/cancelRequest", {"id": 1})
        it.notify("textDocument/didOpen", {"textDocument": {"uri": 7}})
        it.notify("textDocument/didChange", [])
        it.put({"jsonrpc": "2.0", "id": 99, "result": None})
        same("notifications and responses are not answered", it.settle(), [])
        response = it.request("shutdown")
        same("shutdown", ("result" in response, response.get("result", 0), "error" in response), (True, None, False))
        same("a request behind shutdown", code_of(it.request("mungo/none")), REQUEST)
        same("shutdown behind shutdown", code_of(it.request("shutdown")), REQUEST)
        it.put(opened("class {"))
        same("a notification behind shutdown tells nothing", it.published, [])
        it.notify("exit")
        it.put(ask(1, "mungo/none"))
        same("exit behind shutdown, and nothing behind it", it.end(), (0, []))
        same("messages of the server that are neither responses nor diagnostics", it.others, [])
        same("standard error", it.said, b"")
    with Session(program) as it:
        it.begin()
        it.notify("exit")
        same("exit without shutdown", it.end()[0], 1)
    with Session(program) as it:
        it.begin()
        same("the end of input without exit", it.end()[0], 1)
    with Session(program) as it:
        same("no input", it.end(), (1, []))
    for encodings, wanted in ((UTF8, "utf-8"), (["utf-16", "utf-8"], "utf-8"), (UTF16, "utf-16"), (["utf-32"], "utf-16")):
        with Session(program) as it:
            it.begin(encodings)
            same(f"positions of a client that has {encodings}", it.encoding, wanted)


def try_ids(program):
    """Each response has the id of its request, and they come in the order of the requests."""
    ids = [0, -1, 2**53, -(2**63), 2**63 - 1, "", "a", '"\\/\b\n\t', "é € \U0001f600", "1", "x" * 5000]
    status, said, _ = answered(program, stream(BEGIN, *(ask(it, "mungo/none") for it in ids), *STOP))
    same("ids, in the order of the requests", [it.get("id") for it in said], ["begin", *ids, "stop"])
    same("the end behind them", status, 0)
    count("each message says its version", all(it.get("jsonrpc") == "2.0" for it in said))
    escaped = b'{"jsonrpc":"2.0","id":"\\u00e9\\ud83d\\ude00","method":"mungo\\/none"}'
    said = answered(program, stream(BEGIN, escaped, *STOP))[1]
    same("an id with escapes", said[1].get("id") if len(said) > 1 else None, "é\U0001f600")


def try_bodies(program):
    """What is no JSON, and what is no message."""
    rows = (
        ("no JSON", b"{", PARSE, None),
        ("no JSON behind a message", b'{"jsonrpc":"2.0","id":1,"method":"x"} 1', PARSE, None),
        ("an empty body", b"", PARSE, None),
        ("no UTF-8", b'{"jsonrpc":"2.0","id":1,"method":"\xff"}', PARSE, None),
        ("many brackets", b"[" * 100_000, PARSE, None),
        ("a number", b"7", REQUEST, None),
        ("a list", b"[]", REQUEST, None),
        ("a list of messages", b'[{"jsonrpc":"2.0","id":1,"method":"shutdown"}]', REQUEST, None),
        ("no method", b'{"jsonrpc":"2.0","id":5}', REQUEST, 5),
        ("a method that is no text", b'{"jsonrpc":"2.0","id":"m","method":5}', REQUEST, "m"),
        ("an id that is a list", b'{"jsonrpc":"2.0","id":[],"method":"shutdown"}', REQUEST, None),
        ("an id that is null", b'{"jsonrpc":"2.0","id":null,"method":"shutdown"}', REQUEST, None),
        ("an id that is no whole number", b'{"jsonrpc":"2.0","id":1.5,"method":"shutdown"}', REQUEST, None),
    )
    for name, body, code, number in rows:
        status, said, _ = answered(program, stream(BEGIN, body, ask("next", "mungo/none"), *STOP))
        got = [(it.get("id"), code_of(it)) for it in said[1:-1]]
        same(f"{name}: the answer, and what comes behind it", got, [(number, code), ("next", METHOD)])
        same(f"{name}: the end", status, 0)
    long = {"textDocument": {"uri": "file:///nowhere/A.java", "version": 1, "text": "/" * 3_000_000}}
    status, said, _ = answered(program, stream(BEGIN, tell("textDocument/didOpen", long), ask("next", "mungo/none"), *STOP))
    told = [it["params"]["diagnostics"][0]["code"] for it in said if "method" in it]
    same("a text of 3,000,000 bytes", (told, said[-1].get("id"), status), (["TooLarge"], "stop", 0))


def try_frames(program):
    """Heads that are frames, though no editor writes them so, and heads that are none."""
    body = json.dumps(ask("it", "mungo/none")).encode()
    size = b"%d" % len(body)
    heads = (
        ("small letters", b"content-length: " + size + b"\r\n\r\n"),
        ("another field before", b"Content-Type: application/vscode-jsonrpc; charset=utf-8\r\nContent-Length: " + size + b"\r\n\r\n"),
        ("another field behind", b"Content-Length: " + size + b"\r\nX-Other: a:b\r\n\r\n"),
        ("no blank", b"Content-Length:" + size + b"\r\n\r\n"),
        ("many fields", b"Content-Length: " + size + b"\r\n" + b"X: y\r\n" * 500 + b"\r\n"),
    )
    for name, head in heads:
        status, said, _ = answered(program, stream(BEGIN) + head + body + stream(*STOP))
        same(f"a head with {name}", ([it.get("id") for it in said], status), (["begin", "it", "stop"], 0))
    heads = (
        ("no return", b"Content-Length: " + size + b"\n\n"),
        ("no colon", b"Content-Length " + size + b"\r\n\r\n"),
        ("no length", b"X: y\r\n\r\n"),
        ("no number", b"Content-Length: 0x10\r\n\r\n"),
        ("a number below 0", b"Content-Length: -1\r\n\r\n"),
        ("too large a number", b"Content-Length: 99999999999999999999999999\r\n\r\n"),
        ("two lengths", b"Content-Length: " + size + b"\r\nContent-Length: " + size + b"\r\n\r\n"),
        ("no end", b"X: " + b"y" * 10_000),
    )
    for name, head in heads:
        status, said, _ = answered(program, stream(BEGIN, ask("a", "mungo/none")) + head + body + stream(*STOP))
        same(f"a head with {name}: what came before is answered, and no more", [it.get("id") for it in said], ["begin", "a"])
        count(f"a head with {name}: the end", 1 <= status < 70, f"status {status}")
    whole = stream(BEGIN, ask("a", "mungo/none"), ask("b", "mungo/none"))
    for cut in (1, 20, len(body), len(body) + 30):
        status, said, _ = answered(program, whole[:-cut])
        same(f"input that is cut {cut} bytes early", ([it.get("id") for it in said][:2], status), (["begin", "a"][: len(said)], 1))


def try_pieces(program):
    """The same bytes in other pieces are answered alike."""
    with Folder({"A.java": "class A { int x() { return y; } }"}) as folder:
        text = "class A { int é() { return y; } }"
        messages = (BEGIN, tell("initialized"), opened(text, folder.uri("A.java")), b"{", ask("€", "mungo/none"), *STOP)
        whole = stream(*messages)
        wanted = answered(program, whole)
        count("a session at once", wanted[0] == 0 and len(wanted[1]) == 5, str(wanted))
        for size in (1, 2, 7, 64):
            with Session(program) as it:
                for at in range(0, len(whole), size):
                    it.send(whole[at : at + size])
                    if size > 1 or at % 50 == 0:
                        time.sleep(0.0005)
                status, said = it.end(closes=False)
                same(f"a session by pieces of {size} bytes", (status, said), wanted[:2])


def try_slow(program):
    """Half a frame is waited for, and answers don't wait for more."""
    with Session(program) as it:
        it.begin()
        frame = stream(ask("slow", "mungo/none"))
        it.send(frame[: len(frame) // 2])
        time.sleep(0.2)
        same("half a frame is not answered", it.told.empty(), True)
        it.send(frame[len(frame) // 2 :])
        same("the other half is", it.response().get("id"), "slow")
        same("the end", it.stop(), 0)


def try_all(program):
    for part in (try_phases, try_ids, try_bodies, try_frames, try_pieces, try_slow):
        part(program)
