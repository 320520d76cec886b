"""A client of the language server for tests: frames, requests with a time limit, and what was sent and told."""
import io
import json
import os
import queue
import subprocess
import threading
import urllib.parse

# How long an answer is waited for, also on a machine that has much else to do: what comes sooner is taken at once.
SECONDS = 300
# The end of the server's output, in the queue of what it told.
END = object()
UTF8, UTF16 = ["utf-8", "utf-16"], ["utf-16"]


class Fault(Exception):
    """The server said nothing in time, ended, or put what is no frame."""


def frame_of(body):
    """The frame of a message, or of the bytes of a body."""
    if not isinstance(body, bytes):
        body = json.dumps(body, ensure_ascii=False, separators=(",", ":")).encode()
    return b"Content-Length: %d\r\n\r\n" % len(body) + body


def frames_in(stream):
    """The messages of a stream of frames that are written as the server writes them. Raises Fault where one isn't."""
    while True:
        head = b""
        while not head.endswith(b"\r\n\r\n"):
            byte = stream.read(1)
            if not byte:
                if head:
                    raise Fault(f"the output ends within a head: {head!r}")
                return
            head += byte
            if len(head) > 100:
                raise Fault(f"no head: {head!r}")
        name, _, number = head[:-4].partition(b": ")
        if name != b"Content-Length" or not number.isdigit():
            raise Fault(f"no head: {head!r}")
        body = stream.read(int(number))
        if len(body) < int(number):
            raise Fault("the output ends within a body")
        yield json.loads(body.decode())


def uri_of(path):
    """The name of a file, as editors write it."""
    return "file://" + urllib.parse.quote(os.path.abspath(path), safe="/-._~")


def units(text, encoding):
    """How many characters a text has, as the protocol counts them."""
    return len(text.encode("utf-8")) if encoding == "utf-8" else len(text.encode("utf-16-le")) // 2


def place(line, character):
    return {"line": line, "character": character}


def span(line, begin, end):
    """The range of a part of a line."""
    return {"start": place(line, begin), "end": place(line, end)}


class Session:
    """A server that runs, and the diagnostics that it told last of each document. `sent` has all bytes that were sent."""

    def __init__(self, program, **how):
        # A child's end of file: none of its pipes is left open in another.
        self.process = subprocess.Popen([program], stdin=subprocess.PIPE, stdout=subprocess.PIPE, stderr=subprocess.PIPE, **how)
        self.told, self.shown, self.versions, self.published = queue.Queue(), {}, {}, []
        self.number, self.sent, self.encoding, self.others, self.said = 0, [], None, [], b""
        threading.Thread(target=self._read, daemon=True).start()
        self.talk = threading.Thread(target=self._hear, daemon=True)
        self.talk.start()

    def _read(self):
        try:
            for message in frames_in(self.process.stdout):
                self.told.put(message)
            self.told.put(END)
        except (Fault, ValueError) as fault:
            self.told.put(Fault(str(fault)))

    def _hear(self):
        self.said = self.process.stderr.read()

    def send(self, sent):
        """Sends bytes as they are. What a server that has ended doesn't take is lost."""
        self.sent.append(sent)
        try:
            self.process.stdin.write(sent)
            self.process.stdin.flush()
        except (BrokenPipeError, ValueError):
            pass

    def put(self, body):
        """Sends a message, or the bytes of a body, in a frame."""
        self.send(frame_of(body))

    def next(self, seconds=SECONDS):
        """The next message of the server, or END."""
        try:
            message = self.told.get(timeout=seconds)
        except queue.Empty:
            raise Fault(f"nothing was said in {seconds} seconds") from None
        if isinstance(message, Fault):
            raise message
        return message

    def response(self):
        """The next response. Diagnostics that come before it are kept."""
        while True:
            message = self.next()
            if message is END:
                raise Fault(f"the server ended with {self.process.wait(SECONDS)}: {self.said[-300:]!r}")
            if message.get("method") == "textDocument/publishDiagnostics":
                told = message["params"]
                self.shown[told["uri"]] = told["diagnostics"]
                self.versions[told["uri"]] = told.get("version")
                self.published.append(told)
            elif "method" in message:
                self.others.append(message)
            else:
                return message

    def request(self, method, params=None):
        """The response to a request. Its id is the request's."""
        self.number += 1
        message = {"jsonrpc": "2.0", "id": self.number, "method": method}
        self.put(message if params is None else {**message, "params": params})
        response = self.response()
        if response.get("id") != self.number:
            raise Fault(f"a response to {response.get('id')!r}, and not to {self.number}: {response}")
        return response

    def notify(self, method, params=None):
        message = {"jsonrpc": "2.0", "method": method}
        self.put(message if params is None else {**message, "params": params})

    def settle(self):
        """Waits until all that was sent is answered: a request that is none comes behind it. The documents told meanwhile."""
        before = len(self.published)
        self.request("mungo/none")
        return self.published[before:]

    # ---- what an editor does ----

    def begin(self, encodings=None):
        """`initialize` and `initialized`. The capabilities."""
        general = {} if encodings is None else {"general": {"positionEncodings": encodings}}
        params = {"processId": None, "rootUri": None, "capabilities": general}
        capabilities = self.request("initialize", params)["result"]["capabilities"]
        self.encoding = capabilities.get("positionEncoding", "utf-16")
        self.notify("initialized", {})
        return capabilities

    def open(self, uri, text, version=1, language="java"):
        document = {"uri": uri, "languageId": language, "version": version, "text": text}
        self.notify("textDocument/didOpen", {"textDocument": document})
        return self.settle()

    def change(self, uri, version, *changes):
        """Changes, each a text that becomes the whole, or a pair of a range and the text that becomes it."""
        made = [{"text": it} if isinstance(it, str) else {"range": it[0], "text": it[1]} for it in changes]
        self.notify("textDocument/didChange", {"textDocument": {"uri": uri, "version": version}, "contentChanges": made})
        return self.settle()

    def about(self, method, uri):
        """`didSave` or `didClose`."""
        self.notify(f"textDocument/{method}", {"textDocument": {"uri": uri}})
        return self.settle()

    def hover(self, uri, line, character):
        return self.request("textDocument/hover", {"textDocument": {"uri": uri}, "position": place(line, character)})["result"]

    def hints(self, uri, lines=1_000_000):
        around = {"start": place(0, 0), "end": place(lines, 0)}
        return self.request("textDocument/inlayHint", {"textDocument": {"uri": uri}, "range": around})["result"]

    def end(self, closes=True):
        """Waits for the end: the status, and what was told until then."""
        if closes:
            try:
                self.process.stdin.close()
            except BrokenPipeError:
                pass
        left = []
        while (message := self.next()) is not END:
            left.append(message)
        status = self.process.wait(SECONDS)
        self.talk.join(SECONDS)
        return status, left

    def stop(self):
        """`shutdown` and `exit`: the status."""
        self.request("shutdown")
        self.notify("exit")
        return self.end()[0]

    def __enter__(self):
        return self

    def __exit__(self, *_):
        if self.process.poll() is None:
            self.process.kill()
        self.process.wait()
        for pipe in (self.process.stdin, self.process.stdout):
            try:
                pipe.close()
            except BrokenPipeError:
                pass


def answered(program, sent, **how):
    """What a server tells of bytes that are all its input: its status, its messages, and its standard error."""
    ran = subprocess.run([program], input=sent, capture_output=True, timeout=SECONDS, check=False, **how)
    return ran.returncode, list(frames_in(io.BytesIO(ran.stdout))), ran.stderr
