"""A peer that does what its words say: `peer.py ACTION..` listens at a free port, which is on its first line, and
`peer.py to:PORT ACTION..` connects to the port, as soon as somebody listens there. It prints what it has heard.

read            reads a line
rest            reads all that comes
send:BYTES      sends bytes, with the escapes of Python
slow:BYTES      sends them one by one, five a second
drip:BYTES      the same again and again, until the other side has gone
pour:BYTES      sends them again and again, until the other side has gone
flood:BYTES     the same, or until for a second nothing more is taken, and says how many bytes were
wait            does nothing until the other side has gone, without reading
say:TEXT        prints a text
until:FILE      does nothing until the file has a line
close, reset    ends the connection
strangers:N     connects N times more to the port, and says nothing there
greet:ME,PEER   says the names with which a role begins its line
prove:ME,PEER,SECRET   the same by a secret, and wants to see that the other side has it
reflect:ME,PEER        the same without the secret: it sends back the proof of the other side
replay:ME,PEER,SECRET  the same with the proof that another connection would have wanted
text:TEXT       sends a text behind its length, as a role does
told:LENGTH     sends the length of a text

It says `gone` where the other side has gone before it, and `late` where for 300 seconds nothing has happened.
"""
import codecs
import hashlib
import hmac
import os
import select
import socket
import struct
import sys
import time

LIMIT = 300


def told(text):
    return struct.pack(">i", len(text)) + text


def connected(port):
    begun = time.time()
    while True:
        try:
            return socket.create_connection(("127.0.0.1", port), LIMIT)
        except OSError:
            if time.time() - begun > LIMIT:
                raise
            time.sleep(0.05)


def seal(secret, whose, names, mine, theirs):
    return hmac.new(secret, told(whose) + names + mine + theirs, hashlib.sha256).digest()


def proves(peer, heard, me, other, secret):
    names = told(me) + told(other)
    mine = os.urandom(16)
    peer.sendall(b"mungo 2\n" + names + mine)
    print("sent", flush=True)
    theirs, proof = heard.read(16), heard.read(32)
    print("proof", "right" if proof == seal(secret, b"answer", names, mine, theirs) else "wrong", flush=True)
    peer.sendall(seal(secret, b"call", names, mine, theirs))


def reflects(peer, heard, me, other):
    peer.sendall(b"mungo 2\n" + told(me) + told(other) + os.urandom(16))
    heard.read(16)
    peer.sendall(heard.read(32))
    print("sent", flush=True)


def replays(peer, heard, before, me, other, secret):
    names = told(me) + told(other)
    mine = os.urandom(16)
    before.sendall(b"mungo 2\n" + names + mine)
    theirs = before.makefile("rb").read(16)
    peer.sendall(b"mungo 2\n" + names + mine)
    heard.read(48)
    peer.sendall(seal(secret, b"call", names, mine, theirs))
    print("sent", flush=True)


def floods(peer, data):
    peer.settimeout(1)
    data = data * (1 + 65536 // len(data))
    sent = 0
    try:
        while True:
            sent += peer.send(data)
    except socket.timeout:
        print("flooded", sent, flush=True)
    peer.settimeout(LIMIT)


def waits(peers):
    for peer in peers:
        poll = select.poll()
        poll.register(peer, select.POLLRDHUP | select.POLLHUP | select.POLLERR)
        if not poll.poll(LIMIT * 1000):
            raise socket.timeout()
    print("gone", flush=True)


def drips(peer, data):
    for byte in data:
        peer.sendall(bytes([byte]))
        time.sleep(0.2)


def has_line(file):
    begun = time.time()
    while not os.path.getsize(file):
        if time.time() - begun > LIMIT:
            raise socket.timeout()
        time.sleep(0.05)


def acts(peer, heard, port, action, data, kept):
    if action == "read":
        print(heard.readline(), flush=True)
    elif action == "rest":
        print(heard.read(), flush=True)
    elif action == "send":
        peer.sendall(data)
    elif action == "slow":
        drips(peer, data)
    elif action == "drip":
        while True:
            drips(peer, data)
    elif action == "pour":
        while True:
            peer.sendall(data * (1 + 65536 // len(data)))
    elif action == "flood":
        floods(peer, data)
    elif action == "wait":
        waits([peer] + kept)
    elif action == "say":
        print(data.decode(), flush=True)
    elif action == "until":
        has_line(data)
    elif action == "reset":
        peer.setsockopt(socket.SOL_SOCKET, socket.SO_LINGER, struct.pack("ii", 1, 0))
        peer.close()
    elif action == "close":
        peer.shutdown(socket.SHUT_WR)
        heard.read()
    elif action == "strangers":
        kept += [connected(port) for _ in range(int(data))]
    elif action == "greet":
        me, other = data.split(b",")
        peer.sendall(b"mungo 1\n" + told(me) + told(other))
    elif action == "prove":
        proves(peer, heard, *data.split(b","))
    elif action == "reflect":
        reflects(peer, heard, *data.split(b","))
    elif action == "replay":
        kept.append(connected(port))
        replays(peer, heard, kept[-1], *data.split(b","))
    elif action == "text":
        peer.sendall(told(data))
    elif action == "told":
        peer.sendall(struct.pack(">i", int(data)))
    else:
        raise SystemExit("no action " + action)


def main(words):
    kept = []
    if words[0].startswith("to:"):
        port = int(words.pop(0)[3:])
        peer = connected(port)
    else:
        door = socket.socket()
        door.bind(("127.0.0.1", 0))
        door.listen(1)
        port = door.getsockname()[1]
        print(port, flush=True)
        door.settimeout(LIMIT)
        peer, _ = door.accept()
    peer.settimeout(LIMIT)
    heard = peer.makefile("rb")
    try:
        for word in words:
            action, _, text = word.partition(":")
            acts(peer, heard, port, action, codecs.escape_decode(text.encode())[0], kept)
    except socket.timeout:
        print("late", flush=True)
    except OSError:
        print("gone", flush=True)


main(sys.argv[1:])
