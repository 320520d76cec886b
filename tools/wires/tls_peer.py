"""A peer by TLS with the certificate and the key of the words: listens at a free port, which is on its first line, reads a line
of each that connects, and says YES."""
import socket
import ssl
import sys

context = ssl.SSLContext(ssl.PROTOCOL_TLS_SERVER)
context.load_cert_chain(sys.argv[1], sys.argv[2])
door = socket.create_server(("127.0.0.1", 0))
print(door.getsockname()[1], flush=True)
while True:
    peer, _ = door.accept()
    peer.settimeout(300)
    try:
        with context.wrap_socket(peer, server_side=True) as sealed:
            sealed.makefile("rb").readline()
            sealed.sendall(b"YES\r\n")
            sealed.makefile("rb").readline()
    except OSError as fault:
        print(fault, flush=True)
