#!/usr/bin/env python3
"""A proxy before a served desk, which loses answers: losing_proxy.py FRONT PORT SERVER WORD..

It listens at FRONT of 127.0.0.1, says `ready`, and takes one connection after the other, a WORD for each. Every request that comes is done by the desk at
PORT, which it calls by the host 127.0.0.1, as each proxy has to; what comes back of its answer is by the word:
    pass   all of it
    cut    all but its last bytes
    close  nothing
    504    an answer of the proxy's own
    kill   nothing, and the server, the process SERVER, is killed
It ends behind the last, or where nobody comes for a while.
"""
import os
import re
import signal
import socket
import sys
import time

HERE, LOST, PATIENCE = "127.0.0.1", 5, 120
HOST = re.compile(rb"(?<=\r\n)Host: [^\r\n]*\r\n")
TIMEOUT = b"HTTP/1.1 504 Gateway Time-out\r\nContent-Length: 2\r\n\r\nno"


def length_of(head: bytes) -> int:
    """How long the body is behind a head."""
    fields = [line.split(b":") for line in head.lower().splitlines() if line.startswith(b"content-length:")]
    return int(fields[0][1]) if fields else 0


def request_of(peer: socket.socket) -> bytes:
    """What a peer asks, whole."""
    got, end = b"", b"\r\n\r\n"
    while end not in got or len(got.split(end, 1)[1]) < length_of(got.split(end, 1)[0]):
        piece = peer.recv(65536)
        if not piece:
            raise ConnectionError("a request that is cut short")
        got += piece
    return got


def connection_to(port: int) -> socket.socket:
    """A connection to the desk, which may only be beginning."""
    end = time.monotonic() + PATIENCE
    while True:
        try:
            return socket.create_connection((HERE, port))
        except ConnectionRefusedError:
            if time.monotonic() > end:
                raise
            time.sleep(0.05)


def answer_to(request: bytes, port: int) -> bytes:
    """What the desk answers, as soon as there is one."""
    with connection_to(port) as desk:
        desk.sendall(HOST.sub(f"Host: {HERE}\r\n".encode(), request, count=1))
        got = b""
        while piece := desk.recv(65536):
            got += piece
        return got


def returned(word: str, answer: bytes, server: int) -> bytes:
    """What comes back of an answer."""
    if word == "kill":
        os.kill(server, signal.SIGKILL)
    return {"pass": answer, "cut": answer[:-LOST], "504": TIMEOUT}.get(word, b"")


def main() -> None:
    """Takes the connections."""
    front, port, server = (int(it) for it in sys.argv[1:4])
    with socket.create_server((HERE, front)) as gate:
        print("ready", flush=True)
        gate.settimeout(PATIENCE)
        for word in sys.argv[4:]:
            peer, _ = gate.accept()
            with peer:
                peer.sendall(returned(word, answer_to(request_of(peer), port), server))


if __name__ == "__main__":
    main()
