"""A client of many short connections: each asks one request without spans and goes. It prints how many were answered 200.

usage: short_connections.py PORT COUNT"""

import socket
import sys

from collector import PATIENCE, post

RESET = b"\1\0\0\0\0\0\0\0"  # (so that no port waits behind its connection)


def is_answered(port, request):
    """Whether a request on a connection of its own is answered 200."""
    with socket.create_connection(("127.0.0.1", port), timeout=PATIENCE) as client:
        client.setsockopt(socket.SOL_SOCKET, socket.SO_LINGER, RESET)
        client.sendall(request)
        heard = client.recv(4096)
        while heard and not heard.endswith(b"{}"):
            more = client.recv(4096)
            heard = heard + more if more else b""
        return heard.startswith(b"HTTP/1.1 200 ")


if __name__ == "__main__":
    print(sum(is_answered(int(sys.argv[1]), post(b"{}")) for _ in range(int(sys.argv[2]))))
