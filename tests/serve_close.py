"""What `tsc close` does by the wrong address, where nobody listens, and where somebody else does. (serve_admin.py has the close itself.)"""

import os
import socket
import subprocess
import tempfile
import threading
import time

from collector import ALL, ERROR_SPAN, PATIENCE, Client, Failure, body_of, free_port, post, tried, want
from serve_export import Backend

CANNOT = (6, b"tsc: cannot close\n", b"")


def said(start, config):
    """The end of `tsc close` by a file: its status and what it wrote."""
    done = subprocess.run([start.program, "close", config], stdin=subprocess.DEVNULL, capture_output=True, timeout=PATIENCE, check=False)
    return done.returncode, done.stdout, done.stderr


def said_by(start, text):
    """The same by a configuration."""
    with tempfile.TemporaryDirectory() as folder:
        config = os.path.join(folder, "config.toml")
        with open(config, "w", encoding="utf-8") as file:
            file.write(text)
        return said(start, config)


def not_closed_at_requests(start):
    """A collector with a second address isn't closed by a configuration that doesn't name it, and goes on."""
    collector = start(f'admin = "127.0.0.1:{free_port()}"\n' + ALL)
    want("the end of close", said_by(start, f'listen = "127.0.0.1:{collector.port}"\n' + ALL), CANNOT)
    want("the answer", collector.ask(post(body_of([ERROR_SPAN])))[::2], (200, "{}"))
    want("the end of close by the own one", said(start, os.path.join(collector.folder.name, "config.toml")), (0, b"", b""))
    want("the report", collector.end()[1], [1, 1, 0, 0, 0, 0, 0, 0, 0])


def nothing_to_close(start):
    """An address that is none, and a configuration that is refused or can't be read."""
    want("no address", said_by(start, 'listen = "x"\n' + ALL), CANNOT)
    want("no policies", said_by(start, "policies = []"), (3, b"tsc: configuration refused: 7.1\n", b""))
    want("no file", said(start, "/nowhere/config.toml"), (3, b"tsc: configuration refused: unreadable\n", b""))


def end_of_close(start, answer, after=0):
    """The end of `tsc close` where somebody listens who gives this answer, so many seconds behind the request."""
    with socket.create_server(("127.0.0.1", 0)) as server:
        server.settimeout(PATIENCE)
        asked = []

        def serve():
            connection, _ = server.accept()
            with connection:
                data = connection.recv(4096)
                while not data.endswith(b"\r\n\r\n") and (more := connection.recv(4096)):
                    data += more
                asked.append(data)
                time.sleep(after)
                connection.sendall(answer, socket.MSG_NOSIGNAL)

        thread = threading.Thread(target=serve, daemon=True)
        thread.start()
        end = said_by(start, f'listen = "127.0.0.1:{server.getsockname()[1]}"\n' + ALL)
        thread.join()
        want("the request", asked, [b"POST /close HTTP/1.1\r\nHost: tsc\r\nContent-Length: 0\r\nConnection: close\r\n\r\n"])
        return end


def answers_otherwise(start):
    """One who listens and answers otherwise, in part, or nothing before it ends the connection: it isn't said that a collector closes."""
    for answer in (b"HTTP/1.1 404 Not Found\r\n\r\n", b"HTTP/1.1 20", b""):
        want(f"the end of close after {answer!r}", end_of_close(start, answer), CANNOT)


def answers_late(start):
    """An answer is waited for that comes two seconds behind the request."""
    want("the end of close", end_of_close(start, b"HTTP/1.1 200 OK\r\nContent-Length: 2\r\n\r\n{}", 2), (0, b"", b""))


def end_of_a_client(collector, ends_its_side):
    """How a client that connects now ends: `taken`, `closing`, or what else it is; and from when until when it was there. It may end its side of the
    connection behind its request."""
    began = time.monotonic()
    try:
        connection = Client(collector.port)
        connection.send(post(body_of([])))
        if ends_its_side:
            connection.socket.shutdown(socket.SHUT_WR)
        status, _, body = connection.answer()
        connection.close()
        end = "taken" if (status, body) == (200, "{}") else "closing" if (status, body) == (503, '{"message":"closing"}') else (status, body)
    except (OSError, Failure) as error:
        end = f"cut off: {error!r}"
    return end, began, time.monotonic()


def clients_as_it_closes(start):
    """Forty clients who connect from just before a close until a second and a half behind it, of whom each second one ends its side behind its request,
    are all answered, by 200 or by 503 `closing`, and at least three by this; none is cut off, but for those who are there just as the close is asked for and answered, whose connections may be ended as
    idle ones. A backend that is away until then keeps the collector closing."""
    backend = Backend(listens=False)
    collector = start(ALL + backend.settings("close_wait_ms = 600000\nretry_max_ms = 500\n"))
    want("the answer", collector.ask(post(body_of([ERROR_SPAN])))[::2], (200, "{}"))
    ends = []

    def ask(number):
        time.sleep(number * 0.0425)
        ends.append(end_of_a_client(collector, number % 2 == 1))

    threads = [threading.Thread(target=ask, args=(number,), daemon=True) for number in range(40)]
    for thread in threads:
        thread.start()
    time.sleep(0.2)
    closing = time.monotonic()
    want("the close", collector.ask(post(b"", "/close"))[0], 200)
    closed = time.monotonic()
    for thread in threads:
        thread.join()
    backend.listen()
    collector.end()
    others = [end for end, came, went in ends if end not in ("taken", "closing") and (came > closed or went < closing)]
    want("how else a client ended", others, [])
    told = [end for end, _, _ in ends].count("closing")
    want(f"whether {told} of {len(ends)} who were told that it closes are three or more", told >= 3, True)


def refused_as_it_closes(start):
    """A client that goes on to send behind its refusal, for half a second, isn't cut off by a close meanwhile, in one of three tries."""
    tried(3, lambda: sends_behind_its_refusal(start))


def sends_behind_its_refusal(start):
    """The same, once."""
    collector = start(ALL)
    client = collector.client()
    client.send(post(b"").replace(b"Length: 0", b"Length: 4194305"))
    want("the refusal", client.answer()[0], 413)
    want("the close", collector.ask(post(b"", "/close"))[0], 200)
    for _ in range(25):
        client.send(b" " * 1000)
        time.sleep(0.02)
    client.close()
    want("the report", collector.end()[1], [0] * 9)


CHECKS = [not_closed_at_requests, nothing_to_close, answers_otherwise, answers_late, clients_as_it_closes, refused_as_it_closes]
