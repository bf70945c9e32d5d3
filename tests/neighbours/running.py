"""What the checks of neighbours.py stand on: programs that run beside a collector, what is sent, and what must come back."""

import http.client
import os
import socket
import subprocess
import sys
import threading
import time
from pathlib import Path

TOP = Path(__file__).resolve().parent.parent.parent
sys.path.insert(0, str(TOP / "tests"))
from collector import ALL, Failure, Starter, body_of, spans_of, want  # noqa: E402
from collector import post as request_of  # noqa: E402

RECIPES = TOP / "examples" / "neighbours"
SETTINGS = "lanes = 4\nshards = 2\nqueue_capacity = 8192\nexport_capacity = 8192\ndecision_wait_ms = 1000\ntick_ms = 100\n" + ALL


def free_port():
    with socket.socket() as probe:
        probe.bind(("127.0.0.1", 0))
        return probe.getsockname()[1]


class Neighbour:
    """A program that runs beside a collector, until `end`. It has the folder for what it says."""

    def __init__(self, here, words, port, **settings):
        self.port = port
        here.neighbours.append(self)
        self.said = open(here.folder / f"said-{len(here.neighbours)}", "w+b")
        environment = {**os.environ, "LD_LIBRARY_PATH": here.libraries, **settings}
        self.process = subprocess.Popen(words, env=environment, stdout=self.said, stderr=self.said)
        for _ in range(300):
            if self.process.poll() is not None:
                self.said.seek(0)
                raise Failure(f"{words[0]} ended: {self.said.read().decode()[-400:]}")
            with socket.socket() as probe:
                if probe.connect_ex(("127.0.0.1", port)) == 0:
                    return
            time.sleep(0.1)
        raise Failure(f"{words[0]} doesn't listen")

    def end(self):
        if self.process.poll() is None:
            self.process.terminate()
            self.process.wait(30)
        self.said.close()


def spans_for(client, request, count):
    """So many spans, each of a trace of its own, with ids that no other request has."""
    first = (client * 1000 + request) * 1000 + 1
    return [{"traceId": f"{at:032x}", "spanId": f"{at:016x}", "name": f"s{at}"} for at in range(first, first + count)]


def ids_of(spans):
    return sorted(it["spanId"] for it in spans)


def answer_to(connection, spans, fields=()):
    """Posts spans over an open connection and returns the answer's status and text."""
    connection.request("POST", "/v1/traces", body_of(spans), {"Content-Type": "application/json", **dict(fields)})
    answer = connection.getresponse()
    return answer.status, answer.read().decode()


def post(connection, spans, fields=()):
    """Posts spans over an open connection and returns the answer's status."""
    return answer_to(connection, spans, fields)[0]


def send_from_many(connect, clients, requests, per_request, fields=()):
    """Sends from so many clients at once, each over a connection that it keeps; returns what was sent. Each answer must be 200."""
    sent, problems, lock = [], [], threading.Lock()

    def work(client):
        try:
            connection = connect()
            for request in range(requests):
                spans = spans_for(client, request, per_request)
                status, text = answer_to(connection, spans, fields)
                want(f"the status, with {text[:200]}", status, 200)
                with lock:
                    sent.extend(spans)
            connection.close()
        except (Failure, OSError, http.client.HTTPException) as problem:
            problems.append(repr(problem))

    threads = [threading.Thread(target=work, args=(it,)) for it in range(clients)]
    for it in threads:
        it.start()
    for it in threads:
        it.join()
    want("what went wrong", problems[:3], [])
    return sent


def all_came_back(collector, sent):
    """Closes the collector, and compares the spans that it handed over with those that were sent, by their ids."""
    lines, numbers = collector.close()
    want("the report", numbers, [len(sent), len(sent), 0, 0, 0, 0, 0, 0, 0])
    want("the spans that came back", ids_of(spans_of(lines)) == ids_of(sent), True)


class Here:
    """What each check is given: what was fetched, a folder of its own, what starts collectors, and the neighbours that run."""

    def __init__(self, program, fetched, folder):
        self.fetched, self.folder = Path(fetched), folder
        self.clients = Path(__file__).resolve().parent
        self.packages = self.fetched / "packages"
        self.libraries = f"{self.packages}/usr/lib/x86_64-linux-gnu:{self.packages}/lib/x86_64-linux-gnu"
        self.program = program
        self.starter, self.neighbours = Starter(program), []

    def start(self, settings):
        """Starts a collector, and waits until it answers: it listens before its queues are laid out, which takes a program with checks seconds."""
        collector = self.starter(settings)
        want("the first answer", collector.ask(request_of(b"{}"))[0], 200)
        return collector

    def stop(self):
        for it in self.neighbours:
            it.end()
        for collector in self.starter.started:
            collector.stop()
