"""A running `tsc serve` and its clients, for the checks of serve.py and serve_limits.py: what they send, what they are answered, what it prints."""

import json
import os
import random
import re
import resource
import socket
import subprocess
import sys
import tempfile
import time

A = "5b8efff798038103d269b633813fc60c"
ERROR_SPAN = {"traceId": A, "spanId": "eee19b7ec3c1b174", "status": {"code": 2}}
# The canonical text of a request of this span: keys in order, no spaces.
ERROR_LINE = (
    '{"resourceSpans":[{"scopeSpans":[{"spans":[{"spanId":"eee19b7ec3c1b174","status":{"code":2},'
    '"traceId":"5b8efff798038103d269b633813fc60c"}]}]}]}'
)
NAMES = ["received", "handed"] + [f"dropped {reason}" for reason in range(1, 8)]
ERRORS = 'policies = [{ name = "errors", type = "status_code", status_code = { status_codes = ["ERROR"] } }]\n'
ALL = 'policies = [{ name = "all", type = "always_sample" }]\n'
# So many seconds is waited for what comes at once where nothing else runs: a machine may be slow, or stand still for a while.
PATIENCE = 300
# So many checks of a run may fail once and pass when they are made again.
MOST_UNSTEADY = 2
# The ports that `free_port` gave.
GIVEN = set()


class Failure(Exception):
    """What a check found to be other than it must be."""


class LeftOut(Exception):
    """Why a check can't be made on this machine."""


def want(what, got, expected):
    """Compares, and says what differs."""
    if got != expected:
        raise Failure(f"{what}: {got!r} and not {expected!r}")


def until(what, holds, seconds=PATIENCE):
    """Waits until something holds."""
    end = time.monotonic() + seconds
    while not holds():
        if time.monotonic() > end:
            raise Failure(f"{what}: not within {seconds} seconds")
        time.sleep(0.02)


def comes_to(what, told, wanted):
    """Waits until this is told."""
    end = time.monotonic() + PATIENCE
    while (got := told()) != wanted and time.monotonic() < end:
        time.sleep(0.05)
    want(what, got, wanted)


def tried(times, attempt):
    """Makes an attempt, and again where it fails, so many times at most: one that a machine may spoil by standing still for a second. Where it fails for
    another reason, it does so each time."""
    for left in reversed(range(times)):
        try:
            return attempt()
        except (Failure, OSError):
            if left == 0:
                raise


def free_port():
    """A port that nobody has. It is none of those that the system gives to who connects, so that no client takes it before it is listened at."""
    with open("/proc/sys/net/ipv4/ip_local_port_range", encoding="utf-8") as file:
        first, last = map(int, file.read().split())
    ports = range(10000, first) if first > 12000 else range(last + 1, 65536)
    while True:
        port = random.choice(ports)
        with socket.socket() as probe:
            try:
                probe.bind(("127.0.0.1", port))
            except OSError:
                continue
        if port not in GIVEN:
            GIVEN.add(port)
            return port


def body_of(spans):
    """The text of a request of these spans, of one resource and scope."""
    return json.dumps({"resourceSpans": [{"scopeSpans": [{"spans": spans}]}]}).encode()


def post(body, path="/v1/traces", method="POST", fields=()):
    """The bytes of a request with a length."""
    head = [f"{method} {path} HTTP/1.1", "Host: collector", "Content-Type: application/json"]
    head += [f"Content-Length: {len(body)}", *fields]
    return "\r\n".join(head).encode() + b"\r\n\r\n" + body


def is_listening(address):
    """Whether somebody listens at the port of an address. The system is asked, since a check may count who connects."""
    return "0A" in [row[3] for row in sockets_at(address.rsplit(":", 1)[1])]


def sockets_at(port):
    """The system's rows of the sockets at a port: the fourth word is the state, the tenth the number of its file, or 0 where no process has one."""
    end, rows = f":{int(port):04X}", []
    for path in ("/proc/net/tcp", "/proc/net/tcp6"):
        if os.path.exists(path):
            with open(path, encoding="utf-8") as file:
                rows += [line.split() for line in file]
    return [row for row in rows if row[1].endswith(end)]


class Client:
    """A connection to the collector."""

    def __init__(self, port):
        self.socket = socket.create_connection(("127.0.0.1", port), timeout=PATIENCE)
        self.left = b""

    def send(self, data):
        """Sends bytes."""
        self.socket.sendall(data)

    def until(self, mark):
        """The bytes up to a mark, and the mark."""
        while mark not in self.left:
            more = self.socket.recv(65536)
            if not more:
                raise Failure(f"the connection ended behind {self.left!r}")
            self.left += more
        end = self.left.index(mark) + len(mark)
        taken, self.left = self.left[:end], self.left[end:]
        return taken

    def answer(self, has_body=True):
        """The status, the fields and the body of an answer."""
        lines = self.until(b"\r\n\r\n").decode().split("\r\n")
        status = int(lines[0].split(" ")[1])
        fields = dict(line.lower().split(": ", 1) for line in lines[1:] if line)
        length = int(fields.get("content-length", "0")) if has_body else 0
        while len(self.left) < length:
            more = self.socket.recv(65536)
            if not more:
                raise Failure("the connection ended within an answer")
            self.left += more
        body, self.left = self.left[:length], self.left[length:]
        return status, fields, body.decode()

    def rest(self):
        """All bytes up to the end of the connection."""
        while more := self.socket.recv(65536):
            self.left += more
        return self.left

    def close(self):
        """Ends the connection."""
        self.socket.close()


def get(path, method="GET"):
    """The bytes of a request without a body."""
    return f"{method} {path} HTTP/1.1\r\nHost: collector\r\n\r\n".encode()


def asked(port, data, has_body=True):
    """One request on a connection of its own, which ends behind the answer."""
    client = Client(port)
    client.send(data)
    answer = client.answer(has_body)
    want("what follows the answer", client.rest(), b"")
    client.close()
    return answer


def scrape(port):
    """The numbers that the text of `/metrics` tells, by their names."""
    status, fields, text = asked(port, get("/metrics"))
    want("the status of /metrics", (status, fields["content-type"]), (200, "text/plain; version=0.0.4; charset=utf-8"))
    samples = [line for line in text.split("\n") if line and not line.startswith("#")]
    return {name: int(value) for name, value in (line.rsplit(" ", 1) for line in samples)}


class Collector:
    """A running `tsc serve`, whose output goes to a file."""

    def __init__(self, program, settings, output=None, limits=(), stdin=subprocess.DEVNULL, surroundings=()):
        self.port = free_port()
        self.folder = tempfile.TemporaryDirectory()
        config = os.path.join(self.folder.name, "config.toml")
        with open(config, "w", encoding="utf-8") as file:
            # What is said on standard error is looked at where a check asks for it.
            log = re.search(r'^log = "(\w+)"', settings, re.M)
            self.is_quiet = log is None or log[1] == "off"
            quiet = "" if log else 'log = "off"\n'
            file.write(f'listen = "127.0.0.1:{self.port}"\n' + quiet + settings)
        self.addresses = [f"127.0.0.1:{self.port}"] + re.findall(r'^(?:admin|metrics) = "(?!unix:)(.+)"$', settings, re.M)
        self.errors = open(os.path.join(self.folder.name, "said"), "wb")
        self.printed = os.path.join(self.folder.name, "printed")
        self.file = open(self.printed, "wb") if output is None else None
        self.process = subprocess.Popen(
            [program, "serve", config],
            stdin=stdin,
            stdout=self.file if output is None else output,
            stderr=self.errors,
            env={**os.environ, **dict(surroundings)},
            preexec_fn=lambda: [resource.setrlimit(which, (most, most)) for which, most in limits],
        )
        try:
            self.wait_for_port()
        except Failure as problem:
            said = self.says()[-300:]
            self.stop()
            raise Failure(f"{problem}; it said {said!r}") from problem

    def wait_for_port(self):
        """Waits until it listens at each of its addresses, and connects to the first one alone. (A socket's file has its name once it listens.)"""
        for address in self.addresses:
            until(f"it listens at {address}", lambda at=address: self.process.poll() is not None or is_listening(at))
            if self.process.poll() is not None:
                raise Failure(f"it ended at once, with status {self.process.returncode}")
        socket.create_connection(("127.0.0.1", self.port), timeout=PATIENCE).close()

    def has_open(self, count):
        """Waits until it has taken so many connections at its first address and not closed them, and no other one is on its way."""

        def counts():
            rows = [row for row in sockets_at(self.port) if row[3] != "0A"]
            taken = [row for row in rows if row[9] != "0"]
            waiting = [row for row in rows if row[9] == "0" and row[3] in ("01", "03", "08")]  # (established, coming, ended by the client)
            return len(taken), len(waiting)

        comes_to("the open connections, and those that aren't taken", counts, (count, 0))

    def says(self):
        """What it has said on standard error so far."""
        with open(self.errors.name, encoding="utf-8", errors="replace") as file:
            return file.read()

    def client(self):
        """A new connection."""
        return Client(self.port)

    def ask(self, data, has_body=True):
        """One request on a connection of its own."""
        client = self.client()
        client.send(data)
        answer = client.answer(has_body)
        client.close()
        return answer

    def close(self):
        """Says `POST /close`, and waits for the end. Gives the span lines and the nine numbers."""
        want("the answer to /close", self.ask(post(b"", "/close"))[::2], (200, "{}"))
        return self.end()

    def end(self, status=0):
        """Waits for the end. Gives the span lines and the nine numbers; what it said on standard error is in `said`."""
        want("the status", self.process.wait(timeout=PATIENCE), status)
        self.said = self.says()
        if self.is_quiet:
            want("standard error", self.said, "")
        if self.file is None:
            return None
        with open(self.printed, encoding="utf-8") as file:
            lines = file.read().split("\n")
        want("the end of the output", lines.pop(), "")
        report = [line.rsplit(" ", 1) for line in lines[-9:]]
        want("the names of the report", [name for name, _ in report], NAMES)
        numbers = [int(number) for _, number in report]
        want("the sum of the report", numbers[0], sum(numbers[1:]))
        return lines[:-9], numbers

    def stop(self):
        """Kills it, if it still runs."""
        if self.process.poll() is None:
            self.process.kill()
            self.process.wait()
        self.errors.close()
        if self.file is not None:
            self.file.close()
        self.folder.cleanup()


def spans_of(lines):
    """The spans of some lines, in order."""
    return [
        span
        for line in lines
        for resource in json.loads(line)["resourceSpans"]
        for scope in resource["scopeSpans"]
        for span in scope["spans"]
    ]


class Starter:
    """Starts collectors of one program, and stops them all."""

    def __init__(self, program):
        self.program = program
        self.started = []

    def __call__(self, settings, output=None, limits=(), stdin=subprocess.DEVNULL, surroundings=()):
        collector = Collector(self.program, settings, output, limits, stdin, surroundings)
        self.started.append(collector)
        return collector


def failure_of(check, program):
    """Makes a check on a program, and returns why it fails and what its collectors said last, as lines; none where it passes."""
    start = Starter(program)
    try:
        check(start)
        return []
    except (Failure, OSError, ValueError, LookupError, subprocess.SubprocessError) as problem:
        said = [line for collector in start.started for line in collector.says().splitlines()[-5:]]
        return [str(problem) or repr(problem), *(f"    it said: {line[:300]}" for line in said)]
    finally:
        for collector in start.started:
            collector.stop()


def run_checks(programs, checks):
    """Runs each check on each program, and ends with 'N passed, M failed' and the status. A check that fails is made once more. One that fails twice is
    told. One that passes then is told at the end as unsteady, and counts as passed; but where more are unsteady than MOST_UNSTEADY, each of them counts
    as failed. One that can't be made here is told, and fails where CI is `true`."""
    passed = failed = 0
    unsteady = []
    for program in programs:
        for check in checks:
            name = f"{check.__module__}/{check.__name__}"
            try:
                first = failure_of(check, program)
                second = first and failure_of(check, program)
            except LeftOut as why:
                failed += os.environ.get("CI") == "true"
                print(f"left out: {name}, since {why}", flush=True)
                continue
            name = f"{os.path.basename(program)} {name}"
            if second:
                print(f"{name}: " + "\n".join(second), flush=True)
            elif first:
                unsteady.append(f"unsteady: {name} failed once: " + "\n".join(first))
            passed, failed = passed + (not second), failed + bool(second)
    print("".join(f"{it}\n" for it in unsteady), end="")
    if len(unsteady) > MOST_UNSTEADY:
        print(f"{len(unsteady)} checks are unsteady and not at most {MOST_UNSTEADY}: they count as failed")
        passed, failed = passed - len(unsteady), failed + len(unsteady)
    print(f"{passed} passed, {failed} failed", flush=True)
    sys.exit(1 if failed or not passed else 0)
