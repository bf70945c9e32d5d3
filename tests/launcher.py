#!/usr/bin/env python3
"""Runs `tsc serve` under the launcher of packaging/launcher: the signals that close it in order, from a terminal, as process 1 and from a manager that
signals every process; its exit statuses, `tsc close` in place of the end of input, and its look at the health. It needs a C compiler, and root for
process 1.

usage: launcher.py PROGRAM..

Its last line is 'N passed, M failed'."""

import functools
import os
import pty
import re
import resource
import shutil
import signal
import socket
import subprocess
import sys
import tempfile
import time
from pathlib import Path

from collector import ALL, PATIENCE, Client, body_of, free_port, post, run_checks, until, want

SOURCE = Path(__file__).resolve().parent.parent / "packaging" / "launcher" / "tsc-run.c"
AT_END = "close_at_end_of_input = true\n"
# Room for all that a check sends, which waits until the close.
ROOM = "queue_capacity = 16384\ndecision_wait_ms = 3600000\n"
FOLDER = tempfile.TemporaryDirectory()
MOST = 10000
# What the check that runs has started.
STARTED = []
# A program that says what it was asked for, ends with 7 a second after the end of its input, and refuses the first two closes.
STAND_IN = """#!/bin/sh
cd "$(dirname "$0")"
echo "$1" >> asked
case $1 in
    serve) echo out; echo err >&2; cat > /dev/null; [ -e at_end ] || until [ -e closed ]; do sleep 0.1; done; sleep 1; exit 7 ;;
    close) cat "$2" > closed_by; [ "$(grep -c close asked)" -gt 2 ] || exit 6; touch closed ;;
esac
"""


@functools.cache
def launcher_in(folder):
    """The launcher, compiled into a folder."""
    launcher = os.path.join(folder.name, "tsc-run")
    flags = ["-std=c17", "-O2", "-Wall", "-Wextra", "-Wconversion", "-Werror"]
    subprocess.run(["cc", *flags, "-o", launcher, SOURCE], check=True)
    return launcher


def built():
    """The launcher, compiled once."""
    return launcher_in(FOLDER)


class Launched:
    """The program under the launcher, its output in a file."""

    def __init__(self, program, settings=AT_END, before=(), terminal=False, ignored=()):
        self.folder = tempfile.mkdtemp(dir=FOLDER.name)
        self.port = free_port()
        self.config = os.path.join(self.folder, "config.toml")
        Path(self.config).write_text(f'listen = "127.0.0.1:{self.port}"\n' + ROOM + settings + ALL, "utf-8")
        self.printed = Path(self.folder, "printed")
        self.said = Path(self.folder, "said")
        command = [*before, built(), "--program", program, self.config]
        self.terminal, self.waiting = None, 0
        if terminal:
            pid, self.terminal = pty.fork()
            if pid == 0:
                with open(self.printed, "wb") as out:
                    os.dup2(out.fileno(), 1)
                os.execv(command[0], command)
            self.pid, self.process = pid, None
        else:
            with open(self.printed, "wb") as out, open(self.said, "wb") as said:
                self.process = subprocess.Popen(
                    command, stdin=subprocess.DEVNULL, stdout=out, stderr=said, start_new_session=True,
                    preexec_fn=lambda: [signal.signal(it, signal.SIG_IGN) for it in ignored],
                )
            self.pid = self.process.pid
        STARTED.append(self)

    def listens(self):
        """Waits until the program listens."""

        def answers():
            try:
                socket.create_connection(("127.0.0.1", self.port), timeout=PATIENCE).close()
                return True
            except ConnectionRefusedError:
                return False

        until("it listens", answers)
        return self

    def takes_spans(self, count=1000):
        """So many spans, which then wait."""
        self.waiting = count
        self.listens()
        client = Client(self.port)
        for first in range(0, count, 500):
            client.send(post(body_of([{"traceId": f"{it + 1:032x}", "spanId": f"{it + 1:016x}"} for it in range(first, first + 500)])))
            want("the answer", client.answer()[::2], (200, "{}"))
        client.close()
        want("what was printed before the close", self.printed.read_bytes(), b"")
        return self

    def child_of(self, pid):
        """The one process that a process has begun."""
        children = Path(f"/proc/{pid}/task/{pid}/children").read_text().split()
        want("the number of children", len(children), 1)
        return int(children[0])

    def end(self):
        """The exit status."""
        if self.process is not None:
            return self.process.wait(timeout=PATIENCE)
        until("the end", lambda: os.waitid(os.P_PID, self.pid, os.WEXITED | os.WNOHANG | os.WNOWAIT) is not None)
        return os.waitstatus_to_exitcode(os.waitpid(self.pid, 0)[1])

    def numbers(self):
        """The report's numbers."""
        return [int(line.rsplit(" ", 1)[1]) for line in self.printed.read_text("utf-8").split("\n")[-10:-1]]

    def wants_all(self):
        """Each span that waited was printed once, and the report behind them; the launcher said nothing."""
        if self.terminal is None and self.process is not None:
            want("what the launcher says", [it for it in self.said.read_text("utf-8").split("\n") if it.startswith("tsc-run")], [])
        text = self.printed.read_text("utf-8")
        ids = re.findall(r'"traceId":"([0-9a-f]{32})"', text)
        want("how many spans were printed", len(ids), self.waiting)
        want("which", set(ids), {f"{it + 1:032x}" for it in range(self.waiting)})
        want("the report", self.numbers(), [self.waiting, self.waiting, 0, 0, 0, 0, 0, 0, 0])

    def stop(self):
        """Kills what is left of it: the launcher and its program are a group of their own."""
        try:
            os.killpg(self.pid, signal.SIGKILL)
        except ProcessLookupError:
            pass
        if self.process is not None:
            self.process.wait()
        if self.terminal is not None:
            os.close(self.terminal)
        shutil.rmtree(self.folder, ignore_errors=True)


def stand_in(settings, at_end=False, **others):
    """The launcher with the stand-in for a program."""
    folder = tempfile.mkdtemp(dir=FOLDER.name)
    program = Path(folder, "program")
    program.write_text(STAND_IN, "utf-8")
    program.chmod(0o755)
    if at_end:
        Path(folder, "at_end").touch()
    launched = Launched(str(program), settings, **others)
    until("it runs", lambda: launched.printed.read_bytes() == b"out\n" and launched.said.read_bytes() == b"err\n")
    return launched, Path(folder)


def closed_by_each_signal(start):
    """SIGTERM, SIGINT and SIGHUP to the launcher alone: what waits is decided and printed."""
    for it, count in ((signal.SIGTERM, MOST), (signal.SIGINT, 1000), (signal.SIGHUP, 1000)):
        launched = Launched(start.program).takes_spans(count)
        os.kill(launched.pid, it)
        want("the status", launched.end(), 0)
        launched.wants_all()


def closed_where_all_are_signalled(start):
    """The signal goes to every process, as a manager, `timeout` and `kill -TERM -GROUP` send it; and to the program alone, where it changes nothing."""
    launched = Launched(start.program).takes_spans()
    program = launched.child_of(launched.pid)
    for it in (signal.SIGTERM, signal.SIGINT, signal.SIGHUP):
        os.kill(program, it)
    time.sleep(0.5)
    want("what was printed", launched.printed.read_bytes(), b"")
    os.killpg(launched.pid, signal.SIGTERM)
    want("the status", launched.end(), 0)
    launched.wants_all()


def closed_from_a_terminal(start):
    """Ctrl-C, twice: the terminal signals the whole foreground group."""
    launched = Launched(start.program, terminal=True).takes_spans()
    os.write(launched.terminal, b"\x03\x03")
    want("the status", launched.end(), 0)
    launched.wants_all()


def closed_with_its_terminal(start):
    """The terminal goes away."""
    launched = Launched(start.program, terminal=True).takes_spans()
    os.close(launched.terminal)
    launched.terminal = None
    want("the status", launched.end(), 0)
    launched.wants_all()


def closed_as_process_1(start):
    """In a namespace of its own, where SIGTERM without a handler does nothing; orphans are taken, too."""
    launched = Launched(start.program, before=["unshare", "--pid", "--fork"]).takes_spans()
    launcher = launched.child_of(launched.pid)
    status = Path(f"/proc/{launcher}/status").read_text("utf-8")
    want("it is process 1", [line.split()[-1] for line in status.split("\n") if line.startswith("NSpid:")], ["1"])
    program = launched.child_of(launcher)
    subprocess.run(["nsenter", "-t", str(launcher), "-p", "sh", "-c", "sleep 600 & exit"], check=True)
    children = lambda: set(map(int, Path(f"/proc/{launcher}/task/{launcher}/children").read_text().split()))
    until("the orphan comes", lambda: len(children()) == 2)
    os.kill(*(children() - {program}), signal.SIGKILL)
    until("the orphan is taken", lambda: children() == {program})
    os.kill(launcher, signal.SIGTERM)
    want("the status", launched.end(), 0)
    launched.wants_all()


def closed_where_the_launcher_is_killed(start):
    """SIGKILL: the program sees the end of its input."""
    launched = Launched(start.program).takes_spans()
    os.kill(launched.pid, signal.SIGKILL)
    want("the status", launched.end(), -signal.SIGKILL)
    until("the report", lambda: launched.printed.read_bytes().endswith(b"dropped 7 0\n"))
    launched.wants_all()


def closed_without_the_key(start):
    """Without `close_at_end_of_input` it is closed by `tsc close`, at the address of the start, also where the file was changed since."""
    launched = Launched(start.program, "").takes_spans()
    Path(launched.config).write_text("policies = []\n", "utf-8")
    os.kill(launched.pid, signal.SIGTERM)
    want("the status", launched.end(), 0)
    launched.wants_all()


def signalled_at_once(start):
    """A signal that comes before the program listens isn't lost."""
    for settings in (AT_END, ""):
        launched = Launched(start.program, settings)
        until("the program runs", lambda: Path(f"/proc/{launched.pid}/task/{launched.pid}/children").read_text() != "")
        os.kill(launched.pid, signal.SIGTERM)
        want("the status", launched.end(), 0)
        want("the report", launched.numbers(), [0] * 9)


def key_is_found(_):
    """The key in its ways, and what isn't it: where it is found nobody asks for a close."""
    found = [AT_END, "close_at_end_of_input=true\n", "\t close_at_end_of_input \t=\ttrue \t# words\r\n"]
    found += ["# words\n" + AT_END + "[export]\n"]
    for settings in found:
        launched, folder = stand_in(settings, at_end=True)
        os.kill(launched.pid, signal.SIGTERM)
        want("the status", launched.end(), 7)
        want("what was asked for", (folder / "asked").read_text(), "serve\n")
    others = ["", "close_at_end_of_input = false\n", "close_at_end_of_input = truest\n", "close_at_end_of_input_ = true\n"]
    others += ["#" + AT_END, "[export]\n" + AT_END]
    for settings in others:
        launched, folder = stand_in(settings)
        os.kill(launched.pid, signal.SIGTERM)
        want("the status", launched.end(), 7)
        want("what was asked for", (folder / "asked").read_text(), "serve\nclose\nclose\nclose\n")
        want("by which configuration", (folder / "closed_by").read_text(), Path(launched.config).read_text("utf-8"))
        want("standard output and error", (launched.printed.read_bytes(), launched.said.read_bytes()), (b"out\n", b"err\n"))


def further_signals(_):
    """Those behind the first change nothing."""
    launched, folder = stand_in(AT_END, at_end=True)
    began = time.monotonic()
    for _ in range(5):
        for it in (signal.SIGTERM, signal.SIGINT, signal.SIGHUP):
            os.kill(launched.pid, it)
        time.sleep(0.05)
    want("the status", launched.end(), 7)
    want("it was waited for", time.monotonic() - began >= 0.9, True)
    want("what was asked for", (folder / "asked").read_text(), "serve\n")


def signals_that_are_ignored(_):
    """SIGHUP and SIGINT stay ignored where they were, as by `nohup` and by a shell's `&`; SIGTERM closes all the same."""
    launched, _ = stand_in(AT_END, at_end=True, ignored=(signal.SIGTERM, signal.SIGINT, signal.SIGHUP))
    os.kill(launched.pid, signal.SIGHUP)
    os.kill(launched.pid, signal.SIGINT)
    time.sleep(1.5)
    want("it still runs", launched.process.poll(), None)
    os.kill(launched.pid, signal.SIGTERM)
    want("the status", launched.end(), 7)


def statuses(start):
    """What it ends with: a signal that ended the program, a refused configuration, no program, wrong arguments."""
    launched = Launched(start.program).listens()
    os.kill(launched.child_of(launched.pid), signal.SIGKILL)
    want("the status behind SIGKILL", launched.end(), 128 + 9)
    words = [built(), "--program", start.program, "/nowhere/config.toml"]
    refused = subprocess.run(words, stdin=subprocess.DEVNULL, capture_output=True, timeout=PATIENCE, check=False)
    want("a configuration that isn't there", (refused.returncode, refused.stdout), (3, b"tsc: configuration refused: unreadable\n"))
    cases = [(["--program", "/nowhere/tsc", launched.config], 127, b"", b"tsc-run: /nowhere/tsc: No such file or directory\n")]
    usage = b"usage: tsc-run [--program PATH] CONFIG, or tsc-run --health ADDRESS\n"
    cases += [(words, 2, b"", usage) for words in ([], ["--help"], ["--program", "x"], ["a", "b"], ["--program", "x", "y", "z"])]
    for words, *expected in cases:
        ran = subprocess.run([built(), *words], stdin=subprocess.DEVNULL, capture_output=True, timeout=PATIENCE, check=False)
        want(f"the end of {words}", [ran.returncode, ran.stdout, ran.stderr], expected)


def health(start):
    """The look at the health: a port and a socket's file; nobody there; no address; an answer that isn't 200, and none."""
    folder, launcher = tempfile.mkdtemp(dir=FOLDER.name), built()

    def looked(address):
        return subprocess.run([launcher, "--health", address], stdin=subprocess.DEVNULL, capture_output=True, timeout=PATIENCE, check=False).returncode

    for address in (f"127.0.0.1:{free_port()}", f"unix:{folder}/admin.sock"):
        want("before the start", looked(address), 1)
        launched = Launched(start.program, AT_END + f'admin = "{address}"\n').listens()
        until("it is healthy", lambda: looked(address) == 0)
        os.kill(launched.pid, signal.SIGTERM)
        want("the status", launched.end(), 0)
        want("behind the close", looked(address), 1)
    for address in ("127.0.0.1", "localhost:4319", ":4319", ""):
        want(f"at {address!r}", looked(address), 1)
    for answer in (b"HTTP/1.1 503 Service Unavailable\r\n\r\n", b"HTTP/1.1 20", b""):
        with socket.create_server(("127.0.0.1", 0)) as server:
            server.settimeout(PATIENCE)
            asking = subprocess.Popen([launcher, "--health", f"127.0.0.1:{server.getsockname()[1]}"], stdin=subprocess.DEVNULL)
            connection, _ = server.accept()
            with connection:
                connection.recv(4096)
                connection.sendall(answer)
            want(f"answered {answer!r}", asking.wait(timeout=PATIENCE), 1)


CHECKS = [
    closed_by_each_signal,
    closed_where_all_are_signalled,
    closed_from_a_terminal,
    closed_with_its_terminal,
    closed_as_process_1,
    closed_where_the_launcher_is_killed,
    closed_without_the_key,
    signalled_at_once,
    key_is_found,
    further_signals,
    signals_that_are_ignored,
    statuses,
    health,
]


def cleared(check):
    """The check, behind which nothing runs any more."""

    @functools.wraps(check)
    def run(start):
        try:
            check(start)
        finally:
            while STARTED:
                STARTED.pop().stop()

    return run


if __name__ == "__main__":
    resource.setrlimit(resource.RLIMIT_CORE, (0, 0))
    for ignored in (signal.SIGHUP, signal.SIGINT, signal.SIGQUIT, signal.SIGTERM):  # (as behind `nohup`, or in a shell's background)
        signal.signal(ignored, signal.SIG_DFL)
    if not sys.argv[1:]:
        sys.exit(__doc__.split("\n\n")[1])
    run_checks([os.path.abspath(it) for it in sys.argv[1:]], [cleared(it) for it in CHECKS])
