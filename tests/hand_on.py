#!/usr/bin/env python3
"""Runs examples/neighbours/hand_on.sh into a backend that answers as each check says: what is sent again, what is left out, what it says. It needs curl.

usage: hand_on.py

Its last line is 'N passed, M failed'."""

import http.server
import subprocess
import threading
import time
from pathlib import Path

from collector import PATIENCE, free_port, run_checks, tried, want

SCRIPT = Path(__file__).resolve().parent.parent / "examples" / "neighbours" / "hand_on.sh"
LINES = [f'{{"resourceSpans":[],"line":{number}}}' for number in range(1, 6)]
REPORT = "received 0\nhanded 0\ndropped 1 0\n"


class Backend:
    """Answers the requests in order as it is told, and those beyond with 200; an answer is a status, or one with a `Retry-After`."""

    def __init__(self, answers=(), port=0):
        self.taken, self.at, left = [], [], list(answers)
        backend = self

        class Handler(http.server.BaseHTTPRequestHandler):
            """One request."""

            def do_POST(self):
                """Answers it."""
                backend.taken.append(self.rfile.read(int(self.headers["Content-Length"])).decode())
                backend.at.append(time.monotonic())
                want("the type", self.headers["Content-Type"], "application/json")
                status, after = left.pop(0) if left else (200, None)
                if status == 0:  # (no answer: the connection ends)
                    self.close_connection = True
                    return
                body = b'{"message":"said"}' if status != 200 else b"{}"
                self.send_response(status)
                if after is not None:
                    self.send_header("Retry-After", after)
                self.send_header("Content-Length", str(len(body)))
                self.end_headers()
                self.wfile.write(body)

            def log_message(self, *_):
                """Says nothing."""

        self.server = http.server.ThreadingHTTPServer(("127.0.0.1", port), Handler)
        threading.Thread(target=self.server.serve_forever, daemon=True).start()
        self.url = f"http://127.0.0.1:{self.server.server_address[1]}/v1/traces"

    def bodies(self):
        """What came, without the line feed that stands behind a line."""
        return [it.rstrip("\n") for it in self.taken]

    def end(self):
        """Ends it."""
        self.server.shutdown()
        self.server.server_close()


def handed(text, url):
    """The end of the script on such an input: its status and the lines on standard error."""
    ran = subprocess.run([SCRIPT, url], input=text, capture_output=True, text=True, timeout=PATIENCE, check=False)
    want("standard output", ran.stdout, "")
    return ran.returncode, ran.stderr.splitlines()


def all_are_taken(_):
    """Each line once, in order, and the report not; the last one without a line feed."""
    backend = Backend()
    want("the end", handed("\n".join(LINES[:3]) + "\n" + REPORT + LINES[3], backend.url), (0, []))
    want("what came", backend.bodies(), LINES[:4])
    backend.end()


def sent_again(_):
    """No answer, 429, 502, 503 and 504: the same line again, until it is taken, and told once when it begins and ends."""
    backend = Backend([(200, None), (0, None), (429, None), (502, None), (503, None), (504, None)])
    status, said = handed("\n".join(LINES[:3]) + "\n", backend.url)
    want("the status", status, 0)
    want("what came", backend.bodies(), [LINES[0]] + 6 * [LINES[1]] + [LINES[2]])
    want("how often it was told", len(said), 2)
    want("that it begins", said[0].startswith("hand_on.sh: line 2 is sent again until it is taken: answered 000 curl: (52)"), True)
    want("that it ends", said[1], "hand_on.sh: line 2 was taken")
    backend.end()


def after_as_long_as_said(_):
    """`Retry-After` in seconds, and less than two more (and three times what the script takes for a line that is taken at once); without one, and where
    it is no number of seconds, a second. There are three tries."""
    tried(3, pauses_as_said)


def pauses_as_said():
    """The same, once."""
    backend = Backend([(503, "3"), (503, None), (503, "Fri, 31 Dec 1999 23:59:59 GMT"), (503, "0")])
    want("the status", handed(LINES[0] + "\n", backend.url)[0], 0)
    want("how many came", len(backend.at), 5)
    began = time.monotonic()
    want("the end of another", handed(LINES[1] + "\n", backend.url), (0, []))
    more = 1.9 + 3 * (time.monotonic() - began)
    for number, (wanted, before, now) in enumerate(zip((3, 1, 1, 1), backend.at, backend.at[1:])):
        want(f"whether pause {number}, {now - before:.2f} s, is {wanted} and less than {more:.2f} more", wanted <= now - before < wanted + more, True)
    backend.end()


def left_out(_):
    """Any other answer: the line is told, counted and passed over; a line that was cut, too."""
    backend = Backend([(400, None), (200, None), (413, None), (500, None), (301, None)])
    cut = LINES[0][:9] + "\n"
    status, said = handed(cut + "\n".join(LINES) + "\n", backend.url)
    want("the status", status, 1)
    want("what came", backend.bodies(), [cut.strip(), *LINES])
    numbers = [(1, 400), (3, 413), (4, 500), (5, 301)]
    told = [f'line {line} is left out, {so_far} so far: answered {code} {{"message":"said"}}' for so_far, (line, code) in enumerate(numbers, 1)]
    want("what it says", said, [f"hand_on.sh: {it}" for it in [*told, "4 lines were left out"]])
    backend.end()


def backend_comes_late(_):
    """Nobody is there at first."""
    port, ended = free_port(), []
    running = threading.Thread(target=lambda: ended.append(handed(LINES[0] + "\n", f"http://127.0.0.1:{port}/v1/traces")), daemon=True)
    running.start()
    time.sleep(1.5)
    want("it waits", ended, [])
    backend = Backend(port=port)
    running.join(PATIENCE)
    want("the status", ended[0][0], 0)
    want("what came", backend.bodies(), LINES[:1])
    backend.end()


def wrong_arguments(_):
    """No URL, two, and one that is none: it ends, and sends nothing."""
    usage = (2, ["usage: hand_on.sh URL"])
    for words in ([], ["http://127.0.0.1:1/", "x"]):
        ran = subprocess.run([SCRIPT, *words], input=LINES[0], capture_output=True, text=True, timeout=PATIENCE, check=False)
        want(f"the end by {words}", (ran.returncode, ran.stderr.splitlines()), usage)
    status, said = handed(LINES[0] + "\n", "nothing://127.0.0.1")
    want("the status", status, 2)
    want("what it says", len(said) == 1 and said[0].startswith("curl: (1) "), True)


CHECKS = [all_are_taken, sent_again, after_as_long_as_said, left_out, backend_comes_late, wrong_arguments]

if __name__ == "__main__":
    run_checks([str(SCRIPT)], CHECKS)
