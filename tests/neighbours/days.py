"""The README's three steps beside a Collector on a bad day: while 100,000 spans a minute come, the collector is restarted, its disk is full for a while,
its output is rotated, and the backend is away. It needs root (for a disk of its own), a C compiler and curl."""

import http.client
import os
import re
import signal
import subprocess
import sys
import threading
import time

from applications import Backend, core_by_the_recipe
from running import RECIPES, TOP, Failure, free_port, post, want

# Spans of a request, and requests in all: 100,000 spans within a minute.
SPANS, REQUESTS, SECONDS = 500, 200, 60
# When what happens, in seconds, and for how long.
RESTART, FULL, AWAY = 10, (20, 8), (38, 10)
DISK_MIB, FILE_MIB = 48, 4


class Service:
    """`tsc serve` under its launcher, as the unit of the package runs it."""

    def __init__(self, here, configuration, port):
        self.here, self.port = here, port
        self.launcher = here.folder / "tsc-run"
        subprocess.run(["cc", "-O2", "-o", self.launcher, TOP / "packaging/launcher/tsc-run.c"], check=True)
        self.configuration = here.folder / "tsc.toml"
        self.configuration.write_text(configuration, "utf-8")
        self.said = open(here.folder / "log", "w+", encoding="utf-8")
        self.printed = open(here.folder / "printed", "w+", encoding="utf-8")
        self.process = None
        self.begin()

    def begin(self):
        """Begins it, and waits until it listens."""
        words = [self.launcher, "--program", self.here.program, self.configuration]
        self.process = subprocess.Popen(words, stdout=self.printed, stderr=self.said)
        for _ in range(600):
            connection = http.client.HTTPConnection("127.0.0.1", self.port, timeout=30)
            try:
                if post(connection, []) == 200:
                    return
            except OSError:
                time.sleep(0.1)
            finally:
                connection.close()
        raise Failure("tsc doesn't listen")

    def close(self):
        """Closes it by a signal."""
        self.process.send_signal(signal.SIGTERM)
        want("the status at the close", self.process.wait(60), 0)

    def events(self):
        """What it logged."""
        self.said.flush()
        self.said.seek(0)
        return re.findall(r"(?m)^\S+ \w+ (\w+)", self.said.read())

    def reports(self):
        """The nine numbers of each close."""
        self.printed.seek(0)
        numbers = [int(line.rsplit(" ", 1)[1]) for line in self.printed.read().splitlines()]
        return [numbers[at : at + 9] for at in range(0, len(numbers), 9)]


class Disk:
    """A disk of its own, in memory."""

    def __init__(self, folder):
        self.folder = folder
        folder.mkdir()
        subprocess.run(["mount", "-t", "tmpfs", "-o", f"size={DISK_MIB}m", "none", folder], check=True)

    def fill(self):
        """Leaves no room on it."""
        with open(self.folder / "other", "wb", buffering=0) as file:
            try:
                while file.write(bytes(65536)):
                    pass
            except OSError:
                pass

    def clear(self):
        """Makes room again."""
        os.remove(self.folder / "other")

    def end(self):
        """Gives it back."""
        subprocess.run(["umount", "-l", self.folder], check=False)


def span(at, number):
    """A span of a trace: every fifth trace has an error in its second span."""
    attributes = [{"key": "ratio", "value": {"doubleValue": at / 8}}, {"key": "note", "value": {"stringValue": "x" * 120}}]
    parent = {"parentSpanId": f"{2 * at:016x}"} if number else {}
    return {"traceId": f"{at:032x}", "spanId": f"{2 * at + number:016x}", **parent, "status": {"code": 2} if number and at % 5 == 0 else {}, "attributes": attributes}


def send_for_a_minute(port, problems):
    """Sends to the Collector; each answer must be 200."""
    connection, began = http.client.HTTPConnection("127.0.0.1", port, timeout=60), time.monotonic()
    for request in range(REQUESTS):
        first = request * SPANS // 2 + 1
        spans = [span(at, number) for at in range(first, first + SPANS // 2) for number in (0, 1)]
        status = post(connection, spans)
        if status != 200:
            problems.append(f"request {request} of the Collector was answered {status}")
        time.sleep(max(0, began + (request + 1) * SECONDS / REQUESTS - time.monotonic()))
    connection.close()


def the_three_steps_on_a_bad_day(here):
    """Nothing of a trace with an error is missing behind the Collector, once each, and the log says what happened."""
    (here.folder / "collector.yaml").write_text(
        "processors: { tail_sampling: { decision_wait: 5s, policies: [{ name: errors, type: status_code, status_code: { status_codes: [ERROR] } }] } }\n", "utf-8"
    )
    words = [sys.executable, TOP / "packaging/import/tsc-import", "--beside", "--program", here.program, "collector.yaml"]
    made = subprocess.run(words, cwd=here.folder, capture_output=True, text=True, check=True).stdout
    disk, backend = Disk(here.folder / "disk"), Backend()
    output = disk.folder / "kept.jsonl"
    port = free_port()
    more = f'close_at_end_of_input = true\noutput = "{output}"\noutput_fault = "retry"\noutput_max_mib = {FILE_MIB}\noutput_keep = 20\nqueue_full = "retry"\n'
    service = Service(here, more + made.replace("127.0.0.1:4328", f"127.0.0.1:{port}"), port)
    core, ports = core_by_the_recipe(here, service, backend)
    output.touch()
    tail = subprocess.Popen(["tail", "-n", "+1", "-F", output], stdout=subprocess.PIPE, stderr=subprocess.DEVNULL)
    hands_on = subprocess.Popen([str(RECIPES / "hand_on.sh"), f"http://127.0.0.1:{ports[4338]}/v1/traces"], stdin=tail.stdout)
    problems = []
    sender = threading.Thread(target=send_for_a_minute, args=(ports[4318], problems))
    try:
        began = time.monotonic()
        wait_until = lambda moment: time.sleep(max(0, began + moment - time.monotonic()))
        sender.start()
        wait_until(RESTART)
        service.close()
        service.begin()
        wait_until(FULL[0])
        disk.fill()
        wait_until(sum(FULL))
        disk.clear()
        wait_until(AWAY[0])
        backend.server.socket.close()
        wait_until(sum(AWAY))
        backend.end()
        gone, backend = backend, Backend(backend.port)
        sender.join()
        wanted = sorted(2 * at + number for at in range(5, SPANS * REQUESTS // 2 + 1, 5) for number in (0, 1))
        for _ in range(900):
            if len(gone.spans()) + len(backend.spans()) >= len(wanted):
                break
            time.sleep(0.1)
        service.close()
        came = sorted(int(it["spanId"], 16) for it in gone.spans() + backend.spans())
        print(f"sent {SPANS * REQUESTS}, wanted {len(wanted)}, came {len(came)} ({len(set(came))} of them once), reports {service.reports()}, events {service.events()}", flush=True)
        want("what the Collector answered otherwise", problems, [])
        want("how many files the output has", len(list(disk.folder.glob("kept.jsonl.*"))) >= 1, True)
        want("what is missing behind the Collector", sorted(set(wanted) - set(came))[:5], [])
        want("what came that isn't of a trace with an error", sorted(set(came) - set(wanted))[:5], [])
        want("whether the full disk was said", {"output_failing", "output_back"} <= set(service.events()), True)
    finally:
        tail.kill()
        tail.wait()
        tail.stdout.close()
        hands_on.wait(60)
        service.process.kill()
        service.process.wait()
        core.end()
        backend.end()
        disk.end()


CHECKS = [the_three_steps_on_a_bad_day]
