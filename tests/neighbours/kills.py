"""A collector with a ledger that is killed while an SDK sends to it, and begun again: what the SDK was told that it is taken is in the output."""

import collections
import json
import subprocess
import threading
import time

from running import ALL, Failure, free_port, want

SECONDS, KILLS = 24, 5


class Killed:
    """`tsc serve` on one port, one ledger and one output, which is killed again and again."""

    def __init__(self, here):
        self.program, self.folder, self.port = here.program, here.folder, free_port()
        settings = f'listen = "127.0.0.1:{self.port}"\noutput = "{self.folder}/spans.jsonl"\naccept_protobuf = true\naccept_gzip = true\ndecision_wait_ms = 1500\ntick_ms = 100\nlanes = 2\nshards = 2\n'
        (self.folder / "tsc.toml").write_text(settings + ALL + f'[ledger]\npath = "{self.folder}/ledger"\n', "utf-8")
        self.said = open(self.folder / "log", "w+b")
        self.process = None
        self.begin()

    def begin(self):
        """Begins it."""
        self.process = subprocess.Popen([self.program, "serve", self.folder / "tsc.toml"], stdin=subprocess.DEVNULL, stdout=subprocess.DEVNULL, stderr=self.said)

    def killed(self, times, pause):
        """Kills it so often, each time behind a pause, and begins it again a second later."""
        for _ in range(times):
            time.sleep(pause)
            self.process.kill()
            self.process.wait()
            time.sleep(1)
            self.begin()

    def close(self):
        """Closes it, once it answers."""
        end = time.monotonic() + 60
        while subprocess.run(["curl", "-sf", "-X", "POST", f"http://127.0.0.1:{self.port}/close"], capture_output=True, check=False).returncode:
            if time.monotonic() > end:
                raise Failure("the collector doesn't answer")
            time.sleep(0.2)
        want("the status at the close", self.process.wait(60), 0)


def printed(path):
    """How often each span is in the output, but for lines that a kill has cut."""
    found = collections.Counter()
    for line in path.read_bytes().splitlines():
        try:
            whole = json.loads(line)
        except ValueError:
            continue
        found.update(span["spanId"] for resource in whole["resourceSpans"] for scope in resource["scopeSpans"] for span in scope["spans"])
    return found


def kills_beside_the_python_sdk(here):
    """The Python SDK exports while the collector is killed. Each span whose export succeeded is in the output."""
    collector, root = Killed(here), here.fetched / "python/usr"
    libraries = root / "lib/x86_64-linux-gnu"
    words = [libraries / "ld-linux-x86-64.so.2", "--library-path", libraries, next((root / "bin").glob("python3.*")), here.clients / "kept_client.py", str(SECONDS)]
    settings = {"OTEL_EXPORTER_OTLP_ENDPOINT": f"http://127.0.0.1:{collector.port}", "PYTHONHOME": str(root), "PYTHONPATH": str(root / "lib/python3/dist-packages")}
    killer = threading.Thread(target=collector.killed, args=(KILLS, SECONDS / (KILLS + 1) - 1))
    killer.start()
    said = subprocess.run(words, env=settings, capture_output=True, text=True, check=True, timeout=300).stdout
    killer.join()
    collector.close()
    told = [it.split() for it in said.splitlines()]
    succeeded = {span for span, answer in told if answer == "SUCCESS"}
    found = printed(collector.folder / "spans.jsonl")
    want("whether spans were taken before and behind each kill", len(succeeded) > 1000, True)
    want("how many spans are missing whose export succeeded", len(succeeded - set(found)), 0)
    print(f"kills_beside_the_python_sdk: {KILLS} kills, {len(told)} spans, the export of {len(succeeded)} succeeded, {len(found)} handed over, {sum(found.values()) - len(found)} of them twice")


CHECKS = [kills_beside_the_python_sdk]
