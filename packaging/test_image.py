#!/usr/bin/python3
"""Makes the container's image and runs it by podman: as nobody, on a file system that it can't write to, with its health check, ended by `podman stop`.
Then what packaging/compose and packaging/kubernetes have: the compose file as docker-compose reads it, the manifests as the Kubernetes client's types
have them, and the pod of the manifests by `podman kube play`, without the Collector and on this machine's network.

It needs root, and apt-get install podman docker-compose python3-kubernetes catatonit. No part of the gate.

usage: test_image.py [--program PATH]

PATH is a program in place of the proved one. Its last line is 'N passed, M failed'."""

import json
import os
import re
import resource
import socket
import subprocess
import sys
import tarfile
import tempfile
import time
from pathlib import Path

import yaml
from kubernetes import client as kubernetes

HERE = Path(__file__).resolve().parent
sys.path.insert(0, str(HERE.parent / "tests"))
from collector import Client, Failure, body_of, post, want  # noqa: E402
from hand_on import Backend  # noqa: E402

WAITING = 10000
MANIFESTS = HERE / "kubernetes" / "tsc.yaml"
# The system's layers of cgroups may be of two versions at once, which crun doesn't take: podman runs without the second one's tree, in a mount namespace
# of its own. The network is this machine's, so ports are free ones.
ALONE = ["unshare", "-m", "sh", "-c", 'umount /sys/fs/cgroup/unified 2> /dev/null; exec podman "$@"', "podman"]
FILES = min(resource.getrlimit(resource.RLIMIT_NOFILE)[1], 66560)
LIMITS = ["--network=host", f"--ulimit=nofile={FILES}:{FILES}", "--ulimit=nproc=4096:4096"]
SHUT_IN = ["--read-only", "--cap-drop=all", "--security-opt=no-new-privileges"]
SETTINGS = """listen = "127.0.0.1:{}"
admin = "127.0.0.1:{}"
close_at_end_of_input = true
queue_capacity = 16384
policies = [{{ name = "all", type = "always_sample" }}]
"""


def podman(*words, status=0, surroundings=()):
    """What podman prints; its own complaints, as that there is no systemd for the health check's timer, aside."""
    around = {**os.environ, **dict(surroundings)}
    ran = subprocess.run([*ALONE, *words], stdin=subprocess.DEVNULL, capture_output=True, timeout=120, check=False, env=around)
    if ran.returncode != status:
        raise Failure(f"podman {words[0]}: status {ran.returncode}: {ran.stderr.decode()[-2000:]}")
    return ran.stdout.decode()


def free_port():
    """A port that nobody has."""
    with socket.socket() as probe:
        probe.bind(("127.0.0.1", 0))
        return probe.getsockname()[1]


def until(what, holds):
    """Waits until something holds, for half a minute."""
    for _ in range(300):
        if holds():
            return
        time.sleep(0.1)
    raise Failure(f"not within half a minute: {what}")


def listens(port):
    """Whether somebody takes connections at a port."""
    try:
        socket.create_connection(("127.0.0.1", port), timeout=5).close()
        return True
    except ConnectionRefusedError:
        return False


def send(port):
    """Spans that wait for half a minute."""
    connection = Client(port)
    for first in range(0, WAITING, 500):
        spans = [{"traceId": f"{it + 1:032x}", "spanId": f"{it + 1:016x}", "status": {"code": 2}} for it in range(first, first + 500)]
        connection.send(post(body_of(spans)))
        want("the answer", connection.answer()[::2], (200, "{}"))
    connection.close()


def wants_all(text):
    """Each span is once in the lines."""
    ids = re.findall(r'"traceId":"([0-9a-f]{32})"', text)
    want("how many spans came", len(ids), WAITING)
    want("which", set(ids), {f"{it + 1:032x}" for it in range(WAITING)})


class Here:
    """The image, and a folder for configurations."""

    def __init__(self, words, folder):
        made = subprocess.run([HERE / "image.sh", *words, folder], stdin=subprocess.DEVNULL, stdout=subprocess.PIPE, check=True)
        self.archive = made.stdout.decode().strip()
        self.image = "localhost/conchpewter:" + Path(self.archive).name.split("_")[1]
        self.folder = Path(folder)
        self.names = []

    def configured(self, text):
        """A file with a configuration."""
        path = self.folder / f"{time.monotonic_ns()}.toml"
        path.write_text(text, "utf-8")
        path.chmod(0o644)
        return path

    def start(self, text, *words):
        """A container that runs by a configuration; its name."""
        name = f"conchpewter-{time.monotonic_ns()}"
        self.names.append(name)
        podman("run", "-d", "--name", name, *LIMITS, *SHUT_IN, *words, "-v", f"{self.configured(text)}:/etc/tsc/serve.toml:ro", self.image)
        return name

    def clear(self):
        """Removes the containers that a check has left."""
        for name in self.names:
            podman("rm", "-f", "-i", "-t", "0", name)


def end_of(name):
    """The status with which a container ended, and what it printed; it is removed."""
    status = int(podman("wait", name))
    printed = podman("logs", name)
    podman("rm", name)
    return status, printed


def says_what_it_is(here):
    """The image's settings, and its files: all are root's, and none may be written by another."""
    said = json.loads(podman("inspect", here.image))[0]
    config = said["Config"]
    want("who runs it", config["User"], "65534:65534")
    want("what runs", (config["Entrypoint"], config["Cmd"]), (["/usr/bin/tsc-run"], ["/etc/tsc/serve.toml"]))
    want("the signal", config["StopSignal"], "SIGTERM")
    want("the health check", said["Healthcheck"]["Test"], ["CMD", "/usr/bin/tsc-run", "--health", "127.0.0.1:4319"])
    with tarfile.open(here.archive) as archive:
        layers = [it for it in archive.getmembers() if it.name.endswith(".tar") and it.isfile()]
        want("the number of layers", len(layers), 1)
        with tarfile.open(fileobj=archive.extractfile(layers[0])) as layer:
            files = {it.name: it for it in layer.getmembers()}
    want("files of others", [it.name for it in files.values() if it.uid or it.gid], [])
    want("files that others may write", [it.name for it in files.values() if not it.issym() and it.mode & 0o022], [])
    programs = sorted(name for name in files if name.startswith("usr/bin/"))
    want("its programs", programs, ["usr/bin/conchpewter", "usr/bin/tsc", "usr/bin/tsc-run"])
    for package in ("conchpewter", "libc6"):
        want(f"the terms of {package}", f"usr/share/doc/{package}/copyright" in files, True)


def loses_nothing_where_it_is_stopped(here):
    """With spans that wait, `podman stop` ends it with status 0: each is printed, and the report behind them. It is well until then."""
    port, admin = free_port(), free_port()
    name = here.start(SETTINGS.format(port, admin), f"--health-cmd=CMD /usr/bin/tsc-run --health 127.0.0.1:{admin}")
    until("it listens", lambda: listens(port))
    process = podman("inspect", "-f", "{{.State.Pid}}", name).strip()
    status = Path(f"/proc/{process}/status").read_text("utf-8")
    for line in ("Uid:\t65534\t65534\t65534\t65534", "CapEff:\t0000000000000000", "NoNewPrivs:\t1"):
        want(f"its status has {line}", line in status.split("\n"), True)
    want("it is process 1", re.search(r"^NSpid:.*\t(\d+)$", status, re.M)[1], "1")
    podman("healthcheck", "run", name)
    send(port)
    began = time.monotonic()
    podman("stop", "-t", "60", name)
    want("it ended by itself", time.monotonic() - began < 55, True)
    status, printed = end_of(name)
    want("the status", status, 0)
    wants_all(printed)
    want("the report", printed.split("\n")[-10:-7], [f"received {WAITING}", f"handed {WAITING}", "dropped 1 0"])


def runs_by_its_own_configuration(here):
    """The one that is in the image is sound."""
    want("what validate says", podman("run", "--rm", *LIMITS, *SHUT_IN, "--entrypoint=/usr/bin/tsc", here.image, "validate", "/etc/tsc/serve.toml"), "ok\n")


def says_how_it_ended(here):
    """A configuration that is refused, and a program that is killed."""
    want("refused", end_of(here.start("policies = []\n")), (3, "tsc: configuration refused: 7.1\n"))
    port = free_port()
    name = here.start(SETTINGS.format(port, free_port()))
    until("it listens", lambda: listens(port))
    launcher = podman("inspect", "-f", "{{.State.Pid}}", name).strip()
    os.kill(int(Path(f"/proc/{launcher}/task/{launcher}/children").read_text().split()[0]), 9)
    want("killed", end_of(name), (137, ""))


def sends_to_a_name(here):
    """The compose file's configuration, with free ports: the backend is found by its name, gets all at the close, and the report is printed."""
    port, admin, backend = free_port(), free_port(), Backend()
    text = (HERE / "compose" / "serve.toml").read_text("utf-8")
    named = backend.url.split("/")[2].replace("127.0.0.1", "backend")
    for before, now in (("0.0.0.0:4318", f"127.0.0.1:{port}"), (":4319", f":{admin}"), ("backend:4318", named)):
        want(f"it has {before}", text.count(before), 1)
        text = text.replace(before, now)
    name = here.start(text.replace("root_wait_ms = 2000", "root_wait_ms = 0"), "--add-host=backend:127.0.0.1")
    until("it listens", lambda: listens(port))
    send(port)
    want("what came before the close", backend.taken, [])
    podman("stop", "-t", "60", name)
    status, printed = end_of(name)
    backend.end()
    want("the status", status, 0)
    wants_all("\n".join(backend.taken))
    want("what was printed", printed.split("\n")[:2], [f"received {WAITING}", f"handed {WAITING}"])


def compose_file_is_read(_):
    """docker-compose finds nothing wrong, and has each setting."""
    ran = subprocess.run(["docker-compose", "-f", HERE / "compose" / "compose.yaml", "config"], capture_output=True, timeout=60, check=False)
    want("the status", (ran.returncode, ran.stderr), (0, b""))
    service = yaml.safe_load(ran.stdout)["services"]["tsc"]
    settings = "cap_drop image mem_limit ports read_only restart security_opt stop_grace_period ulimits volumes"
    want("the settings", sorted(service), settings.split())


def manifests_have_known_fields(_):
    """Each manifest is what the client's types say: nothing is lost on the way through them. They are older than the pause before the end."""
    kinds = {"ConfigMap": "V1ConfigMap", "Service": "V1Service", "StatefulSet": "V1StatefulSet", "PodDisruptionBudget": "V1PodDisruptionBudget"}
    found = list(yaml.safe_load_all(MANIFESTS.read_text("utf-8")))
    want("the kinds", [it["kind"] for it in found], list(kinds))
    for manifest in found:
        if manifest["kind"] == "StatefulSet":
            pauses = [it["lifecycle"].pop("preStop") for it in manifest["spec"]["template"]["spec"]["containers"]]
            want("the pauses", pauses, [{"sleep": {"seconds": 45}}, {"sleep": {"seconds": 35}}])
        api = kubernetes.ApiClient()
        answer = type("Answer", (), {"data": json.dumps(manifest)})
        read = api.deserialize(answer, kinds[manifest["kind"]])
        want(f"the {manifest['kind']}", api.sanitize_for_serialization(read), manifest)
    selector = {"app.kubernetes.io/name": "tsc"}
    _, service, stateful, budget = found
    want("whom the service finds", service["spec"]["selector"], selector)
    want("whom the set counts", stateful["spec"]["selector"]["matchLabels"], selector)
    want("whom the budget keeps", budget["spec"]["selector"]["matchLabels"], selector)
    want("what its pods are called", stateful["spec"]["template"]["metadata"]["labels"], selector)
    want("the service's name", stateful["spec"]["serviceName"], service["metadata"]["name"])


def pod_runs(here):
    """The set's pod, without the Collector: it takes spans, and `podman kube down` loses none."""
    port, admin, backend = free_port(), free_port(), Backend()
    text = MANIFESTS.read_text("utf-8")
    for before, now in ((":4328", f":{port}"), (":4319", f":{admin}"), ("backend:4318", backend.url.split("/")[2])):
        text = text.replace(before, now)
    text = text.replace("root_wait_ms = 2000", "root_wait_ms = 0")
    configuration, _, stateful, _ = yaml.safe_load_all(text)
    spec = stateful["spec"]["template"]["spec"]
    spec["containers"] = [it for it in spec["containers"] if it["name"] == "tsc"]
    spec["containers"][0]["image"] = here.image
    spec["hostNetwork"] = True
    pod = {"apiVersion": "v1", "kind": "Pod", "metadata": {"name": "tsc-0", **stateful["spec"]["template"]["metadata"]}, "spec": spec}
    played = here.folder / "pod.yaml"
    played.write_text(yaml.safe_dump_all([configuration, pod]), "utf-8")
    settings = here.folder / "containers.conf"
    settings.write_text(f'[containers]\ndefault_ulimits = ["nofile={FILES}:{FILES}", "nproc=4096:4096"]\n', "utf-8")
    surroundings = {"CONTAINERS_CONF": str(settings)}
    try:
        podman("kube", "play", str(played), surroundings=surroundings)
        until("it listens", lambda: listens(port))
        process = podman("inspect", "-f", "{{.State.Pid}}", "tsc-0-tsc").strip()
        status = Path(f"/proc/{process}/status").read_text("utf-8")
        want("who it is", "Uid:\t65534\t65534\t65534\t65534" in status.split("\n"), True)
        send(port)
        want("what came before the close", backend.taken, [])
        podman("stop", "-t", "60", "tsc-0-tsc", surroundings=surroundings)
        want("the status", podman("inspect", "-f", "{{.State.ExitCode}}", "tsc-0-tsc").strip(), "0")
        wants_all("\n".join(backend.taken))
    finally:
        podman("kube", "down", str(played), surroundings=surroundings)
        backend.end()


CHECKS = [
    says_what_it_is,
    runs_by_its_own_configuration,
    loses_nothing_where_it_is_stopped,
    says_how_it_ended,
    sends_to_a_name,
    compose_file_is_read,
    manifests_have_known_fields,
    pod_runs,
]


def main():
    """Makes the image and runs the checks."""
    passed = failed = 0
    with tempfile.TemporaryDirectory() as folder:
        os.chmod(folder, 0o755)
        here = Here(sys.argv[1:], folder)
        for check in CHECKS:
            try:
                check(here)
                passed += 1
                print(f"ok {check.__name__}", flush=True)
            except (Failure, OSError, ValueError, KeyError, subprocess.SubprocessError) as problem:
                failed += 1
                print(f"FAILED {check.__name__}: {problem}", flush=True)
        here.clear()
    print(f"{passed} passed, {failed} failed")
    return 1 if failed or not passed else 0


if __name__ == "__main__":
    raise SystemExit(main())
