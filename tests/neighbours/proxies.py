"""HAProxy and nginx before a collector, by the recipes of examples/neighbours."""

import http.client
import os
import re
import socket
import ssl
import subprocess
import time

from running import RECIPES, SETTINGS, Failure, Neighbour, all_came_back, body_of, free_port, post, send_from_many, spans_for, want

TOKEN = "a-token"


def authority(folder, name):
    """Makes a key with a certificate for 127.0.0.1 that it signed itself, both in one file, and returns that."""
    key, certificate, both = (folder / f"{name}.{it}" for it in ("key", "crt", "pem"))
    words = ["openssl", "req", "-x509", "-newkey", "rsa:2048", "-nodes", "-days", "2", "-subj", f"/CN={name}"]
    subprocess.run([*words, "-addext", "subjectAltName=IP:127.0.0.1", "-keyout", key, "-out", certificate], check=True, capture_output=True)
    both.write_bytes(certificate.read_bytes() + key.read_bytes())
    return both


def haproxy(here, collector, certificate, recipe=RECIPES / "haproxy.cfg"):
    port = free_port()
    settings = {"TRACES": f"127.0.0.1:{port}", "CERTIFICATE": str(certificate), "TOKEN": TOKEN, "TSC": f"127.0.0.1:{collector.port}"}
    return Neighbour(here, [f"{here.packages}/usr/sbin/haproxy", "-f", str(recipe)], port, **settings)


def nginx(here, collector, recipe):
    port = free_port()
    return nginx_by(here, recipe.replace("127.0.0.1:4318", f"127.0.0.1:{collector.port}").replace("127.0.0.1:4317", f"127.0.0.1:{port}"), port)


def nginx_by(here, text, port):
    """nginx by a recipe whose ports are set."""
    folder = here.folder / "nginx"
    text = re.sub(r"http \{", "http {\n  access_log off;\n" + "".join(
        f"  {it}_temp_path {folder}/{it};\n" for it in ("client_body", "proxy", "fastcgi", "uwsgi", "scgi")), text, count=1)
    (folder / "logs").mkdir(parents=True, exist_ok=True)
    (folder / "nginx.conf").write_text(f"pid {folder}/pid;\n" + text, "utf-8")
    words = ["-c", f"{folder}/nginx.conf", "-p", str(folder), "-e", "stderr", "-g", "daemon off; user root;"]
    return Neighbour(here, [f"{here.packages}/usr/sbin/nginx", *words], port)


def trusting(certificate):
    return ssl.create_default_context(cafile=str(certificate))


def ten_thousand_through_haproxy(here):
    """100 clients over TLS with the token, ten requests of ten spans each, over four lanes."""
    collector, certificate = here.start(SETTINGS), authority(here.folder, "own")
    proxy = haproxy(here, collector, certificate)
    connect = lambda: http.client.HTTPSConnection("127.0.0.1", proxy.port, timeout=30, context=trusting(certificate))
    sent = send_from_many(connect, 100, 10, 10, [("Authorization", f"Bearer {TOKEN}")])
    proxy.end()
    all_came_back(collector, sent)


def haproxy_turns_away(here):
    """A client that trusts another certificate, one without the token, one that would close the collector."""
    collector, certificate = here.start(SETTINGS), authority(here.folder, "own")
    proxy = haproxy(here, collector, certificate)
    connect = lambda trusted: http.client.HTTPSConnection("127.0.0.1", proxy.port, timeout=10, context=trusting(trusted))
    try:
        post(connect(authority(here.folder, "other")), spans_for(0, 0, 1))
        raise Failure("a client that trusts another certificate was served")
    except ssl.SSLCertVerificationError:
        pass
    want("without the token", post(connect(certificate), spans_for(0, 0, 1)), 401)
    want("with another token", post(connect(certificate), spans_for(0, 0, 1), [("Authorization", "Bearer other")]), 401)
    asks = connect(certificate)
    asks.request("POST", "/close", b"", {"Authorization": f"Bearer {TOKEN}"})
    want("the close", asks.getresponse().status, 404)
    proxy.end()
    all_came_back(collector, [])


def haproxy_limits_each_client(here):
    """Of 1,200 requests of one address within ten seconds those beyond 1,000 are answered 429."""
    collector, certificate = here.start(SETTINGS), authority(here.folder, "own")
    proxy = haproxy(here, collector, certificate)
    connection = http.client.HTTPSConnection("127.0.0.1", proxy.port, timeout=10, context=trusting(certificate))
    began, statuses = time.monotonic(), []
    for _ in range(1200):
        connection.request("POST", "/v1/traces", b"{}", {"Content-Type": "application/json", "Authorization": f"Bearer {TOKEN}"})
        answer = connection.getresponse()
        answer.read()
        statuses.append(answer.status)
        if answer.will_close:
            connection.close()
    if time.monotonic() - began > 9:
        raise Failure("the machine is too slow for this: it took more than nine seconds")
    want("the statuses", (statuses.count(200), statuses.count(429)), (1000, 200))
    proxy.end()
    all_came_back(collector, [])


def load_by_wrk(here, collector, proxy, scheme):
    """200 clients of wrk for fifteen seconds, over four lanes: no error, no answer takes ten seconds, and as many spans as answers."""
    script = here.folder / "post.lua"
    fields = f'wrk.headers["Content-Type"] = "application/json"\nwrk.headers["Authorization"] = "Bearer {TOKEN}"\n'
    script.write_text(f'wrk.method = "POST"\n{fields}wrk.body = [[{body_of(spans_for(0, 0, 1)).decode()}]]\n')
    words = [f"{here.packages}/usr/bin/wrk", "-t2", "-c200", "-d15s", "--timeout", "10s", "-s", str(script), f"{scheme}://127.0.0.1:{proxy.port}/v1/traces"]
    said = subprocess.run(words, env={**os.environ, "LD_LIBRARY_PATH": here.libraries}, capture_output=True, text=True, check=True).stdout
    want("what wrk tells of errors", [it for it in said.split("\n") if "Socket errors" in it or "Non-2xx" in it], [])
    answers = int(re.search(r"(\d+) requests in", said)[1])
    want("at least an answer for each client", answers >= 200, True)
    time.sleep(1)
    proxy.end()
    numbers = collector.close()[1]
    # What wrk had sent when its time was over was taken too, one request of each client at most.
    want("spans beside answers", answers <= numbers[0] <= answers + 200, True)
    print(f"    {answers} answers to 200 clients in fifteen seconds")


def ten_thousand_through_nginx(here):
    """100 clients, ten requests of ten spans each, over four lanes; and without `proxy_http_version` each is answered 400."""
    recipe = (RECIPES / "nginx.conf").read_text("utf-8")
    collector = here.start(SETTINGS)
    proxy = nginx(here, collector, recipe)
    sent = send_from_many(lambda: http.client.HTTPConnection("127.0.0.1", proxy.port, timeout=30), 100, 10, 10)
    proxy.end()
    proxy = nginx(here, collector, recipe.replace("proxy_http_version 1.1;", ""))
    want("by HTTP/1.0", post(http.client.HTTPConnection("127.0.0.1", proxy.port, timeout=10), spans_for(200, 0, 1)), 400)
    proxy.end()
    all_came_back(collector, sent)


def two_hundred_of_wrk_through_nginx(here):
    """By the recipe as it stands."""
    collector = here.start(SETTINGS)
    load_by_wrk(here, collector, nginx(here, collector, (RECIPES / "nginx.conf").read_text("utf-8")), "http")


def two_hundred_of_wrk_through_haproxy(here):
    """Over TLS with the token, without the limit for each client, since all are of one address."""
    collector, certificate = here.start(SETTINGS), authority(here.folder, "own")
    recipe = (RECIPES / "haproxy.cfg").read_text("utf-8")
    want("the limit", recipe.count("gt 1000 }"), 1)
    unlimited = here.folder / "haproxy.cfg"
    unlimited.write_text(recipe.replace("gt 1000 }", "gt 100000000 }"), "utf-8")
    load_by_wrk(here, collector, haproxy(here, collector, certificate, unlimited), "https")


def http_2_through_haproxy(here):
    """A client that speaks HTTP/2 is answered by it."""
    collector, certificate = here.start(SETTINGS), authority(here.folder, "own")
    proxy = haproxy(here, collector, certificate)
    words = ["curl", "-s", "--http2", "--cacert", str(certificate), "-o", os.devnull, "-w", "%{http_version} %{http_code}", "--data-binary", "@-"]
    words += ["-H", "Content-Type: application/json", "-H", f"Authorization: Bearer {TOKEN}", f"https://127.0.0.1:{proxy.port}/v1/traces"]
    sent = spans_for(0, 0, 100)
    want("version and status", subprocess.run(words, input=body_of(sent), capture_output=True, check=True).stdout.decode(), "2 200")
    proxy.end()
    all_came_back(collector, sent)


def asked(port, method, target):
    """The status and the text of an answer to one request without a body."""
    connection = http.client.HTTPConnection("127.0.0.1", port, timeout=10)
    connection.request(method, target)
    answer = connection.getresponse()
    return answer.status, answer.read().decode()


def numbers_alone(here, port, second, collector, refused):
    """Of the second address just its numbers and its health are to be had through a proxy, also while others have connected to it and say nothing."""
    silent = [socket.create_connection(("127.0.0.1", port), 10) for _ in range(20)]
    began = time.monotonic()
    want("the health", asked(port, "GET", "/healthz"), (200, "ok\n"))
    status, text = asked(port, "GET", "/metrics")
    want("the numbers", (status, re.findall(r"(?m)^tsc_spans_received_total (\d+)$", text)), (200, ["0"]))
    want("that nobody holds them up", time.monotonic() - began < 4, True)
    for method, target, status in (
        ("POST", "/close", 404), ("GET", "/close", 404), ("GET", "/config", 404), ("GET", "/", 404), ("POST", "/metrics", refused), ("POST", "/metrics/../close", 404),
        ("POST", "//close", 404),
    ):
        want(f"{method} {target}", asked(port, method, target)[0], status)
    want("the configuration, beside the proxy", asked(second, "GET", "/config")[0], 200)
    for it in silent:
        it.close()
    want("the close, beside the proxy", asked(second, "POST", "/close"), (200, "{}"))
    want("the report", collector.end()[1], [0] * 9)


def numbers_through_haproxy(here):
    """By haproxy_numbers.cfg as it stands, for an address and for a socket's file."""
    for number, (admin, server) in enumerate((("127.0.0.1:{port}", "127.0.0.1:{port}"), ("unix:{folder}/admin.sock", "unix@{folder}/admin.sock"))):
        second, port = free_port(), free_port()
        places = {"port": second, "folder": here.folder}
        collector = here.start(f'admin = "{admin.format(**places)}"\n' + SETTINGS)
        words = [f"{here.packages}/usr/sbin/haproxy", "-f", str(RECIPES / "haproxy_numbers.cfg")]
        proxy = Neighbour(here, words, port, NUMBERS=f"127.0.0.1:{port}", ADMIN=server.format(**places))
        if number == 0:
            numbers_alone(here, port, second, collector, 405)
        else:
            want("the health through a socket's file", asked(port, "GET", "/healthz"), (200, "ok\n"))
            want("the close through it", asked(port, "POST", "/close")[0], 404)
        proxy.end()


def numbers_through_nginx(here):
    """By nginx_numbers.conf."""
    second, port = free_port(), free_port()
    collector = here.start(f'admin = "127.0.0.1:{second}"\n' + SETTINGS)
    text = (RECIPES / "nginx_numbers.conf").read_text("utf-8")
    for it in ("127.0.0.1:4319;", "listen 4320;"):
        want(f"{it} in the recipe", text.count(it), 1)
    proxy = nginx_by(here, text.replace("127.0.0.1:4319;", f"127.0.0.1:{second};").replace("listen 4320;", f"listen 127.0.0.1:{port};"), port)
    numbers_alone(here, port, second, collector, 403)
    proxy.end()


CHECKS = [
    ten_thousand_through_haproxy, haproxy_turns_away, haproxy_limits_each_client, http_2_through_haproxy, two_hundred_of_wrk_through_haproxy,
    ten_thousand_through_nginx, two_hundred_of_wrk_through_nginx, numbers_through_haproxy, numbers_through_nginx,
]
