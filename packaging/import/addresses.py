"""Where spans come from and go to: the receivers, exporters and other processors of a pipeline, as keys of tsc."""
import re

from collector_yaml import Section, Table, Unfit, is_nothing, text_of

RESERVED = ("host", "content-type", "content-length", "content-encoding", "transfer-encoding", "connection", "expect", "upgrade")
NONE = "tsc has no such setting"
PROXY = "a proxy does that (examples/neighbours/haproxy.cfg)"
OF_RECEIVER = {"tls": f"tsc doesn't encrypt; {PROXY}", "auth": f"tsc asks for no token; {PROXY}", "cors": f"not there; {PROXY}"}
OF_EXPORTER = {
    "tls": "tsc doesn't encrypt; name a proxy's address (stunnel, nginx) as endpoint", "sending_queue": "queue_batches says how many batches wait",
    "auth": "tsc has no such setting; a token can be one of the headers",
}


def kind_of(name):
    """The type of a component, which may have a name behind it."""
    return name.partition("/")[0]


def listen(receivers, names):
    """The address at which the first receiver of OTLP over HTTP listens, if any, and the remarks."""
    address, remarks = None, []
    for name in names:
        if kind_of(name) != "otlp":
            remarks.append(("note", names[name], f"receivers.{name}: tsc takes OTLP over HTTP alone; a Collector before it can take that"))
            continue
        receiver = Section(receivers.get(name), f"receivers.{name}", names[name])
        protocols = Section(receiver.take("protocols"), f"receivers.{name}.protocols", receiver.line)
        if "grpc" in protocols.left:
            remarks.append(("note", getattr(protocols.left["grpc"], "line", protocols.line), protocols.where("grpc") + ": tsc takes no gRPC; a Collector before it can"))
        if "http" not in protocols.left:
            continue
        http = Section(protocols.left["http"], protocols.where("http"), protocols.line)
        try:
            endpoint = http.text("endpoint", "localhost:4318")
            if address:
                http.tell("note", "endpoint", f"tsc listens at one address, so {endpoint} isn't written")
            address = address or ("0.0.0.0" + endpoint if endpoint.startswith(":") else str(endpoint))
        except Unfit as problem:
            remarks.append(("note", problem.line, f"{problem.why}, so it listens at 127.0.0.1:4318"))
        if http.noted(http.text, "traces_url_path", "/v1/traces") not in (None, "/v1/traces"):
            http.tell("note", "traces_url_path", "tsc knows /v1/traces alone")
        for key, value in http.left.items():
            http.tell("note", key, OF_RECEIVER.get(key, NONE), value)
        remarks += http.told()
    return address, remarks


def export(exporters, names):
    """The table that sends to the first exporter of OTLP over HTTP that is sent to in the clear, if any, and the remarks."""
    table, remarks = None, []
    for name in names:
        if kind_of(name) not in ("otlphttp", "otlp_http"):
            why = "gRPC" if kind_of(name) in ("otlp", "otlp_grpc") else "another way than OTLP over HTTP"
            remarks.append(("note", names[name], f"exporters.{name}: {why}; a Collector behind tsc can send that"))
        elif table:
            remarks.append(("note", names[name], f"exporters.{name}: tsc sends to one backend; a Collector behind it can send to several"))
        else:
            exporter = Section(exporters.get(name), f"exporters.{name}", names[name])
            try:
                table = sends_to(exporter)
            except Unfit as problem:
                exporter.remarks.append(("note", problem.line, f"{problem.why}; so lines are printed and not sent"))
            remarks += exporter.told()
    return table, remarks


def with_port(endpoint):
    """An address of HTTP with its port, which tsc wants: where none stands there, that of HTTP."""
    return re.sub(r"^(http://(?:\[[^]/]*\]|[^:/]+))(?=/)", r"\1:80", endpoint)


def sends_to(exporter):
    """The settings of an exporter."""
    whole, base = exporter.take("traces_endpoint"), exporter.take("endpoint")
    endpoint = text_of(whole, exporter.where("traces_endpoint")) if whole else text_of(base, exporter.where("endpoint")).removesuffix("/") + "/v1/traces"
    if not endpoint.startswith("http://"):
        raise Unfit((whole or base).line, f"{exporter.where('endpoint')}: {endpoint}: tsc sends to http:// alone; name a proxy's address (stunnel, nginx) as endpoint of [export]")
    if exporter.noted(exporter.text, "encoding", "proto") != "json":
        exporter.tell("note", "encoding", "tsc sends JSON, which the backend must take")
    exporter.take("compression")
    table = {"endpoint": with_port(str(endpoint)), "timeout_ms": exporter.noted(exporter.milliseconds, "timeout", 1, 600000)}
    retry = Section(exporter.take("retry_on_failure"), exporter.where("retry_on_failure"), exporter.line)
    table["retry_initial_ms"] = retry.noted(retry.milliseconds, "initial_interval", 1, 3600000)
    table["retry_max_ms"] = retry.noted(retry.milliseconds, "max_interval", 1, 3600000)
    table["retry_for_ms"] = retry.noted(retry.milliseconds, "max_elapsed_time", 0, 86400000)
    if retry.noted(retry.text, "enabled", "true") == "false":
        retry.tell("note", "enabled", "tsc always tries again; retry_for_ms says how long")
    fields = headers(exporter, exporter.left.pop("headers", None))
    for section, others in ((exporter, OF_EXPORTER), (retry, {})):
        for key, value in section.left.items():
            section.tell("note", key, others.get(key, NONE), value)
    exporter.remarks += retry.told()
    return {key: it for key, it in {**table, "headers": fields}.items() if it not in (None, {})}


def headers(exporter, given):
    """The fields that each request has too."""
    if isinstance(given, list):
        given = Table((str(it.get("name")), it.get("value")) for it in given if isinstance(it, Table))
    fields = {}
    for name, value in (given if isinstance(given, Table) else {}).items():
        if name.lower() in RESERVED:
            exporter.tell("note", f"headers.{name}", "tsc sets that itself", value)
            continue
        fields[name] = exporter.noted(text_of, value, exporter.where(f"headers.{name}"))
    return {name: it for name, it in fields.items() if it is not None}


def limits(processors, before, behind):
    """The limit of memory and the size of a batch, of the processors beside it, and the remarks."""
    settings, remarks = {}, []
    for names, where in ((before, "before"), (behind, "behind")):
        for name, line in names.items():
            section = Section(processors.get(name), f"processors.{name}", line)
            if kind_of(name) == "memory_limiter":
                if is_nothing(section.left.get("limit_mib")):
                    section.tell("note", "limit_percentage", "tsc has a limit in mebibytes alone (memory_limit_mib)")
                settings["memory_limit_mib"] = section.noted(section.capped, "limit_mib", 0, 1048576)
            elif kind_of(name) == "batch" and where == "behind":
                settings["send_batch_size"] = section.noted(section.capped, "send_batch_size", 1, 8192)
            else:
                more = "; give it send_batch_max_size: 512" if kind_of(name) == "batch" else ""
                section.remarks.append(("note", line, f"processors.{name}: it stays in a Collector {where} tsc{more}"))
            remarks += [("note", *it[1:]) for it in section.told()]
    return {key: it for key, it in settings.items() if it is not None}, remarks
