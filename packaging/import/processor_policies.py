"""The processor's policies, as those of tsc."""
from decimal import ROUND_HALF_EVEN, Decimal

from collector_yaml import WHOLE, Section, Table, Unfit, number_of
from configuration import Policy, toml
from regular_expressions import expression

NEVER = r"[^\s\S]"  # an expression that matches nothing
LISTS = {"and": "and_sub_policy", "drop": "drop_sub_policy", "composite": "composite_sub_policy"}


class Never(dict):
    """The settings of a string_attribute that no text fits."""


def never(own, why, key="none", inverted=False):
    """A policy that samples nothing (or, inverted, has no match), which the processor takes."""
    own.tell("note", "", f"{why}, so nothing fits; written as an expression that nothing fits")
    return Never({"key": key, "values": [NEVER], "enabled_regex_matching": True, **({"invert_match": True} if inverted else {})})


def latency(own):
    """The time that a trace took."""
    least, greatest = own.whole("threshold_ms"), own.whole("upper_threshold_ms")
    if greatest and greatest <= least:
        return never(own, f"upper_threshold_ms {greatest} is not above threshold_ms {least}")
    return {"threshold_ms": least, **({"upper_threshold_ms": greatest} if greatest else {})}


def numeric_attribute(own):
    """A whole number between bounds."""
    key, least, greatest = own.text("key"), own.whole("min_value", None, -WHOLE - 1), own.whole("max_value", None, -WHOLE - 1)
    inverted = own.truth("invert_match")
    if None not in (least, greatest) and greatest < least:
        return never(own, f"max_value {greatest} is below min_value {least}", key, inverted)
    bounds = {name: it for name, it in (("min_value", least), ("max_value", greatest)) if it is not None}
    return {"key": key, **bounds, **({"invert_match": True} if inverted else {})}


def probabilistic(own):
    """A percentage, with a salt."""
    value, salt = own.take("sampling_percentage"), own.text("hash_salt", "")
    exact = number_of(value, own.where("sampling_percentage")) if value is not None else Decimal(0)
    percentage = min(max(exact, Decimal(0)), Decimal(100)).quantize(Decimal("0.0001"), ROUND_HALF_EVEN)
    if not 0 <= exact <= 100:
        own.tell("note", "sampling_percentage", f"{value} keeps what {percentage.normalize():f} keeps, which is written", value)
    elif percentage != exact:
        own.tell("differs", "sampling_percentage", f"{value} has more than four decimals, so {percentage.normalize():f} is written", value)
    return {**({"hash_salt": salt} if salt else {}), "sampling_percentage": percentage}


def status_code(own):
    """Status codes."""
    codes = own.texts("status_codes")
    for it in codes:
        if it not in ("OK", "ERROR", "UNSET"):
            raise Unfit(it.line, f"{own.where('status_codes')}: {it} is none of OK, ERROR, UNSET")
    if not codes:
        raise Unfit(own.line, f"{own.where('status_codes')} is empty, which the processor refuses too")
    return {"status_codes": codes}


def string_attribute(own):
    """Texts, or expressions."""
    key, values, matching = own.text("key"), own.texts("values"), own.truth("enabled_regex_matching")
    size, inverted = own.whole("cache_max_size"), own.truth("invert_match")
    if not values:
        return never(own, "values is empty", key, inverted)
    if "" in values and not matching:
        own.tell("differs", "values", "an empty text of a span fits here; the processor passes it over", values[values.index("")])
    for at, text in enumerate(values if matching else []):
        try:
            values[at] = expression(text)
        except (ValueError, IndexError):
            raise Unfit(text.line, f"{own.where('values')}: {toml(text)} is no expression") from None
        if values[at] != text:
            own.tell("note", "values", f"{toml(text)} is written as {toml(values[at])}, which means the same here", text)
    more = {"enabled_regex_matching": matching, "cache_max_size": size, "invert_match": inverted}
    return {"key": key, "values": values, **{name: it for name, it in more.items() if it}}


def boolean_attribute(own):
    """A truth value."""
    return {"key": own.text("key"), "value": own.truth("value"), **({"invert_match": True} if own.truth("invert_match") else {})}


def span_count(own):
    """So many spans."""
    least, greatest = own.whole("min_spans"), own.whole("max_spans")
    if greatest and greatest < least:
        return never(own, f"max_spans {greatest} is below min_spans {least}")
    return {"min_spans": least, **({"max_spans": greatest} if greatest else {})}


def trace_state(own):
    """Values of a member of the trace state."""
    key, values = own.text("key"), own.texts("values")
    return {"key": key, "values": values} if values else never(own, "values is empty", key)


def ottl_condition(own):
    """Conditions on spans and on their events, which are written as they stand."""
    mode, lists = own.text("error_mode", "ignore"), {name: own.texts(name) for name in ("span", "spanevent")}
    if mode not in ("ignore", "silent", "propagate"):
        raise Unfit(own.line, f"{own.where('error_mode')}: {mode} is none of ignore, silent, propagate")
    if not any(lists.values()):
        raise Unfit(own.line, f"{own.where('span')} and spanevent are empty, which the processor refuses too")
    return {**({"error_mode": mode} if mode != "ignore" else {}), **{name: texts for name, texts in lists.items() if texts}}


def rate_limiting(own):
    """So many spans a second."""
    own.tell("differs", "", "one limit over all shards, and a trace that just reaches it is let through")
    return {"spans_per_second": own.whole("spans_per_second")}


def bytes_limiting(own):
    """So many bytes a second."""
    own.tell("differs", "", "bytes are those of the spans' JSON, two to three times as many as of protobuf; one bucket over all shards")
    rate, burst = own.whole("bytes_per_second"), own.whole("burst_capacity")
    return {"bytes_per_second": rate, **({"burst_capacity": burst} if burst else {})}


LEAVES = {it.__name__: it for it in (latency, numeric_attribute, probabilistic, status_code, string_attribute, boolean_attribute, span_count, trace_state, ottl_condition, rate_limiting, bytes_limiting)}
KINDS = ("always_sample", "trace_flags", "not", *LEAVES, *LISTS)


def policy_of(node, default, names):
    """A policy, whose name is none of those of its list."""
    section = Section(node, "policies")
    given = section.text("name", default)
    label = section.path = f"policy {toml(given)}: "
    name = given if given not in names else next(it for number in range(2, len(names) + 3) if (it := f"{given}-{number}") not in names)
    if name != given or given is default:
        section.tell("note", "", f"{'no name' if given is default else 'another policy of its list has that name'}, so {toml(name)} is written")
    names.add(name)
    kind = section.text("type")
    if kind not in KINDS:
        raise Unfit(kind.line, f"{label}{kind} is no type that is known")
    own = Section(section.take(kind), f"{label}{kind}", section.line)
    settings = LEAVES[kind](own) if kind in LEAVES else made_of(kind, own, label)
    own.rest()
    for key in [it for it in section.left if it in KINDS]:
        section.tell("note", key, "settings of another type, at which the processor doesn't look", section.left.pop(key))
    section.rest()
    return Policy(name, "string_attribute" if isinstance(settings, Never) else kind, settings, section.told() + own.told())


def made_of(kind, own, label):
    """The settings of a policy that has none, or is made of others."""
    if kind == "not":
        return {"not_sub_policy": part_of(own.take("not_sub_policy") or Table(), "policy-1", set(), label)}
    if kind == "composite":
        return composite(own)
    if kind not in LISTS:
        return {}
    items, names = own.items(LISTS[kind]), set()
    if not items:
        raise Unfit(own.line, f"{own.where(LISTS[kind])} is empty")
    return {LISTS[kind]: [part_of(it, f"policy-{number}", names, label) for number, it in enumerate(items, 1)]}


def part_of(node, default, names, label):
    """A part without which the whole has another meaning."""
    try:
        return policy_of(node, default, names)
    except Unfit as problem:
        raise Unfit(problem.line, f"{label}a part of it can't be written: {problem.why}") from None


def composite(own):
    """Parts with shares. They stand in the order in which the processor's code asks them."""
    total, asked, parts, names, shares = own.whole("max_total_spans_per_second"), own.texts("policy_order"), [], set(), {}
    for number, it in enumerate(own.items("composite_sub_policy"), 1):
        try:
            parts.append(policy_of(it, f"policy-{number}", names))
        except Unfit as problem:
            own.remarks.append(("left out", problem.line, f"{own.where('composite_sub_policy')}: a part, so that equal shares are of fewer: {problem.why}"))
    order = [it.name for it in parts]
    if not parts:
        raise Unfit(own.line, f"{own.where('composite_sub_policy')} has nothing that can be written")
    if asked and [it for it in asked if it in order] != order:
        own.tell("differs", "policy_order", "not the order of composite_sub_policy, by which the processor's code asks (its documentation says: by policy_order) and which is written", asked[0])
    for it in own.items("rate_allocation"):
        share = Section(it, f"{own.where('rate_allocation')}: ")
        name, percent = share.text("policy"), max(0, share.number("percent", 0))
        share.rest()
        if name not in order:
            share.tell("note", "", f"{name} is no part, so it isn't written")
        elif percent > 0:
            shares[name] = share.within("percent", it, percent, 1, 100)
        own.remarks += share.told()
    settings = {"max_total_spans_per_second": total, **({"policy_order": order} if asked else {}), "composite_sub_policy": parts}
    return {**settings, **({"rate_allocation": [{"policy": name, "percent": it} for name, it in shares.items()]} if shares else {})}
