"""Pairs of a condition and a request of narrow kinds, each where a difference is likely: numbers in texts, durations, wrapping, base64, equality
of nested values, patterns on short texts, parts of texts, precedence, soups of tokens. KINDS has a function for each."""
import json
import struct

from meaning import MOST, Error, concat, convert_case, duration, to_double, to_int, value_of
from patterns import Fault
from reading import Parser, unquoted
from request import I64MAX, I64MIN, Span, unbase64
from texts import OPERATORS, disturbed, literal, quoted, soup


def request(attributes, name="n"):
    """A request of one span with these attributes."""
    span = {"traceId": "5b8efff798038103d269b633813fc60c", "spanId": "eee19b7ec3c1b174", "name": name,
            "attributes": [{"key": key, "value": value} for key, value in attributes]}
    return {"resourceSpans": [{"scopeSpans": [{"spans": [span]}]}]}


def reckoned(text, asked, otherwise):
    """What a sum is on a request, or something otherwise where it is an error or a fault."""
    try:
        return value_of(Parser(text, False).sum(), Span(asked))
    except (Error, Fault):
        return otherwise


def any_float(draw):
    """A finite float of any bits."""
    while True:
        value, = struct.unpack("<d", struct.pack("<Q", draw.getrandbits(64)))
        if value == value and abs(value) != float("inf"):
            return value


def digits(draw, most):
    """Up to so many digits."""
    return "".join(draw.choice("0123456789") for _ in range(draw.randint(0, most)))


def number_text(draw):
    """A text that is a number, or nearly one."""
    way = draw.random()
    if way < 0.3:
        return repr(any_float(draw))
    if way < 0.6:
        sign, front, point, back = draw.choice(["", "-", "+"]), digits(draw, 25), draw.choice(["", ".", "."]), digits(draw, 25)
        return sign + front + point + back + draw.choice(["", "", "e", "E", "e+", "e-"]) + draw.choice(["", "", "1", "12", "300", "308", "320", "5"])
    if way < 0.8:
        return str(draw.choice([I64MAX, I64MIN, 1 << 53, 0, draw.randint(I64MIN, I64MAX)]) + draw.randint(-2, 2))
    return disturbed(draw, str(draw.uniform(-1000, 1000)))


def numbers(draw):
    """Int and Double of texts."""
    text = number_text(draw)
    name = draw.choice(["Double", "Int"])
    value = (to_double if name == "Double" else to_int)(text)
    way = draw.random()
    right = literal(value) if way < 0.5 else "nil" if way < 0.7 else 'attributes["y"]'
    same = {"doubleValue": value} if type(value) is float else {} if value is None else {"intValue": str(value)}
    condition = f'{name}(attributes["x"]) {draw.choice(OPERATORS)} {right}'
    return condition, request([("x", {"stringValue": text}), ("y", same)])


def literals(draw):
    """Literals of numbers."""
    text = number_text(draw)
    try:
        if draw.random() < 0.7:
            same = {"doubleValue": float(text)}
        else:
            same = {"intValue": str(int(float(text)) if abs(float(text)) < 9e18 else 5)}
        if same.get("doubleValue") in (float("inf"), float("-inf")):
            same = {}
    except ValueError:
        same = {"intValue": "5"}
    return f'{text} {draw.choice(OPERATORS)} attributes["y"]', request([("y", same)])


def durations(draw):
    """Durations of several numbers and units, and one beside them."""
    text = draw.choice(["", "", "-", "+"])
    for _ in range(draw.randint(0, 4)):
        text += str(draw.choice([0, 1, 59, 1000, draw.randint(0, 10**6), draw.randint(0, 10**19)])) if draw.random() < 0.9 else ""
        if draw.random() < 0.5:
            text += "." + digits(draw, 14)
        odd = ["ns", "us", "µs", "μs", "ms", "s", "m", "h", "s", "m", "h", "", "d", "sm"]
        text += draw.choice(odd if draw.random() < 0.2 else ["ns", "us", "µs", "ms", "s", "m", "h"])
    try:
        nanoseconds = duration(text)
    except Error:
        nanoseconds = 0
    nanoseconds += draw.choice([0, 0, 0, 1, -1])
    condition = f'Duration(attributes["x"]) {draw.choice(OPERATORS)} Duration("{nanoseconds}ns")'
    return condition, request([("x", {"stringValue": text})])


def whole_numbers(draw):
    """Sums of whole numbers that wrap."""
    a, b, c = [draw.choice([draw.randint(I64MIN, I64MAX), draw.randint(-10, 10), I64MAX, I64MIN, draw.randint(-1 << 32, 1 << 32)]) for _ in "abc"]
    first, second = draw.choice("+-*/"), draw.choice("+-*/")
    text = draw.choice(['attributes["a"] %s attributes["b"] %s attributes["c"]', '(attributes["a"] %s attributes["b"]) %s attributes["c"]',
                        'attributes["a"] %s (attributes["b"] %s attributes["c"])']) % (first, second)
    asked = request([("a", {"intValue": str(a)}), ("b", {"intValue": str(b)}), ("c", {"intValue": str(c)})])
    value = reckoned(text, asked, 0)
    operator = draw.choice(OPERATORS)
    return f"{text} {operator} " + literal(value + draw.choice([0, 0, 1]) if value != I64MAX else value), asked


def floats(draw):
    """Sums of floats of any size."""
    a, b, c = [any_float(draw) if draw.random() < 0.5 else draw.uniform(-10, 10) for _ in range(3)]
    if draw.random() < 0.3:
        b = draw.choice([0.0, -0.0, 1e308, 5e-324, 3.0])
    text = 'attributes["a"] %s attributes["b"] %s attributes["c"]' % (draw.choice("+-*/"), draw.choice("+-*/"))
    third = {"doubleValue": c} if draw.random() < 0.7 else {"intValue": str(draw.randint(I64MIN, I64MAX))}
    asked = request([("a", {"doubleValue": a}), ("b", {"doubleValue": b}), ("c", third)])
    value = reckoned(text, asked, 0.0)
    if draw.random() < 0.2:
        return f"Int({text}) == {to_int(value)}", asked
    return f"{text} {draw.choice(OPERATORS)} {literal(value)}", asked


def mixed(draw):
    """Whole numbers beside floats that are near to them."""
    number = draw.choice([1 << 53, 1 << 62, I64MAX, I64MIN, draw.randint(I64MIN, I64MAX)]) + draw.randint(-3, 3)
    number = max(I64MIN, min(I64MAX, number))
    near = float(number) if draw.random() < 0.7 else float(number + draw.choice([1, -1, 1024, -1024]))
    sides = ['attributes["n"]', 'attributes["f"]']
    if draw.random() < 0.5:
        sides.reverse()
    return sides[0] + " " + draw.choice(OPERATORS) + " " + sides[1], request([("n", {"intValue": str(number)}), ("f", {"doubleValue": near})])


def base64(draw):
    """Bytes of base64 texts, some with what is no letter of theirs."""
    text = "".join(draw.choice("AYQWIab01+/") if draw.random() < 0.93 else draw.choice("=-_! \n") for _ in range(draw.randint(0, 8)))
    right = literal(unbase64(text) if draw.random() < 0.8 else unbase64(text) + b"\0") or "0x00"
    return f'attributes["x"] {draw.choice(OPERATORS)} {right}', request([("x", {"bytesValue": text})])


def small(draw, depth=0):
    """A small value, which may be nested."""
    way = draw.random()
    if depth > 2 or way < 0.45:
        return draw.choice([{"intValue": "1"}, {"doubleValue": 1.0}, {"stringValue": "1"}, {"boolValue": True}, {}, {"bytesValue": "MQ=="},
                            {"bytesValue": "MQ"}, {"doubleValue": "NaN"}, {"doubleValue": -0.0}, {"doubleValue": 0.0}, {"intValue": "1"},
                            {"doubleValue": 1.0}])
    if way < 0.7:
        return {"arrayValue": {"values": [small(draw, depth + 1) for _ in range(draw.randint(0, 2))]}}
    return {"kvlistValue": {"values": [{"key": draw.choice("ab"), "value": small(draw, depth + 1)} for _ in range(draw.randint(0, 3))]}}


def changed(draw, value):
    """A value near to another one: its parts in another order, one less, or one changed."""
    value = json.loads(json.dumps(value))
    parts = (value.get("arrayValue") or value.get("kvlistValue") or {}).get("values")
    if draw.random() < 0.5 and value in ({"intValue": "1"}, {"doubleValue": 1.0}):
        return {"doubleValue": 1.0} if "intValue" in value else {"intValue": "1"}
    if not parts or draw.random() < 0.15:
        return small(draw, 2)
    way = draw.random()
    if way < 0.4:
        draw.shuffle(parts)
    elif way < 0.5:
        parts.pop()
    else:
        place = draw.randrange(len(parts))
        if "kvlistValue" in value:
            parts[place]["value"] = changed(draw, parts[place].get("value", {}))
        else:
            parts[place] = changed(draw, parts[place])
    return value


def equality(draw):
    """Two values that may be nested, often near to each other."""
    left = small(draw)
    right = changed(draw, left) if draw.random() < 0.6 else json.loads(json.dumps(left)) if draw.random() < 0.6 else small(draw)
    key = draw.choice(["", "", '["a"]', '["b"]', "[0]"])
    return f'attributes["a"]{key} {draw.choice(OPERATORS)} attributes["b"]{key}', request([("a", left), ("b", right)])


def pattern(draw, depth=0):
    """A pattern."""
    way = draw.random()
    if depth > 3 or way < 0.4:
        return draw.choice(["a", "b", "c", ".", "[ab]", "[^a]", "\\w", "\\d", "\\s", "\\b", "^", "$", "ä", "[a-c]", "\\.", "\\W", "\\B", "[\\w-]", "",
                            "\\D", "\\S", "[^\\d]"])
    if way < 0.65:
        return pattern(draw, depth + 1) + pattern(draw, depth + 1)
    if way < 0.8:
        return "(" + draw.choice(["", "?:"]) + pattern(draw, depth + 1) + "|" + pattern(draw, depth + 1) + ")"
    group = draw.choice(["(%s)", "(?:%s)"]) % pattern(draw, depth + 1)
    return group + draw.choice(["*", "+", "?", "{2}", "{1,2}", "{0,}", "*?", "+?", "??", "{1,3}?"])


def patterns(draw):
    """IsMatch of short texts."""
    text = pattern(draw)
    if draw.random() < 0.5:
        text = "^(?:" + text + ")$"
    if draw.random() < 0.1 and text:
        text = disturbed(draw, text)
    value = "".join(draw.choice("abc abä1.\n_-é٣") for _ in range(draw.randint(0, 5)))
    return f'IsMatch(attributes["x"], {quoted(text)})', request([("x", {"stringValue": value})])


def parts(draw):
    """Substring, HasPrefix, HasSuffix and the order of texts, with letters of several bytes."""
    text = "".join(draw.choice("abä€😀") for _ in range(draw.randint(0, 4)))
    start, count = draw.randint(-1, 6), draw.randint(-1, 6)
    try:
        part = text.encode()[start:start + count].decode()
    except UnicodeDecodeError:
        part = "a"
    way, asked = draw.random(), request([("x", {"stringValue": text})])
    if way < 0.6:
        return f'Substring(attributes["x"], {start}, {count}) {draw.choice(OPERATORS)} {quoted(part)}', asked
    if way < 0.8:
        name, end = draw.choice(["HasPrefix", "HasSuffix"]), draw.choice([part, text[:1], text[-1:], text, ""])
        return f'{name}(attributes["x"], {quoted(end)})', asked
    operator = draw.choice(OPERATORS)
    return f'attributes["x"] {operator} ' + quoted("".join(draw.choice("abä€😀") for _ in range(draw.randint(0, 2)))), asked


def soups(draw):
    """Tokens in a row."""
    text = soup(draw, 7)
    value = draw.choice([{"intValue": "2"}, {"kvlistValue": {"values": [{"key": "a", "value": {"boolValue": True}}]}},
                         {"arrayValue": {"values": [{"intValue": "1"}]}}])
    return text or "true", request([("a", value)], "a")


def logic(draw, depth=0):
    """Small conditions with `and`, `or`, `not` and parentheses."""
    way = draw.random()
    if depth > 4 or way < 0.3:
        return draw.choice(["true", "false", "kind == 1", "kind == 0", "IsInt(kind)", "IsInt(name)", "Len(name)", "1 / 0 == 1", "Len(name) == 1",
                            'attributes["x"] == nil'])
    if way < 0.45:
        return "not " + logic(draw, depth + 1)
    if way < 0.6:
        return "(" + logic(draw, depth + 1) + ")"
    return logic(draw, depth + 1) + draw.choice([" and ", " or "]) + logic(draw, depth + 1)


def precedence(draw):
    """The same, on a request."""
    return logic(draw), request([("x", {})])


def reckoning(draw, depth=0):
    """A sum of small numbers, with blanks or without."""
    way = draw.random()
    if depth > 3 or way < 0.3:
        return draw.choice(["1", "2", "3", "-1", "+2", "1.5", "kind", "Len(name)", "7", "0", "SPAN_KIND_CLIENT"])
    if way < 0.45:
        return "(" + reckoning(draw, depth + 1) + ")"
    left, gap, operator, second = reckoning(draw, depth + 1), draw.choice([" ", ""]), draw.choice("+-*/"), draw.choice([" ", " ", ""])
    return left + gap + operator + second + reckoning(draw, depth + 1)


def sums(draw):
    """Such a sum beside what it is."""
    left, asked = reckoning(draw), request([], "nn")
    value, operator = reckoned(left, asked, 1), draw.choice(OPERATORS)
    return f"{left} {operator} " + (literal(value) if draw.random() < 0.7 and type(value) in (int, float) else reckoning(draw)), asked


def escaped(draw):
    """Texts with escapes, known ones and others."""
    text = "".join(draw.choice(["a", "ä", "\\" + draw.choice("abfnrtv\\\"'xu0e/"), '"', " ", "\\\\"]) if draw.random() < 0.3 else draw.choice("abc")
                   for _ in range(draw.randint(0, 6)))
    try:
        value = unquoted('"' + text + '"', 0)
    except (Fault, IndexError):
        value = "a"
    return f'"{text}" {draw.choice(["==", "!="])} attributes["x"]', request([("x", {"stringValue": value})])


def letters(draw):
    """ConvertCase of letters of many scripts, beside what it makes."""
    ranges = [(0x41, 0x7A), (0xC0, 0x24F), (0x370, 0x3FF), (0x400, 0x52F), (0x1E00, 0x1FFF), (0x2C00, 0x2D2F), (0xA640, 0xA7BF), (0xFB00, 0xFB17),
              (0x10400, 0x1044F), (0x250, 0x25C), (0x2100, 0x218F)]
    text = "".join(chr(draw.randint(*draw.choice(ranges))) for _ in range(draw.randint(0, 6))).replace("\u019b", "")  # (which got its capital after the Unicode of some Pythons)
    case = draw.choice(["lower", "upper"])
    right = literal(convert_case(text, case)) if draw.random() < 0.8 else f'ConvertCase(attributes["y"], "{case}")'
    other = text.swapcase() if draw.random() < 0.5 else text
    return f'ConvertCase(attributes["x"], "{case}") {draw.choice(OPERATORS)} {right}', request([("x", {"stringValue": text}), ("y", {"stringValue": other})])


def joins(draw):
    """Concat of attributes of each type, beside what it makes."""
    kinds = {"s": "aé", "e": "", "i": -12, "b": True, "n": None, "f": 1.5}
    names = [draw.choice("seib" * 6 + "nnf") for _ in range(draw.randint(0, 4))]
    delimiter = draw.choice(["", ",", "é-", "<nil>"])
    held = {"s": {"stringValue": "aé"}, "e": {"stringValue": ""}, "i": {"intValue": "-12"}, "b": {"boolValue": True}, "n": {}, "f": {"doubleValue": 1.5}}
    left = "Concat([" + ", ".join(f'attributes["{name}"]' for name in names) + "], " + quoted(delimiter) + ")"
    try:
        value = concat([kinds[name] for name in names], delimiter) if names else ""
    except Error:
        value = "a"
    return f"{left} {draw.choice(OPERATORS)} {quoted(value)}", request(list(held.items()))


def long_texts(draw):
    """Texts about as long as one that is made may be."""
    letter = draw.choice(["a", "a", "é", "\u0250", "\u2c6f", "\u0130"])
    count = draw.choice([MOST, MOST // 2, MOST // 3, MOST // 2 * 3 // 2]) // len(letter.encode("utf-8")) + draw.randint(-3, 3)
    asked = request([("x", {"stringValue": letter * count}), ("y", {"stringValue": "b" * draw.randint(0, 3)})])
    way = draw.random()
    if way < 0.5:
        return f'Len(ConvertCase(attributes["x"], "{draw.choice(["lower", "upper"])}")) {draw.choice(OPERATORS)} {MOST}', asked
    values = draw.choice(['attributes["x"], attributes["y"]', 'attributes["y"], attributes["x"]', 'attributes["x"]', 'attributes["x"], attributes["x"]',
                          'attributes["y"], Concat([attributes["x"], nil], ""), attributes["y"]'])
    return f'Len(Concat([{values}], "{draw.choice(["", "-"])}")) {draw.choice(OPERATORS)} {MOST}', asked


KINDS = [equality, equality, numbers, literals, durations, whole_numbers, floats, mixed, base64, equality, patterns, parts, soups, precedence, sums,
         escaped, letters, joins, long_texts]
