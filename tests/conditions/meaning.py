"""What conditions mean: how values are compared, reckoned with and converted, and what a condition says of a span or an event. By OTTL's
documentation and docs/decisions/CONDITIONS.md, whose entries are named where these left a choice."""
import re

from patterns import Fault, Unsure
from reading import Parser
from request import I64MAX, I64MIN, Map, Span, Time, wrap

MOST = 16384  # so many bytes long is a text that is made at most
TENTHS = 21  # digits behind the point beyond these are no nanosecond of any unit
PARTS = 100
NUMBERS = (int, float)
PART = re.compile(r"([0-9]*)(\.([0-9]*))?([^0-9.]+)")
UNITS = {"ns": 1, "us": 10**3, "\u00b5s": 10**3, "\u03bcs": 10**3, "ms": 10**6, "s": 10**9, "m": 60 * 10**9, "h": 3600 * 10**9}
ORDERS = {
    "==": lambda a, b: a == b,
    "!=": lambda a, b: a != b,
    "<": lambda a, b: a < b,
    "<=": lambda a, b: a <= b,
    ">": lambda a, b: a > b,
    ">=": lambda a, b: a >= b,
}


class Error(Exception):
    """The condition is an error on this span."""

    def __init__(self, name):
        Exception.__init__(self, name)
        self.name = name


class Duration:
    """A duration in nanoseconds."""

    __slots__ = ("n",)

    def __init__(self, n):
        self.n = n


def utf8(text):
    """The bytes of a text."""
    return text.encode("utf-8", "surrogatepass")


# ---- comparisons

def same(a, b):
    """Whether two values within lists or maps are equal: types apart, and by the keys of the left map (D-330, D-331)."""
    if type(a) is not type(b):
        return False
    if type(a) is list:
        return len(a) == len(b) and all(same(x, y) for x, y in zip(a, b))
    if type(a) is not Map:
        return a == b
    found = [(value, b.get(key)) for key, value in a.pairs]
    return len(a.pairs) == len(b.pairs) and all(there and same(value, other) for value, (there, other) in found)


def compare(operator, a, b):
    """A comparison of two values, of which each two types have an answer."""
    kind = type(a)
    if a is None and b is None:
        return operator in ("==", "<=", ">=")
    if kind in NUMBERS and type(b) in NUMBERS and kind is not type(b):
        return ORDERS[operator](float(a), float(b))
    if kind is not type(b):
        return operator == "!="
    if kind in (list, Map):
        return operator in ("==", "!=") and same(a, b) == (operator == "==")
    if kind is str:
        return ORDERS[operator](utf8(a), utf8(b))
    if kind in (Time, Duration):
        return ORDERS[operator](a.n, b.n)
    return ORDERS[operator](a, b)


# ---- sums

def reckon(operator, a, b):
    """A sum, a difference, a product or a quotient."""
    if type(a) is Time and type(b) is Time and operator == "-":
        return Duration(max(I64MIN, min(I64MAX, a.n - b.n)))
    if type(a) is Duration and type(b) is Duration and operator in "+-":
        # Two durations may be added, and one taken from the other; times aren't added to durations (D-335).
        return Duration(wrap(a.n + b.n if operator == "+" else a.n - b.n))
    if type(a) not in NUMBERS or type(b) not in NUMBERS:
        raise Error("no numbers")
    if operator == "/" and b == 0:
        raise Error("division by zero")
    if type(a) is int and type(b) is int:
        return whole(operator, a, b)
    a, b = float(a), float(b)
    return a + b if operator == "+" else a - b if operator == "-" else a * b if operator == "*" else a / b


def whole(operator, a, b):
    """The same of whole numbers, which wrap; a quotient is cut off towards zero (D-307)."""
    if operator == "/":
        quotient = abs(a) // abs(b)
        return wrap(quotient if (a < 0) == (b < 0) else -quotient)
    return wrap(a + b if operator == "+" else a - b if operator == "-" else a * b)


# ---- paths

def keyed(value, keys):
    """What stands behind keys and indexes (D-302)."""
    for key in keys:
        if type(value) is Map:
            if type(key) is not str:
                raise Error("index into a map")
            there, value = value.get(key)
            if not there:
                return None
        elif type(value) is list:
            if type(key) is not int:
                raise Error("key into a list")
            if not 0 <= key < len(value):
                raise Error("index out of bounds")
            value = value[key]
        else:
            raise Error("key into what has none")
    return value


# ---- functions

def duration(text):
    """The nanoseconds of a text such as 1h2.5s (D-336)."""
    negative, rest = text[:1] == "-", text[1:] if text[:1] in ("+", "-") else text
    if rest == "0":
        return 0
    total, at, count = 0, 0, 0
    while at < len(rest) or not count:
        found = PART.match(rest, at)
        count += 1
        if not found or not (found[1] or found[3]) or found[4] not in UNITS or count > PARTS:
            raise Error("Duration")
        unit = UNITS[found[4]]
        total += int(found[1] or "0") * unit
        # What is below a nanosecond is cut off once, in all (D-336).
        total += int((found[3] or "0")[:TENTHS]) * unit // 10 ** len((found[3] or "0")[:TENTHS])
        if total > I64MAX:
            raise Error("Duration")
        at = found.end()
    return -total if negative else total


def to_int(value):
    """A value as a whole number, or None (D-337)."""
    kind = type(value)
    if kind in (int, bool):
        return int(value)
    if kind is float:
        return 0 if value != value else I64MAX if value >= 2.0**63 else I64MIN if value < -2.0**63 else int(value)
    if kind is str and re.fullmatch("[-+]?[0-9]+", value):
        number = int(value) if len(value) < 4000 else I64MAX + 1
        return number if I64MIN <= number <= I64MAX else None
    return None


def to_double(value):
    """A value as a float, or None (D-337)."""
    if type(value) in (int, bool, float):
        return float(value)
    if type(value) is str and re.fullmatch(r"[-+]?([0-9]+\.?[0-9]*|\.[0-9]+)([eE][-+]?[0-9]+)?", value):
        number = float(value)
        return None if abs(number) == float("inf") else number
    return None


def to_string(value):
    """A value as a text, or None (D-338)."""
    if value is None or type(value) is str:
        return value
    if type(value) is bool:
        return "true" if value else "false"
    if type(value) is int:
        return str(value)
    raise Error("String")


def text_of(value):
    """The value, which must be a text."""
    if type(value) is not str:
        raise Error("no text")
    return value


def is_match(value, pattern):
    """Whether a text has a match of a pattern; numbers and bools are made texts, and None has none (D-306)."""
    if type(value) in (int, bool):
        value = to_string(value)
    return value is not None and pattern.search(text_of(value)) is not None


def length(value):
    """A text's bytes, a list's elements, or a map's pairs (D-303)."""
    if type(value) is str:
        return len(utf8(value))
    if type(value) is list:
        return len(value)
    if type(value) is Map:
        return len(value.pairs)
    raise Error("Len")


def substring(value, start, count):
    """A part of a text, by bytes (D-339)."""
    raw = utf8(text_of(value))
    if type(start) is not int or type(count) is not int or start < 0 or count <= 0 or start + count > len(raw):
        raise Error("Substring")
    try:
        return raw[start:start + count].decode("utf-8")
    except UnicodeDecodeError:
        raise Error("Substring") from None


def made(text):
    """A text that was made, which may not be too long (D-356)."""
    if len(utf8(text)) > MOST:
        raise Error("too long")
    return text


def in_upper(letter):
    """A letter in upper case by its simple mapping: of one that becomes several in full its title form, if that is one (D-354)."""
    return next((form for form in (letter.upper(), letter.title()) if len(form) == 1), letter)


def in_lower(letter):
    """The same in lower case: just `İ` becomes several, of which the first is the simple mapping."""
    return letter.lower()[0]


def convert_case(value, case):
    """A text with each letter in a case."""
    return made("".join(map(in_lower if case == "lower" else in_upper, text_of(value))))


def concat(values, delimiter):
    """Texts joined: that of nil is <nil> (D-355). One text alone isn't made anew."""
    texts = ["<nil>" if value is None else to_string(value) for value in values]
    return made(delimiter.join(texts)) if len(texts) > 1 else texts[0]


CALLS = {
    "IsMatch": is_match,
    "IsString": lambda value: type(value) is str,
    "IsInt": lambda value: type(value) is int,
    "IsDouble": lambda value: type(value) is float,
    "IsBool": lambda value: type(value) is bool,
    "IsMap": lambda value: type(value) is Map,
    "IsList": lambda value: type(value) is list,
    "HasPrefix": lambda value, start: text_of(value).startswith(text_of(start)),
    "HasSuffix": lambda value, end: text_of(value).endswith(text_of(end)),
    "Len": length,
    "Int": to_int,
    "Double": to_double,
    "String": to_string,
    "Substring": substring,
    "Duration": lambda value: Duration(duration(text_of(value))),
    "ConvertCase": convert_case,
    "Concat": concat,
}


# ---- evaluation

def value_of(node, span):
    """A node's value on a span; its parts are evaluated from the left."""
    what, of = node.what, node.of
    if what == "literal":
        return of[0]
    if what == "list":
        return [value_of(each, span) for each in of]
    if what == "path":
        return keyed(of[0](span), of[1])
    if what == "call":
        name, arguments = of
        return span.root if name == "IsRootSpan" else CALLS[name](*[value_of(each, span) for each in arguments])
    if what == "reckon":
        return reckon(of[0], value_of(of[1], span), value_of(of[2], span))
    if what == "compare":
        return compare(of[0], value_of(of[1], span), value_of(of[2], span))
    if what == "not":
        return not truth(of[0], span)
    # Of a conjunction or a disjunction only so many parts are evaluated as decide it.
    return all(truth(each, span) for each in of) if what == "and" else any(truth(each, span) for each in of)


def truth(node, span):
    """A node's value, which must be true or false (D-305)."""
    value = value_of(node, span)
    if type(value) is not bool:
        raise Error("not true or false")
    return value


def answer(text, request, event=False):
    """What a condition says of a request's first span, or of that span's first event: true, false, error or fault, with what is wrong; or
    unsure, where a pattern isn't read here."""
    try:
        node = Parser(text, event).text()
        return ("true" if truth(node, request if isinstance(request, Span) else Span(request)) else "false"), ""
    except Fault as fault:
        return "fault", f"{fault.name} {fault.column}"
    except Error as error:
        return "error", error.name
    except Unsure:
        return "unsure", ""
