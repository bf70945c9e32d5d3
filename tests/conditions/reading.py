"""The reading of conditions: tokens, the grammar, and what is a fault. By OTTL's documentation and docs/decisions/CONDITIONS.md."""
import re
import sys
from collections import namedtuple

from patterns import ESCAPES, Fault, compiled
from request import I64MAX, I64MIN, PATHS

sys.setrecursionlimit(10000)  # each of the levels takes a call for each rule
LEVELS = 200
ENUMERATIONS = {"SPAN_KIND_UNSPECIFIED": 0, "SPAN_KIND_INTERNAL": 1, "SPAN_KIND_SERVER": 2, "SPAN_KIND_CLIENT": 3,
                "SPAN_KIND_PRODUCER": 4, "SPAN_KIND_CONSUMER": 5, "STATUS_CODE_UNSET": 0, "STATUS_CODE_OK": 1, "STATUS_CODE_ERROR": 2}
# The functions, each with the number of its arguments. All of them are taken on events too, IsRootSpan with them (D-343).
FUNCTIONS = {"IsMatch": 2, "IsRootSpan": 0, "IsString": 1, "IsInt": 1, "IsDouble": 1, "IsBool": 1, "IsMap": 1, "IsList": 1, "HasPrefix": 2,
             "HasSuffix": 2, "Len": 1, "Int": 1, "Double": 1, "String": 1, "Substring": 3, "Duration": 1, "ConvertCase": 2, "Concat": 2}
TOKENS = [(kind, re.compile(pattern)) for kind, pattern in (
    ("bytes", r"0x[a-fA-F0-9]+"),
    ("float", r"[-+]?[0-9]*\.[0-9]+([eE][-+]?[0-9]+)?"),
    ("int", r"[-+]?[0-9]+"),
    ("text", r'"(\\.|[^\\"])*"'),
    ("word", r"(not|or|and|true|false|nil)(?![A-Za-z0-9_])"),
    ("compares", r"==|!=|>=|<=|>|<"),
    ("adds", r"[+-]"),
    ("multiplies", r"[*/]"),
    ("sign", r"[(),\[\]]"),
    ("upper", r"[A-Z][A-Za-z0-9_]*"),
    ("path", r"[a-z][a-z0-9_]*(\.[a-z][a-z0-9_]*)*"),
)]
BLANKS = re.compile(r"[ \t\n\r\f]*")

# A token: its kind (of words and signs it is the word or the sign itself), its value, and its column from 1.
Token = namedtuple("Token", "kind value column")
# A node: what it is; whether it may be a condition, a value, and a part of sums; and what it is made of.
Node = namedtuple("Node", "what condition value number of")


def unquoted(text, column):
    """What a text in quotes says."""
    out, at, text = [], 0, text[1:-1]
    while at < len(text):
        letter = text[at]
        if letter == "\\":
            at += 1
            if text[at] not in ESCAPES:
                raise Fault("escape", column + at)
            letter = ESCAPES[text[at]]
        elif letter == "\n":
            raise Fault("newline", column + at)
        out.append(letter)
        at += 1
    return "".join(out)


def bytes_of(text, column):
    """The bytes of a literal of them, whose digits must be even in number (D-297)."""
    if len(text) % 2:
        raise Fault("odd bytes", column)
    return bytes.fromhex(text[2:])


def float_of(text, column):
    """A float, which must be finite (D-298)."""
    if abs(float(text)) == float("inf"):
        raise Fault("float", column)
    return float(text)


def whole(text, column):
    """A whole number of 64 bits (D-298)."""
    if not I64MIN <= int(text) <= I64MAX:
        raise Fault("int", column)
    return int(text)


VALUES = {"bytes": bytes_of, "float": float_of, "int": whole, "text": unquoted}


def tokens(text):
    """The tokens of a text, and an end."""
    out, at = [], BLANKS.match(text).end()
    while at < len(text):
        kind, found = next(((kind, found) for kind, pattern in TOKENS if (found := pattern.match(text, at))), (None, None))
        if not found:
            raise Fault("character", at + 1)
        value = VALUES[kind](found[0], at + 1) if kind in VALUES else found[0]
        out.append(Token(value if kind in ("word", "sign") else kind, value, at + 1))
        at = BLANKS.match(text, found.end()).end()
    return out + [Token("end", None, len(text) + 1)]


def literal(value, condition=False, number=False):
    """A node of a value that stands there."""
    return Node("literal", condition, True, number, (value,))


class Parser:
    """The grammar: a method for each rule, from the loosest to the tightest. Each reads what it can and gives a Node."""

    def __init__(self, text, event):
        self.tokens, self.at, self.event, self.levels = tokens(text), 0, event, 0

    def peek(self):
        """The kind of the next token."""
        return self.tokens[self.at].kind

    def column(self):
        """Where the next token stands."""
        return self.tokens[self.at].column

    def take(self, *kinds):
        """The next token, which must be of one of these kinds."""
        token = self.tokens[self.at]
        if kinds and token.kind not in kinds:
            raise Fault("expected " + kinds[0], token.column)
        self.at += 1
        return token

    def deeper(self):
        """A level more (D-310)."""
        self.levels += 1
        if self.levels > LEVELS:
            raise Fault("deep", self.column())

    def text(self):
        """The whole text: a condition, and nothing behind it."""
        node = self.condition(self.disjunction)
        self.take("end")
        return node

    def condition(self, rule):
        """What a rule reads, which must be a condition."""
        column, node = self.column(), rule()
        if not node.condition:
            raise Fault("not a condition", column)
        return node

    def value(self, rule):
        """What a rule reads, which must be a value."""
        column, node = self.column(), rule()
        if not node.value:
            raise Fault("not a value", column)
        return node

    def disjunction(self):
        """Conditions with `or` between them."""
        return self.joined("or", self.conjunction)

    def conjunction(self):
        """Conditions with `and` between them."""
        return self.joined("and", self.negation)

    def joined(self, word, rule):
        """What a rule reads, or several of it with a word between them."""
        column, first = self.column(), rule()
        if self.peek() != word:
            return first
        if not first.condition:
            raise Fault("not a condition", column)
        parts = [first]
        while self.peek() == word:
            self.take()
            parts.append(self.condition(rule))
        if len(parts) > LEVELS:
            raise Fault("long", column)
        return Node(word, True, False, False, parts)

    def negation(self):
        """Any number of `not` before a comparison (D-292)."""
        if self.peek() != "not":
            return self.comparison()
        self.take()
        self.deeper()
        node = self.condition(self.negation)
        self.levels -= 1
        return Node("not", True, False, False, (node,))

    def comparison(self):
        """A sum, or two with one comparison between them."""
        column, left = self.column(), self.sum()
        if self.peek() != "compares":
            return left
        if not left.value:
            raise Fault("not a value", column)
        operator = self.take().value
        return Node("compare", True, False, False, (operator, left, self.value(self.sum)))

    def sum(self):
        """Products with `+` and `-` between them."""
        return self.reckoned("adds", self.product)

    def product(self):
        """Operands with `*` and `/` between them."""
        return self.reckoned("multiplies", self.operand)

    def reckoned(self, kind, rule):
        """What a rule reads, or several of it with operators between them, of which the left ones are reckoned first."""
        column, left, count = self.column(), rule(), 0
        while self.peek() == kind:
            if not left.number:
                raise Fault("not a number", column)
            operator, second, right = self.take().value, self.column(), rule()
            if not right.number:
                raise Fault("not a number", second)
            left = Node("reckon", False, True, True, (operator, left, right))
            count += 1
            if count > LEVELS:
                raise Fault("long", column)
        return left

    def operand(self):
        """A literal, a path, an enumeration, a function, or something in parentheses."""
        kind, value, column = self.take()
        if kind in ("int", "float"):
            return literal(value, number=True)
        if kind in ("text", "bytes"):
            return literal(value)
        if kind in ("true", "false"):
            return literal(kind == "true", condition=True)
        if kind == "nil":
            return literal(None)
        if kind == "(":
            self.deeper()
            node = self.disjunction()
            self.take(")")
            self.levels -= 1
            return node
        if kind == "path":
            return self.path(value, column)
        if kind == "upper":
            return self.function(value, column) if self.peek() == "(" else self.enumeration(value, column)
        raise Fault("unexpected " + kind, column)

    def enumeration(self, name, column):
        """A span kind or a status code by its name. It may stand in sums: `SPAN_KIND_SERVER + 1` is read (D-342)."""
        if name not in ENUMERATIONS:
            raise Fault("enumeration " + name, column)
        return literal(ENUMERATIONS[name], number=True)

    def path(self, name, column):
        """A path, and the keys and indexes behind it, which attributes alone have."""
        if name not in PATHS[self.event]:
            raise Fault("path " + name, column)
        keys = []
        while self.peek() == "[":
            opened = self.take()
            if name.split(".")[-1] != "attributes":
                raise Fault("key on " + name, opened.column)
            keys.append(self.take("text", "int").value)
            self.take("]")
        return Node("path", False, True, True, (PATHS[self.event][name], keys))

    def function(self, name, column):
        """A function, from its opening parenthesis on."""
        if name not in FUNCTIONS:
            raise Fault("function " + name, column)
        self.take("(")
        self.deeper()
        arguments = []
        while self.peek() != ")" or arguments:
            arguments.append(self.argument(name, len(arguments)))
            if self.peek() != ",":
                break
            self.take()
        self.levels -= 1
        self.take(")")
        if len(arguments) != FUNCTIONS[name]:
            raise Fault("arguments of " + name, column)
        if name == "Concat" and not arguments[0].of:
            return literal("")  # (as if it stood there: D-355)
        return Node("call", True, True, True, (name, arguments))

    def argument(self, name, place):
        """An argument of a function, by its place."""
        if name == "IsMatch" and place == 1:
            return self.pattern()
        if name == "ConvertCase" and place == 1:
            return self.case()
        if name == "Concat":
            return literal(self.take("text").value) if place else self.values()
        return self.value(self.sum)

    def case(self):
        """The case of ConvertCase: a text that stands there (D-354)."""
        kind, value, column = self.take("text")
        if value not in ("lower", "upper"):
            raise Fault(kind + " is no case", column)
        return literal(value)

    def values(self):
        """The list of Concat (D-355)."""
        self.take("[")
        values = []
        while self.peek() != "]" or values:
            values.append(self.value(self.sum))
            if self.peek() != ",":
                break
            self.take()
        self.take("]")
        return Node("list", False, True, False, values)

    def pattern(self):
        """The pattern of IsMatch: a text that stands there (D-308)."""
        column, start, kind = self.column(), self.at, self.peek()
        node = self.value(self.sum)
        if kind != "text" or self.at != start + 1:
            raise Fault("pattern", column)
        return literal(compiled(node.of[0], column))
