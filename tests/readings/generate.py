#!/usr/bin/env python3
"""Writes random bodies, each a line of hexadecimal digits, for crates/reading_table: generate.py BODIES [--seed N]
[--longest BYTES].

Each body is a real one (a row of crates/reading_table/data/readings.tsv, a request of bench/generate.py, or one made here
of every field and kind) with some of its parts changed: keys that are odd, escaped, out of order or come twice, numbers at
their limits and one beyond, nulls and wrong shapes, texts with escapes and surrogates, values that nest up to the bound and
beyond, members that are no field; and then, of one in four, its bytes: cut, flipped, left out, put in or doubled.
"""
import argparse
import copy
import json
import pathlib
import random
import subprocess
import sys

TOP = pathlib.Path(__file__).resolve().parents[2]
NUMBERS = (
    "0 -0 1 -1 7 0.0 -0.0 0e0 1.0 1e0 1E+2 1e-2 1.5 -1.5 2e1 400 2147483647 2147483648 -2147483648 -2147483649 4294967295 "
    "4294967296 9223372036854775807 9223372036854775808 -9223372036854775808 -9223372036854775809 18446744073709551615 "
    "18446744073709551616 -18446744073709551616 123456789012345678901234567890 9007199254740993 1e400 -1e400 1e-400 1e308 "
    "1.7976931348623157e308 1.7976931348623158e308 1.7976931348623159e308 1.8e308 4.9e-324 2.4e-324 1e18446744073709551616 "
    "0.00000000000000000000000000000000000001 18446744073709551615.0 18446744073709551615e0"
).split()
NO_NUMBERS = "00 01 -01 +1 .5 1. -.5 1e 1e+ - 0x10 NaN Infinity -Infinity nul tru True 1_000 1,5 ' ''".split()
TEXTS = [
    "", " ", "0", "-0", "+1", "00", "007", "1.0", "1e3", " 1", "1 ", "inf", "NaN", "STATUS_CODE_ERROR", "SPAN_KIND_SERVER",
    "5b8efff798038103d269b633813fc60c", "5B8EFFF798038103D269B633813FC60C", "eee19b7ec3c1b174", "0" * 32, "0" * 16,
    "5b8efff798038103d269b633813fc60", "5b8efff798038103d269b633813fc60g", "eee19b7ec3c1b17", "AQID", "AQI=", "\x7f", "é", "\u2028",
    "\U0001f600", "\uffff", "a" * 300,
]
ESCAPES = r'\" \\ \/ \b \f \n \r \t \u0000 \u0041 \u00e9 \u20AC \ud83d\ude00 \uD83D\uDE00 \ufffe \u007f'.split()
NO_ESCAPES = [r"\ud800", r"\udc00", r"\ud83d\u0041", r"\ud83dx", r"\ude00\ud83d", r"\u12", r"\uzzzz", r"\x41", r"\'", "\\", "\n", "\t", "\x00", "\x1f"]
KEYS = (
    "resourceSpans resource attributes key value stringValue boolValue intValue doubleValue arrayValue kvlistValue bytesValue values "
    "droppedAttributesCount schemaUrl scopeSpans scope name version spans traceId spanId parentSpanId traceState flags kind "
    "startTimeUnixNano endTimeUnixNano events timeUnixNano droppedEventsCount links droppedLinksCount status message code"
).split()
OTHER_KEYS = ["", " ", "x", "Name", "trace_id", "resource_spans", "stringvalue", "nam", "namee", "isRemote", "instrumentationLibrary", "é"]


class Token(str):
    """A token as it stands in the text."""


class Members(list):
    """An object: its members in order, each a list of a key and a value."""


def tree(text):
    """The value that a text writes, with all members of each object."""
    as_token = lambda digits: Token(digits)
    return json.loads(text, object_pairs_hook=lambda pairs: Members(list(pair) for pair in pairs), parse_int=as_token, parse_float=as_token)


def members(**fields):
    return Members([key, value] for key, value in fields.items())


class Maker:
    """Requests of every field and kind."""

    def __init__(self, draw):
        self.draw = draw

    def some(self, make, most=3):
        return [make() for _ in range(self.draw.randrange(most))]

    def digits(self, bits):
        number = self.draw.choice([0, 1, 2**bits - 1, self.draw.getrandbits(bits)])
        return self.draw.choice([str(number), Token(number)])

    def value(self, levels=3):
        kind = self.draw.choice("string bool int double array kvlist bytes empty".split()[: 8 if levels else 4])
        made = {
            "string": lambda: self.text(),
            "bool": lambda: self.draw.random() < 0.5,
            "int": lambda: self.draw.choice([str, Token])(self.draw.choice([0, -1, 2**63 - 1, -(2**63), self.draw.getrandbits(40)])),
            "double": lambda: self.draw.choice([Token("1.5"), Token("3"), "NaN", "Infinity"]),
            "array": lambda: members(values=self.some(lambda: self.value(levels - 1))),
            "kvlist": lambda: members(values=self.some(lambda: self.pair(levels - 1))),
            "bytes": lambda: "AQID",
        }
        return Members([[kind + "Value", made[kind]()]]) if kind in made else Members()

    def text(self):
        return self.draw.choice(["GET /cart", "checkout", "é\u20ac", "\U0001f600", "a\"b\\c", "", "1.4.2"])

    def pair(self, levels=3):
        return members(key=self.text(), value=self.value(levels))

    def fields(self, every):
        """Some of these fields, mostly in this order."""
        chosen = Members([key, make()] for key, make in every.items() if self.draw.random() < 0.6)
        if self.draw.random() < 0.2:
            self.draw.shuffle(chosen)
        return chosen

    def attributes(self):
        return {"attributes": lambda: self.some(self.pair, 4), "droppedAttributesCount": lambda: self.digits(32)}

    def hexadecimal(self, digits):
        return lambda: "%0*x" % (digits, self.draw.getrandbits(4 * digits))

    def event(self):
        return self.fields({"timeUnixNano": lambda: self.digits(64), "name": self.text, **self.attributes()})

    def link(self):
        ids = {"traceId": self.hexadecimal(32), "spanId": self.hexadecimal(16), "traceState": self.text}
        return self.fields({**ids, **self.attributes(), "flags": lambda: self.digits(32)})

    def span(self):
        ids = {"traceId": self.hexadecimal(32), "spanId": self.hexadecimal(16), "parentSpanId": self.hexadecimal(16), "traceState": self.text}
        own = {"flags": lambda: self.digits(32), "name": self.text, "kind": lambda: Token(self.draw.randrange(6))}
        times = {"startTimeUnixNano": lambda: self.digits(64), "endTimeUnixNano": lambda: self.digits(64)}
        held = {"events": lambda: self.some(self.event), "droppedEventsCount": lambda: self.digits(32)}
        linked = {"links": lambda: self.some(self.link), "droppedLinksCount": lambda: self.digits(32)}
        status = {"status": lambda: self.fields({"message": self.text, "code": lambda: Token(self.draw.randrange(3))})}
        return self.fields({**ids, **own, **times, **self.attributes(), **held, **linked, **status})

    def request(self):
        scope = lambda: self.fields({"name": self.text, "version": self.text, **self.attributes()})
        scoped = lambda: self.fields({"scope": scope, "spans": lambda: self.some(self.span, 4), "schemaUrl": self.text})
        resource = lambda: self.fields(self.attributes())
        of_one = lambda: self.fields({"resource": resource, "scopeSpans": lambda: self.some(scoped), "schemaUrl": self.text})
        return members(resourceSpans=self.some(of_one))


class Mutator:
    """Changes parts of a value, and then bytes of its text."""

    def __init__(self, draw):
        self.draw = draw

    def odd(self):
        """A value of any shape."""
        return self.draw.choice([
            None, None, True, False, [], Members(), [None], "", Token(self.draw.choice(NUMBERS)), Token(self.draw.choice(NUMBERS)),
            self.draw.choice(NUMBERS), self.draw.choice(TEXTS), Token(self.draw.choice(NO_NUMBERS)), [Members()], members(values=[None]),
            Members([["stringValue", "s"], ["intValue", "1"]]), self.nested(self.draw.choice([1, 3, 20])),
        ])

    def nested(self, levels):
        """A value that nests so deep."""
        made = self.draw.choice([[], Members(), Token("0"), None])
        for _ in range(levels):
            made = [made] if self.draw.random() < 0.5 else Members([[self.draw.choice(KEYS), made]])
        return made

    def nested_value(self, levels):
        """An attribute's value of so many arrays or lists of pairs."""
        made = self.draw.choice([Members(), members(stringValue="s"), members(doubleValue=Token("1.5")), members(intValue=Token("-7"))])
        for _ in range(levels):
            if self.draw.random() < 0.8:
                made = members(arrayValue=members(values=[made]))
            else:
                made = members(kvlistValue=members(values=[members(key="k", value=made)]))
        return made

    def deep(self):
        """Something at the bound of nesting: 127 levels are read, and a request takes some of them."""
        return self.nested_value(self.draw.randint(34, 44)) if self.draw.random() < 0.5 else self.nested(self.draw.randint(112, 128))

    def change_object(self, found):
        key = self.draw.choice(KEYS if self.draw.random() < 0.7 else OTHER_KEYS)
        at = self.draw.randint(0, len(found))
        change = self.draw.randrange(10)
        if change == 0 or not found:
            found.insert(at, [key, self.odd()])
        elif change == 1:
            found.insert(at, [self.draw.choice(found)[0], self.odd()])
        elif change == 2:
            found.insert(at, list(self.draw.choice(found)))
        elif change == 3:
            found.append([self.draw.choice(found)[0], None])
        elif change == 4:
            self.draw.choice(found)[0] = key
        elif change == 5:
            self.draw.shuffle(found)
        elif change == 6:
            del found[self.draw.randrange(len(found))]
        elif change == 7:
            self.draw.choice(found)[1] = self.odd()
        else:
            number = self.draw.choice(NUMBERS)
            self.draw.choice(found)[1] = Token(number) if self.draw.random() < 0.7 else number

    def repeat_key(self, objects):
        """Puts a member behind one of the same name; each name that is there is as likely."""
        names = sorted({pair[0] for one in objects for pair in one})
        if names:
            name = self.draw.choice(names)
            holders = [one for one in objects if any(pair[0] == name for pair in one)]
            values = [pair[1] for one in holders for pair in one if pair[0] == name]
            self.draw.choice(holders).append([name, self.draw.choice([None, copy.deepcopy(self.draw.choice(values)), self.odd()])])

    def change_list(self, found):
        at = self.draw.randint(0, len(found))
        change = self.draw.randrange(4)
        if change == 0 or not found:
            found.insert(at, self.odd())
        elif change == 1:
            found.insert(at, None)
        elif change == 2:
            found.append(self.draw.choice(found))
        else:
            del found[self.draw.randrange(len(found))]

    def change(self, root):
        """Changes one object or list of a value."""
        every = []
        waiting = [root]
        while waiting:
            one = waiting.pop()
            if isinstance(one, list):
                every.append(one)
                waiting.extend([pair[1] for pair in one] if isinstance(one, Members) else one)
        if not every:
            return
        if self.draw.random() < 0.2:
            self.repeat_key([one for one in every if isinstance(one, Members)])
            return
        found = self.draw.choice(every)
        if self.draw.random() < 0.04 and isinstance(found, Members):
            found.append([self.draw.choice(["value", "x", "attributes"]), self.deep()])
        elif isinstance(found, Members):
            self.change_object(found)
        else:
            self.change_list(found)

    def written_text(self, text, odd):
        made = []
        for letter in text:
            if self.draw.random() < odd:
                made.append(json.dumps(letter)[1:-1] if self.draw.random() < 0.7 else "".join("\\u%04x" % unit for unit in units(letter)))
            else:
                made.append(json.dumps(letter, ensure_ascii=False)[1:-1])
        if self.draw.random() < odd:
            chosen = self.draw.choice(ESCAPES if self.draw.random() < 0.8 else NO_ESCAPES)
            made.insert(self.draw.randint(0, len(made)), chosen)
        return '"' + "".join(made) + '"'

    def space(self, odd):
        return self.draw.choice([" ", "\n", "\t", "\r\n", "  "]) if self.draw.random() < odd else ""

    def written(self, value, odd):
        """The text of a value; the larger `odd`, the more white space and escapes it has."""
        if isinstance(value, Token):
            text = str(value)
        elif isinstance(value, str):
            text = self.written_text(value, odd)
        elif isinstance(value, Members):
            each = [self.written_text(key, odd) + self.space(odd) + ":" + self.written(held, odd) for key, held in value]
            text = "{" + self.space(odd) + ",".join(each) + "}"
        elif isinstance(value, list):
            text = "[" + self.space(odd) + ",".join(self.written(item, odd) for item in value) + "]"
        else:
            text = {None: "null", True: "true", False: "false"}[value]
        return self.space(odd) + text + self.space(odd)

    def change_bytes(self, body):
        at = self.draw.randrange(len(body) + 1)
        to = min(len(body), at + self.draw.randrange(1, 12))
        change = self.draw.randrange(6)
        if change == 0:
            return body[:at]
        if change == 1:
            flipped = bytearray(body)
            if at < len(body):
                flipped[at] ^= 1 << self.draw.randrange(8)
            return bytes(flipped)
        if change == 2:
            return body[:at] + body[to:]
        if change == 3:
            return body[:at] + self.draw.choice([b",", b"}", b"]", b"{", b"[", b"\"", b"\\", b":", b"0", b"\xff", b"\xc3", b"\xed\xa0\x80", b"\x00", b" "]) + body[at:]
        if change == 4:
            return body[:at] + body[at:to] + body[at:]
        return body + self.draw.choice([b" ", b"\n", b"x", b"{}", b",", b"\x00"])

    def body(self, text):
        """A body like this text, which is JSON or isn't."""
        try:
            root = tree(text)
        except ValueError:
            return self.change_bytes(text.encode("utf-8", "surrogateescape"))
        for _ in range(self.draw.choice([0, 1, 1, 1, 2, 3])):
            self.change(root)
        body = self.written(root, self.draw.choice([0, 0, 0.02, 0.2])).encode("utf-8", "surrogatepass")
        return self.change_bytes(body) if self.draw.random() < 0.25 else body


def units(letter):
    """A letter's units of UTF-16."""
    pairs = letter.encode("utf-16-be", "surrogatepass")
    return [pairs[at] * 256 + pairs[at + 1] for at in range(0, len(pairs), 2)]


def real_texts(seed):
    """The bodies of the table, and requests as the benchmark has them, each of two spans."""
    rows = (TOP / "crates/reading_table/data/readings.tsv").read_bytes().split(b"\n")
    table = [row.split(b"\t")[0].decode("utf-8", "surrogateescape") for row in rows if row]
    asked = [sys.executable, str(TOP / "bench/generate.py"), "400", "--of-a-request", "2", "--seed", str(seed)]
    script = subprocess.run(asked, check=True, capture_output=True, text=True).stdout
    return table, [line.split(" ", 3)[3] for line in script.splitlines() if line.startswith("recv ")]


def main():
    words = argparse.ArgumentParser(description=__doc__, formatter_class=argparse.RawDescriptionHelpFormatter)
    words.add_argument("bodies", type=int, help="how many bodies")
    words.add_argument("--seed", type=int, default=1)
    words.add_argument("--longest", type=int, help="leave out bodies of more bytes")
    asked = words.parse_args()
    draw = random.Random(asked.seed)
    table, requests = real_texts(asked.seed)
    maker = Maker(draw)
    mutator = Mutator(draw)
    written = 0
    while written < asked.bodies:
        source = draw.random()
        if source < 0.3:
            text = draw.choice(table)
        elif source < 0.5:
            text = draw.choice(requests)
        else:
            text = Mutator(random.Random(0)).written(maker.request(), 0)
        body = mutator.body(text)
        if asked.longest is None or len(body) <= asked.longest:
            print(body.hex())
            written += 1


main()
