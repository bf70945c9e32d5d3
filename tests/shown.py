#!/usr/bin/env python3
"""Writes bodies to a folder, and what `tsc show` prints of each: NAME.body, NAME.out (standard output) and NAME.err (standard error; with something in it
the status is 4); one name a line on standard output.

    tests/shown.py FOLDER

The bodies are put together by the guide "Encoding" of Protocol Buffers and the `.proto` files of OTLP; lines and offsets are worked out by hand."""
import sys

TRACE, SPAN = bytes(range(1, 17)), bytes(range(1, 9))
IDS = '"spanId":"0102030405060708"', '"traceId":"0102030405060708090a0b0c0d0e0f10"'


def number(value):
    """A number, seven bits a byte, the lowest first."""
    return bytes([value]) if value < 128 else bytes([value % 128 + 128]) + number(value // 128)


def field(tag, held):
    """A field of counted bytes."""
    return number(tag * 8 + 2) + number(len(held)) + held


def body(fields):
    """A body of one span with ids and these fields behind them, which begin at byte 34 where they have less than 94 bytes."""
    span = field(1, TRACE) + field(2, SPAN) + fields
    return field(1, field(2, field(2, span)))


def line(*members):
    """The line of such a body: the members of its span that stand before its ids, and those between them."""
    return '{"resourceSpans":[{"scopeSpans":[{"spans":[{' + ",".join(members) + "}]}]}]}"


def nested(levels):
    """An attribute whose value nests so deep: lists in lists, around one that holds nothing."""
    held = b""
    for _ in range(levels - 1):
        held = field(5, field(1, held))
    return field(9, field(1, b"k") + field(2, held))


# A name, a body, and the line on standard output; or why it is refused, and at which byte.
TAKEN = [
    ("an empty body", b"", "{}"),
    ("a resource of which nothing is told", field(1, b""), '{"resourceSpans":[{}]}'),
    ("two resources", field(1, field(3, b"u")) + field(1, field(3, b"v")), '{"resourceSpans":[{"schemaUrl":"u"},{"schemaUrl":"v"}]}'),
    ("a span", body(field(5, b"GET /")), line('"name":"GET /"', *IDS)),
    ("a double", body(field(9, field(1, b"d") + field(2, b"\x21" + bytes.fromhex("000000000000f83f")))), line('"attributes":[{"key":"d","value":{"doubleValue":1.5}}]', *IDS)),
    ("fields that aren't known", body(field(99, b"\xff") + number(98 * 8) + number(7)), line(*IDS)),
    ("a value of 29 levels", body(nested(29)), line('"attributes":[{"key":"k","value":' + '{"arrayValue":{"values":[' * 28 + "{}" + "]}}" * 28 + "}]", *IDS)),
]
REFUSED = [
    ("a body that ends in its first field", body(b"")[:-1], "the bytes end within a field", 0),
    ("a name in no UTF-8", body(field(5, b"\xff")), "a text is not in UTF-8", 34),
    ("a name in no UTF-8 behind a field", body(b"\x30\x02" + field(5, b"ab\xc3")), "a text is not in UTF-8", 36),
    ("a name in no UTF-8 behind a resource", field(1, b"") + body(field(5, b"\xff")), "a text is not in UTF-8", 36),
    ("a key in no UTF-8", body(field(9, field(1, b"\x80"))), "a text is not in UTF-8", 36),
    ("a text value in no UTF-8", body(field(9, field(1, b"k") + field(2, field(1, b"\x80")))), "a text is not in UTF-8", 41),
    ("a text of a status in no UTF-8", body(field(15, b"\x18\x02" + field(2, b"\x80"))), "a text is not in UTF-8", 38),
    ("a length beyond its message's end, within the body", field(1, b"\x1a\x05ab") + field(1, b""), "the bytes end within a field", 2),
    ("a group", b"\x0b\x0c", "a field is a group", 0),
    ("a group behind a resource", field(1, b"") + b"\x0c", "a field is a group", 2),
    ("a group in a span", body(b"\x0b"), "a field is a group", 34),
    ("wire type 6", body(b"\x0e"), "a wire type is 6 or 7", 34),
    ("field number 0", body(b"\x00\x00"), "a field's number is not from 1 to 536870911", 34),
    ("a number of eleven bytes", body(b"\x30" + b"\x80" * 10 + b"\x00"), "a number has more than ten bytes", 34),
    ("a tag that takes three bytes before it", body(b"\xb0\x80\x00\x02" + field(5, b"\xff")), "a text is not in UTF-8", 38),
    ("a link's trace state in no UTF-8", body(field(13, field(3, b"\xff"))), "a text is not in UTF-8", 36),
    ("a value of 30 levels", body(nested(30)), "a value nests more than 29 levels deep", len(body(nested(30))) - 2),
]
LONGEST = 67_108_864


def write(folder, name, held, out, err):
    """Writes one body, and what is printed of it."""
    print(f"shown, {name}")
    for ending, content in ((".body", held), (".out", out.encode()), (".err", err.encode())):
        with open(f"{folder}/shown, {name}{ending}", "wb") as file:
            file.write(content)


def main(folder):
    """Writes all."""
    for name, held, out in TAKEN:
        write(folder, name, held, out + "\n", "")
    for name, held, why, at in REFUSED:
        write(folder, name, held, "", f"tsc: body refused: {why}, in the field at byte {at}\n")
    write(folder, "a body of one byte too many", bytes(LONGEST + 1), "", f"tsc: body refused: longer than {LONGEST} bytes\n")


if __name__ == "__main__":
    main(sys.argv[1])
