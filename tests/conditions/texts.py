"""Texts of conditions: values as literals, and texts that are disturbed."""
OPERATORS = ["==", "!=", "<", "<=", ">", ">="]
ESCAPED = {"\a": "a", "\b": "b", "\f": "f", "\n": "n", "\r": "r", "\t": "t", "\v": "v", "\\": "\\", '"': '"'}
TOKENS = ["name", "kind", "1", "2", "-1", "1.5", "+", "-", "*", "/", "==", "==", "<", "and", "or", "not", "true", "false", "nil", '"a"', "0x61",
          "(", "(", ")", ")", "IsInt(kind)", "IsInt(", "Len(name)", ",", "SPAN_KIND_CLIENT", 'attributes["a"]', "attributes", '["a"]', "[0]", "true", 'ConvertCase(name, "upper")', "Concat([name, 1], ", "Concat([", "]",
          "kind == 2", "kind == 1"]
LETTERS = "abcdefxyzABISL0123456789.,()[]\"\\=<>!+-*/_ éä&|'{}:;#~^$?%@"


def quoted(text):
    """The text in quotes, with escapes."""
    return '"' + "".join("\\" + ESCAPED[letter] if letter in ESCAPED else letter for letter in text) + '"'


def float_text(value):
    """A float as a literal; of one that has none, another."""
    text = repr(value)
    if text in ("inf", "-inf", "nan"):
        return "1.5"
    return text.replace("e", ".0e") if "e" in text and "." not in text else text


def literal(value):
    """A literal that is the value, or None where there is none."""
    kind = type(value)
    if value is None:
        return "nil"
    if kind is bool:
        return "true" if value else "false"
    if kind is int:
        return str(value)
    if kind is float:
        return float_text(value)
    if kind is str:
        return quoted(value)
    if kind is bytes and value:
        return "0x" + (value.hex() if value[0] % 2 else value.hex().upper())
    return None


def at_one(draw, text, letter, others):
    """The text with one of a letter's places replaced."""
    place = draw.choice([at for at, each in enumerate(text) if each == letter])
    return text[:place] + draw.choice(others) + text[place + 1:]


def disturbed(draw, text):
    """The text with a character, a token or a blank more, less or changed."""
    place = draw.randrange(len(text))
    if draw.random() < 0.6:
        # A name that lost a letter is a fault at once: so mostly what stands between the names is disturbed.
        place = draw.choice([at for at, letter in enumerate(text) if not letter.isalpha()] or [place])
    way = draw.random()
    if way < 0.08:
        more = draw.choice(TOKENS + [" ", " ", " ", '["a"]', "\\n", "\\x", "\\'", "\\0"])
        return text[:place] + more + text[place:]
    if way < 0.10 and " " in text:
        return at_one(draw, text, " ", [it + " " for it in ('["a"]', "[0]", ".a", "()", "_", ".string")])
    if way < 0.13 and "." in text:
        return at_one(draw, text, ".", [" .", ". ", ".."])
    if way < 0.18 and "]" in text:
        return at_one(draw, text, "]", ["] ", "][0]", '"]', ']["a"]'])
    if way < 0.5:
        return text[:place] + text[place + 1:]
    if way < 0.65:
        return text[:place] + text[place] + text[place:]
    return text[:place] + draw.choice(LETTERS) + text[place + 1:]


def soup(draw, most):
    """Up to so many tokens in a row, short enough that some are conditions."""
    return "".join(draw.choice(TOKENS) + draw.choice(["", " ", " ", " "]) for _ in range(draw.randint(1, most))).strip()
