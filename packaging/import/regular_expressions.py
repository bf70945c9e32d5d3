"""Regular expressions of Go's syntax, as those of Rust's that mean the same."""
import re


def element(text, at):
    """Within brackets: an element as Rust's syntax has it, whether it is more than one character, and where it ends."""
    if text[at] == "[" and (found := re.match(r"\[:\^?\w+:\]", text[at:])):
        return found[0], True, at + found.end()
    if text[at] != "\\":
        return ("\\" if text[at] in "-[&~" else "") + text[at], False, at + 1
    return escape(text, at, {"d": "0-9", "w": "0-9A-Za-z_", "s": r"\t\n\f\r ", "D": "[^0-9]", "W": "[^0-9A-Za-z_]", "S": r"[^\t\n\f\r ]"})


def escape(text, at, classes):
    """What an escape of Go's syntax is in Rust's, whether it is more than one character, and where it ends."""
    found = re.match(r"\\(?:[0-7]{1,3}|x\{\w*\}|x\w\w|[pP]\{[^}]*\}|[pP]?.)", text[at:], re.S)
    if not found:
        raise ValueError("it ends in a \\")
    said, end = found[0][1:], at + found.end()
    if said in classes:
        return classes[said], True, end
    if said[0] in "01234567":
        return f"\\x{{{int(said, 8):x}}}", False, end
    return (said if said in "<>" else found[0]), said[0] in "pP", end


def brackets(text, at):
    """A class in brackets as Rust's syntax has it, and where it ends."""
    made, first = "[", True
    at += 1
    if text[at:at + 1] == "^":
        made, at = "[^", at + 1
    while first or text[at] != "]":
        low, is_more, at = (r"\]", False, at + 1) if text[at] == "]" else element(text, at)
        made, first = made + low, False
        if not is_more and text[at] == "-" and text[at + 1] != "]":
            high, _, at = element(text, at + 1)
            made += "-" + high
    return made + "]", at + 1


def expression(text):
    """An expression of Go's syntax as one of Rust's that means the same: \\d, \\w, \\s and \\b are of ASCII, and marks that mean more there are escaped."""
    outside = {"d": "[0-9]", "w": "[0-9A-Za-z_]", "s": r"[\t\n\f\r ]", "D": "[^0-9]", "W": "[^0-9A-Za-z_]", "S": r"[^\t\n\f\r ]", "b": r"(?-u:\b)", "B": r"(?-u:\B)"}
    made, at = "", 0
    while at < len(text):
        if text.startswith(r"\Q", at):
            literal, _, _ = text[at + 2:].partition(r"\E")
            made += re.sub(r"[][\\.+*?()|{}^$]", r"\\\g<0>", literal)
            at += len(literal) + 4
        elif text[at] == "\\":
            one, _, at = escape(text, at, outside)
            made += one
        elif text[at] == "[":
            one, end = brackets(text, at)
            plain = not re.search(r"\\[dwsDWS0-7<>]|&&|--|~~|\[(?!:)", text[at + 1:end])
            made, at = made + (text[at:end] if plain else one), end
        else:
            literal = text[at] == "{" and not re.match(r"\{\d+(,\d*)?\}", text[at:])
            made, at = made + ("\\" if literal else "") + text[at], at + 1
    return made
