"""A Collector's configuration: its YAML with the lines of it, and tables whose keys are taken one after the other."""
import re
from decimal import ROUND_CEILING, Decimal, InvalidOperation

import yaml

WHOLE, NOTHING = 2**63 - 1, ("", "~", "null", "Null", "NULL")
UNITS = {"ns": 1, "us": 10**3, "µs": 10**3, "μs": 10**3, "ms": 10**6, "s": 10**9, "m": 60 * 10**9, "h": 3600 * 10**9}


class Refused(Exception):
    """There is no result."""


class Unfit(Exception):
    """Something that can't be written: the line of the YAML, and why."""

    def __init__(self, line, why):
        super().__init__(why)
        self.line, self.why = line, why


class Table(dict):
    """A mapping, with its line."""


class Items(list):
    """A sequence, with its line."""


class Text(str):
    """A scalar as it is written, with its line, whether it is in no quotes, and the names in it that have no value."""


class Reader:
    """Reads YAML as the Collector does: only true and false are truth values, a key that stands twice is refused, and ${NAME} is a setting's value."""

    def __init__(self, source, given):
        self.source, self.given = source, given
        try:
            node = yaml.compose(source, Loader=yaml.SafeLoader)
            self.root = self.value(node) if node else Table()
        except (yaml.YAMLError, RecursionError) as problem:
            raise Refused(f"no YAML: {' '.join(str(problem).split())}") from None

    def value(self, node):
        """What a node says."""
        if isinstance(node, yaml.MappingNode):
            made = self.table(node)
        elif isinstance(node, yaml.SequenceNode):
            made = Items(self.value(it) for it in node.value)
        else:
            missing = []
            made = Text(re.sub(r"\$\$|\$\{([^}]*)\}", lambda found: self.filled(found, missing), node.value))
            made.plain, made.missing = node.style is None, missing
        made.line, made.start, made.end, made.column = node.start_mark.line + 1, node.start_mark.index, node.end_mark.index, node.start_mark.column
        return made

    def table(self, node):
        """A mapping; what `<<` brings in counts where the mapping itself has no such key."""
        made, brought = Table(), {}
        for key, value in node.value:
            if not isinstance(key, yaml.ScalarNode) or key.value in made:
                raise Refused(f"line {key.start_mark.line + 1}: a key that is no text, or stands there twice")
            if key.tag != "tag:yaml.org,2002:merge":
                made[key.value] = self.value(value)
                continue
            for it in value.value if isinstance(value, yaml.SequenceNode) else [value]:
                if not isinstance(it, yaml.MappingNode):
                    raise Refused(f"line {it.start_mark.line + 1}: << brings in mappings alone")
                brought = {**self.table(it), **brought}
        for key, value in brought.items():
            made.setdefault(key, value)
        return made

    def filled(self, found, missing):
        """What stands for `$$` or `${..}`."""
        if found[1] is None:
            return "$"
        name, has_default, default = found[1].removeprefix("env:").partition(":-")
        if name in self.given or has_default:
            return self.given.get(name, default)
        missing.append(found[0])
        return found[0]

    def lines_of(self, node):
        """The lines of the YAML that a node stands in, without those behind it."""
        first, *others = self.source[node.start:node.end].rstrip().split("\n")
        lines = [first, *(it[min(node.column, len(it) - len(it.lstrip())):] for it in others)]
        while not lines[-1].strip() or lines[-1].lstrip().startswith("#"):
            lines.pop()
        return lines


def is_nothing(value):
    """Whether nothing stands behind a key."""
    return value is None or isinstance(value, Text) and value.plain and value in NOTHING


def text_of(value, what):
    """A text."""
    if not isinstance(value, Text) or is_nothing(value):
        raise Unfit(getattr(value, "line", 0), f"{what}: a text is wanted")
    if value.missing:
        raise Unfit(value.line, f"{what}: {', '.join(value.missing)} has no value (--set NAME=VALUE)")
    return value


def number_of(value, what):
    """A number, exactly."""
    text = text_of(value, what)
    try:
        number = Decimal(int(text, 0)) if re.match(r"[-+]?0[xob]", text) else Decimal(text.replace("_", ""))
        if number.is_finite() and number.adjusted() < 40:
            return number
    except (InvalidOperation, ValueError):
        pass
    raise Unfit(value.line, f"{what}: {text} is no number")


def nanoseconds_of(value, what):
    """A duration as Go writes it; a number alone is of nanoseconds."""
    text = text_of(value, what)
    parts = re.findall(r"(\d+\.?\d*|\.\d+)(ns|us|µs|μs|ms|s|m|h)", text)
    if parts and "".join(number + unit for number, unit in parts) == text.removeprefix("+"):
        return sum(Decimal(number) * UNITS[unit] for number, unit in parts)
    return number_of(value, what)


class Section:
    """A table of the YAML whose keys are taken one after the other, and the remarks that come with them."""

    def __init__(self, table, path, line=0):
        if is_nothing(table):
            table, line = Table(), getattr(table, "line", line)
        if not isinstance(table, Table):
            raise Unfit(table.line, f"{path or 'it'}: a table is wanted")
        self.left, self.path, self.line, self.remarks = dict(table), path, getattr(table, "line", line), []

    def where(self, key=""):
        """The name of a key of it, or its own."""
        return self.path + ("." if self.path and not self.path.endswith(": ") else "") + key if key else self.path.removesuffix(": ")

    def tell(self, level, key, text, node=None):
        """A remark on a key of it, or on all of it."""
        where = self.where(key)
        self.remarks.append((level, getattr(node, "line", self.line), f"{where}: {text}" if where else text))

    def told(self):
        """The remarks since it was last asked."""
        told, self.remarks = self.remarks, []
        return told

    def take(self, key):
        """What stands at a key, if anything."""
        value = self.left.pop(key, None)
        return None if is_nothing(value) else value

    def text(self, key, default=None):
        """A text."""
        value = self.take(key)
        if value is None:
            if default is None:
                raise Unfit(self.line, f"{self.where(key)} is missing")
            return default
        return text_of(value, self.where(key))

    def truth(self, key):
        """True or false; false where nothing stands there."""
        value = self.text(key, "false")
        if value.lower() not in ("true", "false"):
            raise Unfit(value.line, f"{self.where(key)}: true or false is wanted")
        return value.lower() == "true"

    def items(self, key):
        """A list, which may be missing."""
        value = self.take(key)
        if value is not None and not isinstance(value, Items):
            raise Unfit(value.line, f"{self.where(key)}: a list is wanted")
        return value or Items()

    def texts(self, key):
        """A list of texts."""
        return [text_of(it, self.where(key)) for it in self.items(key)]

    def number(self, key, default):
        """A whole number, which is looked at no further."""
        value = self.take(key)
        if value is None:
            return default
        number = number_of(value, self.where(key))
        if number != int(number):
            raise Unfit(value.line, f"{self.where(key)}: {value} is no whole number")
        return int(number)

    def whole(self, key, default=0, least=0, greatest=WHOLE):
        """A whole number within bounds."""
        node, number = self.left.get(key), self.number(key, default)
        if number is not None and not least <= number <= greatest:
            raise Unfit(getattr(node, "line", self.line), f"{self.where(key)}: {number} is not from {least} to {greatest}")
        return number

    def capped(self, key, least, greatest):
        """A whole number, or the greatest or least where it is beyond."""
        node, number = self.left.get(key), self.number(key, None)
        return self.within(key, node, number, least, greatest)

    def within(self, key, node, number, least, greatest):
        """A number, if any, moved between bounds."""
        if number is None or least <= number <= greatest:
            return number
        bound = least if number < least else greatest
        self.tell("left out", key, f"{number} is not from {least} to {greatest}, so {bound} is written", node)
        return bound

    def milliseconds(self, key, least, greatest):
        """A duration in whole milliseconds."""
        value = self.take(key)
        if value is None:
            return None
        exact = nanoseconds_of(value, self.where(key)) / 10**6
        number = int(exact.to_integral_value(ROUND_CEILING))
        if number != exact:
            alone = "" if re.search("[a-z]", value) else "a number without a unit is of nanoseconds; "
            self.tell("differs", key, f"{value}: {alone}{number} whole milliseconds are written", value)
        return self.within(key, value, number, least, greatest)

    def noted(self, read, *given):
        """What reads a key; where it can't be written that is a note, and there is nothing."""
        try:
            return read(*given)
        except Unfit as problem:
            self.remarks.append(("note", problem.line, f"{problem.why}, so it isn't written"))
            return None

    def rest(self):
        """Tells the keys that nobody took."""
        for key, value in self.left.items():
            self.tell("left out", key, "no such key is known", value)
