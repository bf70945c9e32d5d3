"""Random pairs of a condition and a request, where the condition asks for what the request has."""
import json

import narrow
import spans
from meaning import Duration, Error, value_of
from patterns import Fault, Unsure
from reading import ENUMERATIONS, Parser
from request import PATHS, Map, Span, Time, wrap
from texts import OPERATORS, disturbed, float_text, literal, quoted, soup

NOTHING = ["nil", 'attributes["missing"]', 'resource.attributes["missing"]["a"]', "String(nil)", 'Int("a")', "Double(nil)"]
ASKS = {"IsString": str, "IsInt": int, "IsDouble": float, "IsBool": bool, "IsMap": Map, "IsList": list}


class Maker:
    """Conditions over the paths of one span, or of its first event. Types are those of values: str, int, float, bool, bytes, list, Map, Time,
    Duration, and NoneType."""

    def __init__(self, draw, request, event):
        self.draw, self.event, self.span = draw, event, Span(request)
        self.paths, self.values, maps = {}, {}, []
        for path, of in PATHS[event].items():
            value = of(self.span)
            self.add(path, value)
            if type(value) is Map:
                maps.append((path, value))
        for path, value in maps:
            self.walk(path, value, 0)
        self.types = list(self.paths)

    def add(self, path, value):
        """A path and its value."""
        self.paths.setdefault(type(value), []).append(path)
        self.values[path] = value

    def walk(self, path, value, depth):
        """The paths to what stands within a value."""
        if type(value) is Map:
            for key, _ in value.pairs:
                further, within = f"{path}[{quoted(key)}]", value.get(key)[1]
                # Attributes stand several times, so that they come more often than the rest.
                for _ in range(1 if depth else 3):
                    self.add(further, within)
                self.walk(further, within, depth + 1)
        elif type(value) is list:
            for index, within in enumerate(value):
                self.add(f"{path}[{index}]", within)
                self.walk(f"{path}[{index}]", within, depth + 1)

    def path(self, kind):
        """A path whose value is mostly of the type; None where there is none."""
        draw = self.draw
        if draw.random() < 0.06:
            path = draw.choice([it for it in self.values if it == "attributes" or it.endswith(".attributes")] +
                               [it for it in self.values if type(self.values[it]) in (list, Map)])
            for _ in range(draw.choice([1, 1, 1, 2])):
                key, index = quoted(draw.choice(spans.KEYS)), draw.choice([0, 1, 2, -1, 3])
                path += draw.choice([f"[{key}]", f"[{index}]", '["missing"]', '["missing"]'])
            return path
        if draw.random() < 0.03:
            deep = [it for it in self.values if it.endswith("]")]
            if deep:
                return draw.choice(deep) + draw.choice(['["a"]', "[0]", "[-1]"])
        return draw.choice(self.paths[kind]) if kind in self.paths else None

    def other(self):
        """Any type."""
        return self.draw.choice([str, int, float, bool, bytes, type(None), Time, Duration, list, Map])

    def value(self, kind, size):
        """A text whose value is mostly of the type, of about so many nodes."""
        draw = self.draw
        if draw.random() < 0.05:
            kind = self.other()
        if draw.random() < 0.03:
            return "(" + self.value(kind, size) + ")"
        way = draw.random()
        if size <= 1 or way < 0.35:
            path = self.path(kind) if draw.random() < 0.7 else None
            return self.single(kind) if path is None else path
        if kind in (int, float):
            return self.number(kind, size)
        if kind is str:
            return self.text(size)
        if kind is bool:
            return self.call(size)
        if kind is Duration:
            return self.duration(size)
        return self.value(kind, 1)

    def single(self, kind):
        """A literal of the type, or what comes near to one."""
        draw = self.draw
        if kind is str:
            return quoted(spans.word(draw))
        if kind is int:
            way = draw.random()
            if way < 0.1:
                return draw.choice(list(ENUMERATIONS))
            return ("+" if way < 0.13 else "") + str(abs(spans.whole(draw))) if way < 0.3 else str(spans.whole(draw))
        if kind is float:
            odd = draw.random() < 0.15
            return draw.choice([".5", "+1.5", "-.25", "1.5e3", "2.5E-2", "3.0e+1"]) if odd else float_text(spans.a_float(draw))
        if kind is bool:
            return draw.choice(["true", "false"])
        if kind is bytes:
            return draw.choice(["0x61", "0x6162", "0x000102", "0xFFef", "0xab"])
        if kind is Time:
            return draw.choice(self.paths[Time])
        if kind is Duration:
            return "Duration(" + quoted(draw.choice(spans.DURATIONS)) + ")"
        if kind in (list, Map):
            return self.path(kind) or draw.choice(["attributes", "resource.attributes"])
        return draw.choice(NOTHING)

    def number(self, kind, size):
        """A sum, or a function that gives a number."""
        draw, way = self.draw, self.draw.random()
        if way < 0.6:
            first, operator = draw.randint(1, max(1, size - 2)), draw.choice("++--**/")
            second = kind if draw.random() < 0.7 else draw.choice([int, float])
            left, right = self.value(kind, first), self.value(second, max(1, size - 1 - first))
            gap = " " if draw.random() < 0.9 or right[0] in "+-" else ""
            out = left + draw.choice([" ", " ", ""]) + operator + (gap if operator in "+-" else draw.choice([" ", ""])) + right
            return "(" + out + ")" if draw.random() < 0.35 else out
        if kind is float:
            return "Double(" + self.value(draw.choice([str, int, float, bool, type(None)]), size - 1) + ")"
        if way < 0.75:
            return "Len(" + self.value(draw.choice([str, str, list, Map, list, Map, bytes]), size - 1) + ")"
        return "Int(" + self.value(draw.choice([str, int, float, float, bool, type(None)]), size - 1) + ")"

    def text(self, size):
        """A function that gives a text."""
        draw, way = self.draw, self.draw.random()
        if way < 0.25:
            return self.concat(size)
        if way < 0.45:
            case = draw.choice(["lower", "upper"] * 12 + ["snake", "Lower"])
            return f'ConvertCase({self.value(str, size - 1)},{draw.choice([" ", ""])}{quoted(case)})'
        if way < 0.7:
            return "String(" + self.value(draw.choice([str, int, bool, type(None)]), size - 1) + ")"
        of = self.value(str, size - 3)
        start = self.value(int, 2) if draw.random() < 0.1 else draw.randint(0, 2)
        count = self.value(int, 2) if draw.random() < 0.1 else draw.randint(1, 3)
        return f"Substring({of}, {start}, {count})"

    def concat(self, size):
        """Texts joined."""
        draw = self.draw
        count = draw.choice([0, 1, 2, 2, 2, 3, 3, 4])
        kinds = [draw.choice([str, str, str, int, bool, type(None)]) if draw.random() < 0.95 else self.other() for _ in range(count)]
        values = [self.value(kind, max(1, (size - 1) // max(1, count))) for kind in kinds]
        return f'Concat([{draw.choice([", ", ","]).join(values)}], {quoted(draw.choice(["", "-", ", ", spans.word(draw)]))})'

    def duration(self, size):
        """A difference of times, a sum of durations, or a text's duration."""
        draw, way = self.draw, self.draw.random()
        if way < 0.5:
            return self.value(Time, 1) + " - " + self.value(Time, 1)
        if way < 0.6 and size > 3:
            left, operator = self.value(Duration, size // 2), draw.choice([" - ", " + ", " - ", " * "])
            return left + operator + self.value(draw.choice([Duration, Duration, Duration, Time, int]), size // 2)
        return "Duration(" + self.value(str, size - 1) + ")"

    def part(self):
        """A part of a pattern, mostly with a count behind it where it may have one."""
        draw, way = self.draw, self.draw.random()
        if way < 0.4:
            return "".join("\\" + letter if letter in ".\\+*?()[]{}|^$" else letter for letter in spans.word(draw)[:4])
        if way < 0.5:
            part = "."
        elif way < 0.6:
            part = draw.choice(["[a-z]", "[^a]", "[0-9]", "[A-Z_]", "[a-]", "[\\d.]", "[]x]"])
        elif way < 0.7:
            part = draw.choice(["\\d", "\\w", "\\s", "\\D", "\\b", "\\."])
        elif way < 0.85:
            part = "(" + draw.choice(["a|b", "GET|POST", "?:x|y|", "e*", "o|"]) + ")"
        else:
            part = draw.choice(["^", "$", "o", "a"])
        if part not in "^$\\b" and draw.random() < 0.4:
            part += draw.choice(["*", "+", "?", "{2}", "{1,}", "{0,2}", "*?", "+?"])
        return part

    def pattern(self):
        """A pattern, of which a few are none."""
        draw = self.draw
        out = "".join([self.part() for _ in range(draw.randint(1, 4))])
        if draw.random() < 0.3:
            out = "^" + out
        if draw.random() < 0.2:
            out += "$"
        if draw.random() < 0.03:
            out += draw.choice(["(", ")", "[", "*", "\\", "**", "|*", "a{2,1}"])
        return out

    def call(self, size):
        """A function that is true or false."""
        draw, way = self.draw, self.draw.random()
        if way < 0.3:
            name = draw.choice(list(ASKS))
            return f"{name}({self.value(ASKS[name] if draw.random() < 0.5 else self.other(), size - 1)})"
        if way < 0.6:
            name, of = draw.choice(["HasPrefix", "HasSuffix"]), self.value(str, size - 2)
            value = self.values.get(of)
            if type(value) is str and draw.random() < 0.5:
                place = draw.randint(0, len(value))
                end = quoted(value[:place] if name == "HasPrefix" else value[place:])
            else:
                end = self.value(str, 2) if draw.random() < 0.15 else quoted(spans.word(draw)[:2])
            return f'{name}({of},{draw.choice([" ", " ", ""])}{end})'
        if way < 0.92 or self.event and draw.random() < 0.9:
            kind = draw.choice([str, str, str, int, bool, type(None)]) if draw.random() < 0.9 else self.other()
            return f"IsMatch({self.value(kind, size - 2)}, {quoted(self.pattern())})"
        return "IsRootSpan()"

    def known(self, text):
        """What a text's value is, and whether that is known: of a path always, of what is reckoned at times, and then it may be one beside it."""
        draw = self.draw
        if text in self.values:
            return True, self.values[text]
        if draw.random() >= 0.5:
            return False, None
        try:
            value = value_of(Parser(text, self.event).sum(), self.span)
        except (Error, Fault, Unsure):
            return False, None
        return True, wrap(value + draw.choice([1, -1])) if type(value) is int and draw.random() < 0.2 else value

    def comparison(self, size):
        """A comparison, whose sides are mostly of one type and often equal."""
        draw = self.draw
        if draw.random() < 0.75:
            kind = draw.choice([str, str, int, int, int, float, bool, type(None), Time, Duration, bytes, list, Map])
        else:
            kind = draw.choice(self.types)
        first = draw.randint(1, max(1, size - 2))
        left, operator, right = self.value(kind, first), draw.choice(["=="] + OPERATORS), None
        there, value = self.known(left)
        if there and draw.random() < (0.4 if left in self.values else 0.8):
            right = literal(value)
        if right is None:
            way, number = draw.random(), kind in (int, float)
            second = kind if way < 0.85 else draw.choice([int, float]) if number else type(None) if way < 0.9 else self.other()
            if number and draw.random() < 0.2:
                second = draw.choice([int, float])
            right = self.value(second, max(1, size - 1 - first))
        if draw.random() < 0.2:
            left, right = right, left
        gap = draw.choice([" ", " ", " ", " ", " ", ""])
        return left + gap + operator + gap + right

    def condition(self, size):
        """A condition of about so many nodes."""
        draw, way = self.draw, self.draw.random()
        if size <= 2:
            return draw.choice(["true", "false"]) if way < 0.1 else self.call(2) if way < 0.5 else self.comparison(3)
        if way < 0.33:
            return self.comparison(size)
        if way < 0.48:
            return self.call(size)
        if way < 0.58:
            inner = self.condition(size - 1)
            return "not " + ("(" + inner + ")" if draw.random() < 0.6 else inner)
        if way < 0.62:
            return "(" + self.condition(size - 1) + ")"
        if way < 0.64:
            return self.value(draw.choice([str, int, bool, float]), size)
        first, word = draw.randint(1, size - 2), draw.choice(["and", "or"])
        sides = self.condition(first), self.condition(size - 1 - first)
        return f" {word} ".join(["(" + it + ")" if draw.random() < 0.2 else it for it in sides])


def is_line(text):
    """Whether a condition may stand in a line with tabs."""
    return bool(text) and not any(letter in text for letter in "\t\n\r")


def pair(draw):
    """A condition, a request as text, and whether the condition is on events. Some are of the narrow kinds; of the others a fifth is disturbed."""
    while True:
        if draw.random() < 0.15:
            text, request = draw.choice(narrow.KINDS)(draw)
            if is_line(text):
                return text, json.dumps(request, separators=(",", ":")), False
        request, span = spans.request(draw)
        event = draw.random() < 0.1
        if event and not span.get("events"):
            span["events"] = spans.events(draw)
        text = Maker(draw, request, event).condition(draw.randint(1, 12))
        if draw.random() < 0.02:
            text = soup(draw, 8)
        elif draw.random() < 0.2:
            text = disturbed(draw, text)
            if draw.random() < 0.2 and text:
                text = disturbed(draw, text)
        if is_line(text):
            return text, json.dumps(request, ensure_ascii=draw.random() < 0.2, separators=(",", ":")), event


def narrow_pair(draw, number):
    """The same of the narrow kinds in turn, with the kind's name in the place of the last."""
    while True:
        kind = narrow.KINDS[number % len(narrow.KINDS)]
        text, request = kind(draw)
        if is_line(text):
            return text, json.dumps(request, ensure_ascii=draw.random() < 0.5), kind.__name__
