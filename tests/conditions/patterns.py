"""The patterns of `IsMatch`: the part of Rust's `regex` that Python's `re` has too, read by hand and written as Python writes it."""
import re

ESCAPES = {"a": "\a", "b": "\b", "f": "\f", "n": "\n", "r": "\r", "t": "\t", "v": "\v", "\\": "\\", '"': '"'}
COUNT = re.compile(r"\{([0-9]{1,2})(,([0-9]{1,2})?)?\}")
NESTED = 20
MADE = {}


class Fault(Exception):
    """The text is no condition: why not, and where."""

    def __init__(self, name, column=0):
        Exception.__init__(self, name)
        self.name, self.column = name, column


class Unsure(Exception):
    """The pattern has something that isn't read here."""


class Pattern:
    """A pattern, read from the left; `python` is what it is in Python, each part in parentheses of its own."""

    def __init__(self, pattern, column):
        self.pattern, self.at, self.column, self.depth = pattern, 0, column, 0
        self.python = self.alternatives()
        if self.at < len(pattern):
            self.fail("unopened")

    def fail(self, why):
        """The pattern is none."""
        raise Fault("regex " + why, self.column)

    def peek(self):
        """The next character, or an empty text."""
        return self.pattern[self.at] if self.at < len(self.pattern) else ""

    def alternatives(self):
        """Branches with bars between them."""
        self.depth += 1
        if self.depth > NESTED:
            raise Unsure
        branches = [self.branch()]
        while self.peek() == "|":
            self.at += 1
            branches.append(self.branch())
        self.depth -= 1
        return "(?:" + "|".join(branches) + ")"

    def branch(self):
        """Parts in a row, each with its counts."""
        out = []
        while self.peek() not in ("", "|", ")"):
            part = self.part()
            while self.peek() and self.peek() in "*+?{":
                part = "(?:" + part + self.count() + ")"
            out.append(part)
        return "".join(out)

    def count(self):
        """How often a part comes."""
        count = self.peek()
        if count == "{":
            found = COUNT.match(self.pattern, self.at)
            if not found:
                raise Unsure
            if found[3] and int(found[3]) < int(found[1]):
                self.fail("range")
            count = found[0]
        self.at += len(count)
        if self.peek() == "?":
            self.at += 1
            count += "?"
        return count

    def part(self):
        """A character, a class, an end, or a group."""
        letter = self.peek()
        self.at += 1
        if letter in "*+?":
            self.fail("nothing to repeat")
        if letter == "{":
            raise Unsure
        if letter == "(":
            return self.group()
        if letter == "[":
            return self.members()
        if letter == "\\":
            return self.escape(False)[0]
        return {".": r"[^\n]", "^": r"(?:\A)", "$": r"(?:\Z)"}.get(letter) or re.escape(letter)

    def group(self):
        """What stands in parentheses."""
        if self.pattern.startswith("?", self.at):
            if not self.pattern.startswith("?:", self.at):
                raise Unsure
            self.at += 2
        inner = self.alternatives()
        if self.peek() != ")":
            self.fail("unclosed")
        self.at += 1
        return inner

    def escape(self, within):
        """What stands behind a backslash, as Python writes it, and the one character that it is, if it is one."""
        letter = self.peek()
        self.at += 1
        if letter == "":
            self.fail("backslash")
        if letter in "dDwWsS":
            return "\\" + letter, None
        if letter in "bB" and not within:
            if letter == "b" and self.peek() == "{":
                raise Unsure
            # Python's \B isn't met on an empty text before 3.14, where Rust's is.
            return r"(?:\b)" if letter == "b" else r"(?!\b)", None
        if letter in "ntrfva":
            return re.escape(ESCAPES[letter]), ESCAPES[letter]
        if letter in "0123456789":
            self.fail("digit")
        if ord(letter) < 128 and not letter.isalnum() and letter not in "<> " and letter.isprintable():
            return re.escape(letter), letter
        raise Unsure

    def members(self):
        """A class, behind its opening bracket."""
        out, first = "[", True
        if self.peek() == "^":
            self.at += 1
            out += "^"
        while first or self.peek() != "]":
            if self.peek() == "":
                self.fail("class")
            if self.peek() == "[" or self.pattern[self.at:self.at + 2] in ("&&", "--", "~~"):
                raise Unsure
            first = False
            out += self.range()
        self.at += 1
        return out + "]"

    def range(self):
        """A member of a class, or all from one to another."""
        low, first = self.member()
        following = self.pattern[self.at + 1:self.at + 2]
        if self.peek() != "-" or following in ("]", ""):
            return low
        if following in "-[" or first is None or first == "-":
            raise Unsure
        self.at += 1
        high, last = self.member()
        if last is None:
            raise Unsure
        if last < first:
            self.fail("range")
        return low + "-" + high

    def member(self):
        """A member of a class, as Python writes it, and the one character that it is, if it is one."""
        letter = self.peek()
        self.at += 1
        return self.escape(True) if letter == "\\" else (re.escape(letter), letter)


def compiled(pattern, column):
    """The pattern as Python compiles it; a Fault where it is none."""
    if pattern not in MADE:
        MADE[pattern] = re.compile(Pattern(pattern, column).python)
    return MADE[pattern]
