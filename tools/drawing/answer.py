"""Reads the text of `rc tree`, as docs/RULES.md has it at "Printed lines"."""
import json, re

DECODER = json.JSONDecoder()


class Answer:
    """The lines above the body, the statements, and the fate of each scope."""

    def __init__(self, head, body, fates):
        self.head, self.body, self.fates = head, body, fates


class Node:
    """A line, and those that are a level deeper below it."""

    def __init__(self, text):
        self.text, self.below = text, []


class Reader:
    """Reads values from a line, from a place on."""

    def __init__(self, text, at=0):
        self.text, self.at = text, at

    def take(self, pattern):
        found = re.compile(pattern).match(self.text, self.at)
        if found:
            self.at = found.end()
        return found

    def expect(self, pattern):
        found = self.take(pattern)
        if not found:
            raise ValueError(f"{pattern!r} is expected in {self.text!r} at {self.at}")
        return found

    def json(self):
        value, self.at = DECODER.raw_decode(self.text, self.at)
        return value

    def value(self):
        """A value as its kind and its parts; an instruction is the JSON of its printing form."""
        found = self.take(r"(logical|cond|seq|opt)\(")
        if not found:
            return "instruction", self.json()
        parts = getattr(self, found[1])()
        self.expect(r"\)")
        return found[1], parts

    def values(self, count):
        found = [self.value()]
        while len(found) < count:
            self.expect(", ")
            found.append(self.value())
        return found

    def logical(self):
        operator = self.expect(r"(&&|\|\||\?\?), ")[1]
        return [operator, *self.values(2)]

    def cond(self):
        return self.values(3)

    def seq(self):
        self.expect(r"\d+, \[")
        rows = []
        while not self.take(r"\], "):
            self.take("; ")
            rows.append(self.row())
        return [rows, self.value()]

    def opt(self):
        is_optional = self.expect("(true|false), ")[1] == "true"
        return [is_optional, self.value()]

    def row(self):
        """A row as its target, which may be none, and its value."""
        self.expect(r"\d+ ")
        target = None if self.take("_") else self.json()
        self.expect(" = ")
        value = self.value()
        self.take(r" @\d+\.\.\d+")
        return target, value


def nested(lines):
    """The lines as nodes, by the spaces before them."""
    top = Node("")
    around = [(-1, top)]
    for line in lines:
        depth = len(line) - len(line.lstrip(" "))
        node = Node(line[depth:])
        while around[-1][0] >= depth:
            around.pop()
        around[-1][1].below.append(node)
        around.append((depth, node))
    return top.below


def read(text):
    lines = text.splitlines()
    body = lines.index("body")
    fates = len(lines) - 1 - lines[::-1].index("fates")
    found = [re.fullmatch(r" *scope (\d+) (.*)", line).groups() for line in lines[fates + 1:]]
    return Answer(lines[:body], nested(lines[body + 1:fates]), {int(number): fate for number, fate in found})
