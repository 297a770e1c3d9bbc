"""The picture of an answer, as SVG."""
import html, json, re

import answer, code

# The colour of each fate, by its first word.
COLOURS = {"kept": "#c8e6c9", "not-escaping": "#ffe0b2", "unused": "#e0e0e0", "merged": "#bbdefb",
           "dissolved": "#bbdefb", "always-invalidating": "#ffcdd2"}
LINE, INDENT, MARGIN, COLUMN, MOST = 17, 14, 12, 7.3, 150


def colour(fate):
    return COLOURS.get(fate.split(" ")[0], "#eeeeee")


class Line:
    """A line of the picture: its depth, its text, and the scopes around it."""

    def __init__(self, depth, text, scopes):
        self.depth, self.text, self.scopes = depth, text[:MOST], scopes


class Picture:
    def __init__(self, document, read):
        self.env, self.answer = document["env"], read
        self.names = code.Names(self.env)
        self.lines = []

    def path(self, dependency):
        steps = [f"{'?' * it.get('optional', False)}.{it['property']['v']}" for it in dependency.get("path", [])]
        return self.names.of(dependency["identifier"]) + "".join(steps)

    def scope(self, number):
        """A scope's fate, and what it depends on and declares in the document."""
        scope = self.env["scopes"][number]
        depends = ", ".join(map(self.path, scope.get("dependencies") or [])) or "nothing"
        declares = ", ".join(self.names.of(it["key"]) for it in scope.get("declarations") or []) or "nothing"
        fate = self.answer.fates.get(number, "given up before")
        return f"scope {number}, {fate}; in the document it depends on {depends}, and declares {declares}"

    def statement(self, text):
        """A printed line as code."""
        if re.match(r"\d+ (_|\d|\[)", text):
            return code.row(self.names, answer.Reader(text).row())
        test = re.match(r"(test|init|update) (?!id \d)", text)
        if test:
            return test[0] + code.value(self.names, answer.Reader(text, test.end()).value())
        text = re.sub(r" id \d+", "", text)
        return re.sub(r"^(if|return|throw|switch|case|catch) (\d+|\[[^]]*\]+)", self.with_name, text)

    def with_name(self, found):
        return f"{found[1]} {self.names.place(json.loads(found[2]))}"

    def add(self, nodes, depth, scopes):
        for node in nodes:
            found = re.fullmatch(r"(scope|pruned) (\d+)", node.text)
            inside = [*scopes, int(found[2])] if found else scopes
            text = self.scope(int(found[2])) if found else self.statement(node.text)
            self.lines.append(Line(depth, text, inside))
            self.add(node.below, depth + 1, inside)

    def head(self):
        name = json.loads(re.match(r'function ("(?:\\.|[^"\\])*"|null)', self.answer.head[0])[1])
        params = [re.sub(r"^param (\.\.\.)?(.*)", lambda it: (it[1] or "") + self.names.place(json.loads(it[2])), line)
                  for line in self.answer.head if line.startswith("param ")]
        return f"{name or 'function'}({', '.join(params)})"

    def gone(self):
        """The scopes without a block, with their fates."""
        kept = {it for line in self.lines for it in line.scopes}
        return [(number, fate) for number, fate in self.answer.fates.items() if number not in kept]

    def svg(self):
        self.add(self.answer.body, 0, [])
        longest = max([len(self.head()), 40, *(len(it.text) + 2 * it.depth for it in self.lines)])
        width, top = round(2 * MARGIN + longest * COLUMN), 2 * LINE
        gone = self.gone()
        height = top + LINE * (len(self.lines) + len(gone) + 2)
        parts = [f'<svg xmlns="http://www.w3.org/2000/svg" width="{width}" height="{height}" '
                 'font-family="monospace" font-size="12">', '<rect width="100%" height="100%" fill="white"/>',
                 text(MARGIN, LINE, self.head(), ' font-weight="bold"')]
        for index, line in enumerate(self.lines):
            parts += self.drawn(line, top + LINE * index, width)
        for index, (number, fate) in enumerate(gone):
            y = top + LINE * (len(self.lines) + 1 + index)
            parts += [box(MARGIN, y, width - 2 * MARGIN, colour(fate)),
                      text(MARGIN + 4, y + 12, f"scope {number}, {fate}: has no block")]
        return "\n".join([*parts, "</svg>", ""])

    def drawn(self, line, y, width):
        boxes = []
        for level, scope in enumerate(line.scopes):
            x = MARGIN + INDENT * level
            boxes.append(box(x, y, width - 2 * x, colour(self.answer.fates.get(scope, ""))))
        return [*boxes, text(MARGIN + 4 + INDENT * line.depth, y + 12, line.text)]


def box(x, y, width, fill):
    return f'<rect x="{x}" y="{y}" width="{width}" height="{LINE}" fill="{fill}"/>'


def text(x, y, content, more=""):
    return f'<text x="{x}" y="{y}" xml:space="preserve"{more}>{html.escape(content)}</text>'


def picture(document, read):
    return Picture(document, read).svg()
