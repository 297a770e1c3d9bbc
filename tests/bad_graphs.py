"""Documents of graphs that are refused, one for each line of the list `bad_graphs`, and of a deep graph.

A line has a graph, and after `|` the status and the line that are due. In `bb0: 2 $2 = LoadLocal($0); Return $2 #3` a
block has its number, its rows with their ids and targets, and its terminal with its id. The fields of a terminal are in
the order of `TERMINALS`; `else = bb2` is an alternate that is the fallthrough too. A block `with id 5` has another `id`
than its key, and one `with row 7` has a row that isn't there. The entry is `bb0`, the parameters are `$0` and `$1`, no
identifier has a scope, and `next_block` is one above the greatest key.
"""
import json, re

# The fields of each terminal, in their order.
TERMINALS = {
    "If": ("test", "consequent", "alternate", "fallthrough"),
    "Branch": ("test", "consequent", "alternate"),
    "Sequence": ("block", "fallthrough"),
    "Throw": ("value",),
    "Return": ("value",),
    "Goto": ("variant", "block"),
    "Switch": ("test", "cases", "fallthrough"),
    "While": ("test", "loop_block", "fallthrough"),
    "Label": ("block", "fallthrough"),
    "Unreachable": (),
    "MaybeThrow": ("continuation", "handler"),
    "Scope": ("fallthrough", "block", "scope"),
    "PrunedScope": ("fallthrough", "block", "scope"),
    "Try": ("block", "handler_binding", "handler", "fallthrough"),
}

# The form of each kind of row.
ROWS = {
    r"Debugger": lambda: {"k": "Debugger"},
    r"LoadLocal\(\$(\d+)\)": lambda place: {"k": "LoadLocal", "place": int(place)},
}


def numbers(mark, text):
    """The numbers that stand in a text with that mark before them."""
    return [int(number) for number in re.findall(rf"{mark}(\d+)", text)]


def field(text):
    """A field of a terminal: a number, cases, nothing, or a word."""
    if text.startswith("["):
        return [{"test": test, "block": block} for test, block in zip(numbers(r"\$", text), numbers("bb", text))]
    number = re.search(r"\d+", text)
    return None if text == "none" else int(number[0]) if number else text


def terminal(text):
    words, id = text.split(" #")
    kind, *fields = re.findall(r"\[.*\]|else = bb\d+|scope \d+|\$?\w+", words)
    if fields and fields[-1].startswith("else"):
        fields.append(fields[-1])
    return {"k": kind, "id": int(id), **dict(zip(TERMINALS[kind], map(field, fields), strict=True))}


def row(text):
    id, target, value = re.fullmatch(r"(\d+) \$(\d+) = (.*)", text).groups()
    form, parts = next((form, it.groups()) for form in ROWS if (it := re.fullmatch(form, value)))
    return {"id": int(id), "lvalue": int(target), "value": ROWS[form](*parts)}


class Graph:
    """The blocks and rows of a graph, block by block."""

    def __init__(self, text):
        self.blocks, self.rows = [], []
        for block in re.split(r"\. (?=bb)", text):
            self.add(*re.fullmatch(r"bb(\d+)(?: with (id|row) (\d+))?: (?:(.*); )?(.*)", block).groups())

    def add(self, key, other, number, rows, end):
        """Adds a block, whose id or a row may be another than its own."""
        first = len(self.rows)
        self.rows += [row(text) for text in rows.split("; ")] if rows else []
        listed = list(range(first, len(self.rows))) + ([int(number)] if other == "row" else [])
        id = int(number if other == "id" else key)
        self.blocks.append({"key": int(key), "id": id, "instructions": listed, "terminal": terminal(end)})


def document(text):
    """The text of the document of a graph."""
    graph = Graph(text)
    hir = {"params": [{"k": "Place", "v": 0}, {"k": "Place", "v": 1}],
           "body": {"entry": 0, "blocks": graph.blocks}, "instructions": graph.rows}
    last = max([1, *numbers(r"\$", text)])
    env = {"identifiers": [{"declaration_id": number, "type_": 0} for number in range(last + 1)], "types": ["Other"],
           "scopes": [{"range": {"start": 1, "end": 1}} for _ in {*numbers("scope ", text)}], "config": {},
           "next_block": 1 + max(block["key"] for block in graph.blocks)}
    return json.dumps({"hir": hir, "env": env}).encode()


def document_of(line):
    """The text of a line's document, the status and the line that are due."""
    graph, due = line.split(" | ")
    status, printed = due.split(" ", 1)
    return document(graph), int(status), f"{printed}\n".encode()


def nested(levels):
    """The text of the document of `If`s in one another; each ends where the one around it goes on."""
    last = 2 * levels
    blocks = [f"bb{it}: If($0, bb{it + 1}, else = bb{last - it}) #{it + 1}" for it in range(levels)]
    blocks += [f"bb{it}: Goto Break bb{it + 1} #{it + 1}" for it in range(levels, last)]
    return document(". ".join([*blocks, f"bb{last}: Return $0 #{last + 1}"]))


def has_ifs(printed, count):
    """Whether that many lines begin with `if` and end in `implicit`."""
    return len(re.findall(rb"^ *if .*implicit$", printed, re.MULTILINE)) == count
