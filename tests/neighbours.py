"""Documents of scopes side by side, one for each line of the list `neighbours`.

A line has the statements of a list, with `;` between them, and after `:` the fate of each scope but the first. The scope
`p q -> A b` depends on `p` and `q`; in its block each of them is read, and `A` and `b` are made, which it declares. So
`p + c -> A` reads `c` besides, `p (q) -> A` doesn't read `q`, and `p -> A ~ q` reassigns `q`. A dependency may be on a
part of a value, as `A.x`, `A?.x` and `A.0` are. A name with a capital letter is an array, which is new each time; the
others have another type. `p` and `q` are the parameters. At the end an array is returned that holds all that the scopes
declare, or the names after `return`.
"""
import json, re

# Each form of a row: the fields that its names stand for, and the rest of its value. A row without a target has one that
# nothing reads.
ROWS = {
    r"(?P<lvalue>\w) = (?P<place>\w)": {"k": "LoadLocal"},
    r"(?P<lvalue>\w) = !(?P<value>\w)": {"k": "UnaryExpression", "operator": "!"},
    r"(?P<lvalue>\w) = (?P<left>\w) \+ (?P<right>\w)": {"k": "BinaryExpression", "operator": "+"},
    r"(?P<lvalue>\w) = (?P<object>\w)\.x": {"k": "PropertyLoad", "property": {"k": "String", "v": "x"}},
    r"(?P<lvalue>\w) = (?P<object>\w)\[(?P<property>\w)\]": {"k": "ComputedLoad"},
    r"(?P<lvalue>\w) = delete (?P<object>\w)\[(?P<property>\w)\]": {"k": "ComputedDelete"},
    r"(?P<lvalue>\w) = null": {"k": "Primitive", "value": "Null"},
    r"(?P<lvalue>\w) = text": {"k": "JSXText", "value": "text"},
    r"(?P<lvalue>\w) = ``": {"k": "TemplateLiteral", "quasis": [""]},
    r"(?P<lvalue>\w) = global": {"k": "LoadGlobal", "binding": {"k": "Global", "name": "global"}},
    r"(?P<lvalue>\w) = \[\]": {"k": "ArrayExpression"},
    r"(?P<lvalue>\w) = (?P<callee>\w)\(\)": {"k": "CallExpression"},
    r"const (?P<stored>\w) = (?P<value>\w)": {"k": "StoreLocal", "kind": "Const"},
    r"let (?P<stored>\w) = (?P<value>\w)": {"k": "StoreLocal", "kind": "Let"},
    r"debugger": {"k": "Debugger"},
}


class Document:
    """A document that grows from its first id to its last."""

    def __init__(self):
        self.names, self.rows, self.blocks, self.scopes, self.owners = ["p", "q"], [], [], [], {}
        self.next_id, self.open = 1, []

    def id(self):
        self.next_id += 1
        return self.next_id - 1

    def number(self, name):
        """The identifier of a name."""
        if name not in self.names:
            self.names.append(name)
        return self.names.index(name)

    def place(self, name):
        return [self.number(name), "Read", True]

    def row(self, value, target):
        """Adds a row to the block that is open."""
        self.open.append(len(self.rows))
        self.rows.append({"id": self.id(), "lvalue": self.number(target), "value": value})

    def array(self, target, names):
        """Adds a row that makes an array."""
        elements = [{"k": "Place", "v": self.place(name)} for name in names]
        self.row({"k": "ArrayExpression", "elements": elements}, target)

    def end(self, terminal):
        """Ends the block that is open."""
        block = {"id": len(self.blocks), "instructions": self.open, "terminal": {**terminal, "id": self.id()}}
        self.blocks.append(block)
        self.open = []

    def around(self, terminal, field, arrays=()):
        """Adds a terminal around a block of arrays, which is one of its fields."""
        inside, after = len(self.blocks) + 1, len(self.blocks) + 2
        self.end({**terminal, field: inside, "fallthrough": after})
        for target, names in arrays:
            self.array(target, names)
        self.end({"k": "Goto", "variant": "Break", "block": after})

    def dependency(self, text):
        steps = re.findall(r"\??\.\w", text)
        return {"identifier": self.number(text.strip("()")[0]), "reactive": True, "path": [step(it) for it in steps]}

    def scope(self, inputs, outputs):
        """Adds a scope block."""
        (dependencies, _, others), (declared, _, reassigned) = inputs.partition("+"), outputs.partition("~")
        number, start = len(self.scopes), self.next_id
        read = [text[0] for text in dependencies.split() + others.split() if text[0] != "("]
        self.around({"k": "Scope", "scope": number}, "block", [(name, read) for name in declared.split()])
        self.owners.update({name: number for name in declared.split()})
        self.scopes.append({
            "range": {"start": start, "end": self.next_id},
            "dependencies": [self.dependency(text) for text in dependencies.split()],
            "declarations": [{"key": self.number(name), "value": {"identifier": self.number(name), "scope": number}}
                             for name in declared.split()],
            "reassignments": [self.number(name) for name in reassigned.split()],
        })

    def statement(self, text):
        inputs, arrow, outputs = text.partition("->")
        if arrow:
            return self.scope(inputs, outputs)
        if text == "if p":
            return self.around({"k": "If", "test": self.place("p"), "alternate": len(self.blocks) + 2}, "consequent")
        form, names = next((form, it.groupdict()) for form in ROWS if (it := re.fullmatch(form, text)))
        self.row_of(dict(ROWS[form]), names)

    def row_of(self, value, names):
        target = names.pop("lvalue", "_")
        if "stored" in names:
            value["lvalue"] = {"kind": value.pop("kind"), "place": self.number(names.pop("stored"))}
        self.row({**value, **{field: self.place(name) for field, name in names.items()}}, target)

    def identifier(self, number):
        name = self.names[number]
        owner = {"scope": self.owners[name]} if name in self.owners else {}
        return {"declaration_id": number, "type_": int(name.isupper()), **owner}

    def finished(self, returned):
        """The text of the document, at whose end an array of these names is returned."""
        self.array("R", returned)
        self.end({"k": "Return", "value": self.number("R")})
        hir = {"params": [{"k": "Place", "v": 0}, {"k": "Place", "v": 1}],
               "body": {"entry": 0, "blocks": self.blocks}, "instructions": self.rows}
        env = {"identifiers": [self.identifier(number) for number in range(len(self.names))],
               "types": ["Other", {"k": "Object", "shape": "Array"}], "scopes": self.scopes, "config": {},
               "next_block": len(self.blocks)}
        return json.dumps({"hir": hir, "env": env}).encode()


def step(text):
    """A step of a path."""
    name = text.split(".")[1]
    return {"property": {"k": "Number" if name.isdigit() else "String", "v": name}, "optional": text[0] == "?"}


def text_of(statements):
    """The text of the document of a line's statements."""
    document = Document()
    statements, _, returned = statements.partition("; return ")
    for statement in statements.split("; "):
        document.statement(statement)
    return document.finished(returned.split() or list(document.owners))


def fates_of(fates):
    """The end of what is printed for a line's fates."""
    lines = ["kept", *(fate.strip() for fate in fates.split(","))]
    return "".join(["fates\n", *(f"  scope {number} {fate}\n" for number, fate in enumerate(lines))]).encode()


def document_of(line):
    """The text of a line's document, and the end of what is printed."""
    statements, fates = line.split(":")
    return text_of(statements), fates_of(fates)
