"""Documents in which each feature has a size of its own: what `bench/campaign` makes larger two by two."""
from itertools import cycle, islice, zip_longest
import shapes

# Each feature with its size where another one grows.
SIZES = {
    "names": 4,  # parameters, from which the places below are taken in turn
    "rows": 2,  # arrays in the innermost block
    "places": 2,  # elements of each array
    "listings": 1,  # how often the innermost block lists its rows
    "functions": 1,  # nested functions, with a row for each
    "context": 2,  # places of each function's context, beside the names of the scopes around
    "loads": 1,  # rows that load a name into another
    "scopes": 1,  # scopes one after the other, each with an array that needs the one before
    "nested scopes": 2,  # scopes one in the other, around all that follows
    "nested ifs": 1,  # `If`s one in the other, inside these
    "values": 1,  # `Ternary`s, whose arms name the functions
    "returns": 1,  # `If`s with a return of a name
    "dependencies": 1,  # names that each scope depends on
    "steps": 1,  # properties on the path of each dependency
    "declarations": 1,  # names that each scope declares
    "reassignments": 1,  # names that each scope reassigns
}


class Graph:
    """A document in the making: the block that is being filled, and with which blocks the open statements go on."""

    def __init__(self):
        self.blocks, self.rows, self.identifiers, self.scopes, self.params = [], [], [], [], []
        self.here, self.last, self.listed, self.after, self.order = 0, 0, [], [], 0

    def next_order(self):
        """The next number in the order of evaluation."""
        self.order += 1
        return self.order

    def next_block(self):
        """The number of a block that isn't there yet."""
        self.last += 1
        return self.last

    def name(self, scope=None):
        """A new name, of that scope."""
        number = len(self.identifiers)
        self.identifiers.append({"declaration_id": number, "type_": 0, **({} if scope is None else {"scope": scope})})
        return number

    def parameter(self, scope=None):
        """A new name that is a parameter."""
        name = self.name(scope)
        self.params.append({"k": "Place", "v": name})
        return name

    def row(self, value, target):
        """A new row, which no block lists yet."""
        self.rows.append({"id": self.next_order(), "lvalue": target, "value": value})
        return len(self.rows) - 1

    def end(self, kind, then, **fields):
        """Ends the block, and goes on with another one."""
        terminal = {"k": kind, **fields, "id": self.next_order()}
        self.blocks.append({"id": self.here, "instructions": self.listed, "terminal": terminal})
        self.here, self.listed = then, []

    def jump(self, to, then):
        """Ends the block with a jump, and goes on with another one."""
        self.end("Goto", then, variant="Break", block=to)

    def enter(self, kind, first, **fields):
        """Opens a statement, whose field of that name is the block to go on with."""
        inside, after = self.next_block(), self.next_block()
        alternate = {"alternate": after} if kind == "If" else {}
        self.end(kind, inside, **fields, **{first: inside}, **alternate, fallthrough=after)
        self.after.append(after)

    def leave(self):
        """Closes the statement that was opened last."""
        after = self.after.pop()
        self.jump(after, after)

    def value(self, row):
        """A `Ternary` whose arms list a row."""
        test, left, right, after = (self.next_block() for _ in range(4))
        self.end("Ternary", test, test=test, fallthrough=after)
        self.listed = [row]
        self.end("Branch", left, test=self.rows[row]["lvalue"], consequent=left, alternate=right)
        for arm, then in ((left, right), (right, after)):
            self.listed = [row]
            self.jump(after, then)

    def scope(self, sizes, names):
        """A new scope with that many names in its lists."""
        number, path = len(self.scopes), [{"property": {"k": "String", "v": "p"}}] * sizes["steps"]
        self.scopes.append({
            "range": {"start": 1, "end": 4_294_967_295},
            "dependencies": [{"identifier": name, "reactive": True, "path": path}
                             for name in taken(names, sizes["dependencies"])],
            "declarations": [{"key": name, "value": {"identifier": name, "scope": number}}
                             for name in taken(names, sizes["declarations"])],
            "reassignments": taken(names, sizes["reassignments"]),
        })
        return number


def taken(names, count):
    """That many of these names, the last one first, and again from the last one on where they end."""
    return [*islice(cycle(reversed(names)), count)]


def put_scopes(graph, sizes, names):
    """Puts scopes one after the other."""
    before = names[0]
    for _ in range(sizes["scopes"]):
        scope = graph.scope(sizes, names)
        kept = graph.scopes[scope]
        kept["range"]["start"] = graph.order + 1
        graph.enter("Scope", "block", scope=scope)
        before = add_array(graph, [before], graph.name(scope))
        kept["declarations"].append({"key": before, "value": {"identifier": before, "scope": scope}})
        graph.leave()
        kept["range"]["end"] = graph.order + 1
    return before


def add_array(graph, places, target):
    """Lists a new row that makes an array of places, and answers its target."""
    graph.listed.append(graph.row(shapes.array_of(places), target))
    return target


def put_rows(graph, sizes, names, functions):
    """Puts the rows of the innermost block, those of the three kinds in turn."""
    load = {"k": "LoadLocal", "place": names[0]}
    loads = [graph.row(load, graph.name()) for _ in range(sizes["loads"])]
    arrays = [graph.row(shapes.array_of(taken(names, sizes["places"])), graph.name()) for _ in range(sizes["rows"])]
    mixed = [row for rows in zip_longest(loads, functions, arrays) for row in rows if row is not None]
    graph.listed += mixed * sizes["listings"]
    return [graph.rows[row]["lvalue"] for row in mixed]


def put_returns(graph, sizes, names):
    """Puts `If`s that return a name."""
    for name in taken(names, sizes["returns"]):
        inside, after = graph.next_block(), graph.next_block()
        graph.end("If", inside, test=names[0], consequent=inside, alternate=after, fallthrough=after)
        graph.end("Return", after, value=name)


def document(**grown):
    """The bytes of a document whose features have these sizes, and the others those of the table."""
    sizes, graph = {**SIZES, **grown}, Graph()
    names = [graph.parameter() for _ in range(sizes["names"])]
    last = put_scopes(graph, sizes, names)
    around = [graph.scope(sizes, names) for _ in range(sizes["nested scopes"])]
    inside = [graph.parameter(scope) for scope in around]
    for scope in around:
        graph.enter("Scope", "block", scope=scope)
    for _ in range(sizes["nested ifs"]):
        graph.enter("If", "consequent", test=names[0])
    functions = [graph.row({"k": "FunctionExpression", "lowered_func": {"func": number}}, graph.name())
                 for number in range(sizes["functions"])]
    made = put_rows(graph, sizes, names, functions)
    for row in islice(cycle(functions), sizes["values"]):
        graph.value(row)
    put_returns(graph, sizes, names)
    for _ in range(sizes["nested ifs"] + sizes["nested scopes"]):
        graph.leave()
    answer = graph.name()
    add_array(graph, [last, *made], answer)
    graph.end("Return", 0, value=answer)
    context = taken(names, sizes["context"]) + inside
    hir = {"params": graph.params, "body": {"entry": 0, "blocks": graph.blocks}, "instructions": graph.rows}
    env = {"identifiers": graph.identifiers, "types": ["Other"], "scopes": graph.scopes, "config": {},
           "functions": [shapes.function_of(context) for _ in functions], "next_block": graph.last + 1}
    return shapes.packed({"hir": hir, "env": env})
