"""Writes large documents into a folder, each with the text that it prints: usage documents.py FOLDER.

They are made here and not stored. The text is made from the rules of the printed lines (docs/RULES.md). The largest has
its answer as JSON too, which is made from the form of answers (docs/ANSWER.md).
"""
import json, sys

OTHER = {"types": ["Other"], "config": {}}
HEAD = "function null hint {} generator false async false\nparam {}\nbody\n"


def identifiers(count):
    return [{"declaration_id": index, "type_": 0} for index in range(count)]


def straight(value, count, **header):
    """A function of one block that returns its parameter, which is that identifier."""
    block = {"id": 0, "terminal": {"k": "Return", "value": value, "id": 1}}
    hir = {"params": [{"k": "Place", "v": value}], "body": {"entry": 0, "blocks": [block]}, **header}
    return {"hir": hir, "env": {**OTHER, "identifiers": identifiers(count), "next_block": 1}}


def text():
    hint = "x" * 100_000
    return straight(0, 1, name_hint=hint), HEAD.format(f'"{hint}"', 0) + "  return 0 id 1\nfates\n"


def many_identifiers():
    return straight(69_999, 70_000), HEAD.format("null", 69_999) + "  return 69999 id 1\nfates\n"


def levels(depth=500):
    """`If`s in one another: block N is that of level N, and 2 * depth - N the block after it."""
    blocks, lines, ends = [], [], []
    for level in range(depth):
        behind, number, indent = 2 * depth - level, level + 1, "  " + "    " * level
        blocks.append({"id": level, "terminal": {"k": "If", "test": 0, "consequent": level + 1, "alternate": behind,
                                                 "fallthrough": behind, "id": number}})
        lines += [f"{indent}if 0 id {number} as bb{behind} implicit", f"{indent}  then"]
        if level:
            blocks.append({"id": behind, "terminal": {"k": "Goto", "variant": "Break", "block": behind + 1,
                                                      "id": depth + 1 + level}})
            ends.append(f"{indent}break bb{behind + 1} implicit id {depth + 1 + level}")
    blocks.append({"id": depth, "terminal": {"k": "Goto", "variant": "Break", "block": depth + 1,
                                             "id": 2 * depth + 1}})
    blocks.append({"id": 2 * depth, "terminal": {"k": "Return", "value": 0, "id": 2 * depth + 2}})
    lines.append("  " + "    " * depth + f"break bb{depth + 1} implicit id {2 * depth + 1}")
    lines += reversed(ends)
    document = straight(0, 1)
    document["hir"]["body"]["blocks"] = blocks
    document["env"]["next_block"] = 2 * depth + 1
    return document, HEAD.format("null", 0) + "\n".join(lines) + f"\n  return 0 id {2 * depth + 2}\nfates\n"


def shown(value):
    return json.dumps(value, separators=(",", ":"), sort_keys=True)


def one_function(count=10_000, loads=False):
    """Rows that name one function, whose context has as many places, and a scope whose array holds the last of them; with
    loads, in front of each row another place of the context is loaded into."""
    value = {"k": "FunctionExpression", "lowered_func": {"func": 0}}
    array = {"k": "ArrayExpression", "elements": [{"k": "Place", "v": count}]}
    document = straight(0, 2 * count + 2)
    rows = []
    for number in range(1, count + 1):
        if loads:
            rows.append((count + 1 + number, {"k": "LoadLocal", "place": 0}))
        rows.append((number, value))
    last = len(rows)
    document["hir"]["instructions"] = [
        *({"id": at, "lvalue": name, "value": row} for at, (name, row) in enumerate(rows, 1)),
        {"id": last + 2, "lvalue": count + 1, "value": array},
    ]
    document["hir"]["body"]["blocks"] = [
        {"id": 0, "instructions": list(range(last)),
         "terminal": {"k": "Scope", "fallthrough": 2, "block": 1, "scope": 0, "id": last + 1}},
        {"id": 1, "instructions": [last],
         "terminal": {"k": "Goto", "variant": "Break", "block": 2, "id": last + 3}},
        {"id": 2, "terminal": {"k": "Return", "value": count + 1, "id": last + 4}},
    ]
    body = {"entry": 0, "blocks": [{"id": 0, "terminal": {"k": "Return", "value": 0, "id": 1}}]}
    declared = {"key": count + 1, "value": {"identifier": count + 1, "scope": 0}}
    document["env"]["identifiers"][count + 1]["scope"] = 0
    document["env"] |= {
        "functions": [{"context": list(range(count + 2, 2 * count + 2)), "body": body}],
        "scopes": [{"range": {"start": last + 1, "end": last + 4}, "declarations": [declared]}],
        "next_block": 3,
    }
    lines = [f"  {at} {name} = {shown(row)}" for at, (name, row) in enumerate(rows, 1)]
    lines += ["  scope 0", f"    {last + 2} {count + 1} = {shown(array)}", f"  return {count + 1} id {last + 4}", "fates",
              "  scope 0 kept"]
    return document, HEAD.format("null", 0) + "\n".join(lines) + "\n"


def loaded_context():
    return one_function(3_000, loads=True)


def function_of_scopes(count=10_000):
    """The same, where the context has the names of the rows, each in a scope that is active at the next row alone."""
    document, printed = one_function(count)
    for name in range(1, count + 1):
        document["env"]["identifiers"][name]["scope"] = name
        document["env"]["scopes"].append({"range": {"start": name + 1, "end": name + 2}})
    document["env"]["functions"][0]["context"] = list(range(1, count + 1))
    return document, printed


def function_of_scopes_in_no_order(count=10_000):
    """The same, where the places of the context stand in another order than their scopes."""
    document, printed = function_of_scopes(count)
    document["env"]["functions"][0]["context"] = [7_919 * number % count + 1 for number in range(count)]
    return document, printed


def scopes_of_one_function(count=5_000):
    """Scopes one after the other, each with an array that holds that of the scope before, and in front of each a row that
    names one function, whose context has all arrays. Row N has the array of scope N, and row COUNT + N stands in front of
    it. The last array is returned."""
    value = {"k": "FunctionExpression", "lowered_func": {"func": 0}}
    document, blocks, scopes, lines = straight(0, 2 * count + 1), [], [], []
    for name in range(count):
        head, at = 2 * name, 4 * name + 1
        blocks += [
            {"id": head, "instructions": [count + name],
             "terminal": {"k": "Scope", "fallthrough": head + 2, "block": head + 1, "scope": name, "id": at + 1}},
            {"id": head + 1, "instructions": [name],
             "terminal": {"k": "Goto", "variant": "Break", "block": head + 2, "id": at + 3}},
        ]
        declared = {"key": name + 1, "value": {"identifier": name + 1, "scope": name}}
        scopes.append({"range": {"start": at + 1, "end": at + 4}, "declarations": [declared]})
        document["env"]["identifiers"][name + 1]["scope"] = name
        lines += [f'  {at} {count + name + 1} = {{"k":"FunctionExpression","lowered_func":{{"func":0}}}}',
                  f"  scope {name}",
                  f'    {at + 2} {name + 1} = {{"elements":[{{"k":"Place","v":{name}}}],"k":"ArrayExpression"}}']
    blocks.append({"id": 2 * count, "terminal": {"k": "Return", "value": count, "id": 4 * count + 1}})
    document["hir"]["instructions"] = [
        *({"id": 4 * name + 3, "lvalue": name + 1,
           "value": {"k": "ArrayExpression", "elements": [{"k": "Place", "v": name}]}} for name in range(count)),
        *({"id": 4 * name + 1, "lvalue": count + name + 1, "value": value} for name in range(count)),
    ]
    document["hir"]["body"]["blocks"] = blocks
    body = {"entry": 0, "blocks": [{"id": 0, "terminal": {"k": "Return", "value": 0, "id": 1}}]}
    document["env"] |= {"functions": [{"context": list(range(1, count + 1)), "body": body}], "scopes": scopes,
                        "next_block": 2 * count + 1}
    fates = [f"  scope {name} kept" for name in range(count)]
    printed = "\n".join([*lines, f"  return {count} id {4 * count + 1}", "fates", *fates])
    return document, HEAD.format("null", 0) + printed + "\n"


# The most bytes that a document may have.
MOST_BYTES = 16_777_216
# Fields of an answer that has nothing there.
EMPTY = {"config": {"enable_forest": False, "enable_preserve_existing_memoization_guarantees": False}, "functions": [],
         "scopes": [], "shapes": []}


def rows(count=175_000):
    """Rows without operands, each with an identifier of its own."""
    document, end = straight(0, count + 1), {"k": "Return", "value": 0, "id": count + 1}
    numbers = range(1, count + 1)
    document["hir"]["instructions"] = [{"id": at, "lvalue": at, "value": {"k": "Debugger"}} for at in numbers]
    document["hir"]["body"]["blocks"] = [{"id": 0, "instructions": list(range(count)), "terminal": end}]
    return document, end


def largest():
    """A document of as many bytes as it may have, of which the last are spaces, with its text and its answer."""
    document, end = rows()
    listed = document["hir"]["instructions"]
    lines = [f'  {row["id"]} {row["lvalue"]} = {{"k":"Debugger"}}' for row in listed]
    printed = HEAD.format("null", 0) + "\n".join(lines) + f'\n  return 0 id {end["id"]}\nfates\n'
    statements = [*({"k": "Instruction", "v": row} for row in listed), {"k": "Terminal", "v": {"terminal": end}}]
    func = {"blocks": [statements], "values": [], "params": document["hir"]["params"], "directives": [],
            "generator": False, "is_async": False}
    answer = {"env": {**document["env"], **EMPTY}, "fates": [], "func": func}
    return shown(document).ljust(MOST_BYTES), printed, shown(answer) + "\n"


DOCUMENTS = {"text": text, "levels": levels, "identifiers": many_identifiers, "one_function": one_function,
             "loaded_context": loaded_context,
             "function_of_scopes": function_of_scopes, "in_no_order": function_of_scopes_in_no_order,
             "scopes_of_one_function": scopes_of_one_function}



def put(name, content):
    with open(f"{sys.argv[1]}/{name}", "w") as file:
        file.write(content)


for name, make in DOCUMENTS.items():
    document, printed = make()
    put(f"{name}.json", json.dumps(document))
    put(f"{name}.txt", printed)
for end, content in zip(("json", "txt", "answer"), largest()):
    put(f"largest.{end}", content)
