"""Documents of graphs with many blocks: statements and values in a row and nested, and scopes side by side; and of one
block with many names."""
import itertools, json, random


def packed(whole):
    """The bytes of a document."""
    return json.dumps(whole, separators=(",", ":")).encode()


def block(number, terminal, fields):
    """A block without rows, whose terminal has these fields and stands at that number in the order of evaluation."""
    return {"id": number, "terminal": {"k": terminal, **fields, "id": number + 1}}


def jump(number, to):
    """A block that goes to another one."""
    return block(number, "Goto", {"variant": "Break", "block": to})


def answer(number):
    """A block that ends the function."""
    return block(number, "Return", {"value": 0})


def document(blocks, scopes=0, rows=()):
    """The bytes of a document of one parameter, of these blocks and rows, and of that many scopes."""
    hir = {"params": [{"k": "Place", "v": 0}], "body": {"entry": 0, "blocks": blocks}, "instructions": [*rows]}
    env = {
        "identifiers": [{"declaration_id": 0, "type_": 0}],
        "types": ["Other"],
        "scopes": [{"range": {"start": 1, "end": 2}} for _ in range(scopes)],
        "config": {},
        "next_block": len(blocks),
    }
    return packed({"hir": hir, "env": env})


def branch(number, to, after):
    """An `If` without an alternate."""
    return block(number, "If", {"test": 0, "consequent": to, "alternate": after, "fallthrough": after})


def label(number, to, after):
    """A `Label` around a block."""
    return block(number, "Label", {"block": to, "fallthrough": after})


def scope(number, to, after, name):
    """A scope around a block."""
    return block(number, "Scope", {"fallthrough": after, "block": to, "scope": name})


def in_a_row(count):
    """That many statements one after the other, an `If` and a `Label` in turn, each with an empty block."""
    blocks = []
    for head in range(0, 2 * count, 2):
        kind = branch if head % 4 == 0 else label
        blocks += [kind(head, head + 1, head + 2), jump(head + 1, head + 2)]
    return document([*blocks, answer(2 * count)])


def hashed(number):
    """What a hash table of the library with its own seed makes of a number."""
    product = (0x243F6A8885A308D3 ^ number * (2**32 + 1)) * (0x9E3779B97F4A7C15 ^ 8)
    halves = product % 2**64 ^ product >> 64
    return (halves ^ halves >> 32) % 2**32


def colliding(count):
    """That many numbers for which a look-up begins at one place in a hash table that has room for them; or at a few
    places, where that many numbers take long to find."""
    places = 1
    while 9 * places < count and places < 2048:
        places *= 2
    return list(itertools.islice((number for number in itertools.count() if hashed(number) % places == 0), count))


def chosen_in_a_row(count):
    """The graph of `in_a_row`, whose blocks have numbers that collide in a hash table."""
    numbers = colliding(2 * count + 1)
    parts = json.loads(in_a_row(count))
    for part in parts["hir"]["body"]["blocks"]:
        part["id"] = numbers[part["id"]]
        for leads in {"block", "consequent", "alternate", "fallthrough"} & part["terminal"].keys():
            part["terminal"][leads] = numbers[part["terminal"][leads]]
    parts["hir"]["body"]["entry"] = numbers[0]
    parts["env"]["next_block"] = numbers[-1] + 1
    return packed(parts)


def breaks_to_one_label(count):
    """That many `If`s one after the other in a `Label`, each of which breaks to it."""
    end = 2 * count + 2
    blocks = [label(0, 1, end)]
    for head in range(1, end - 1, 2):
        blocks += [branch(head, head + 1, head + 2), jump(head + 1, end)]
    return document([*blocks, jump(end - 1, end), answer(end)])


def scopes_in_a_row(count):
    """That many scopes one after the other, each without statements."""
    blocks = []
    for name in range(count):
        head = 2 * name
        blocks += [scope(head, head + 1, head + 2, name), jump(head + 1, head + 2)]
    return document([*blocks, answer(2 * count)], count)


def nested(kind, depth, scopes=0):
    """That many statements one in the other, each with a jump after what it holds."""
    heads = [kind(head, head + 1, 2 * depth - head) for head in range(depth)]
    jumps = [jump(number, number + 1) for number in range(depth, 2 * depth)]
    return document([*heads, *jumps, answer(2 * depth)], scopes)


def nested_ifs(depth):
    """That many `If`s one in the other."""
    return nested(branch, depth)


def nested_labels(depth):
    """That many `Label`s one in the other."""
    return nested(label, depth)


def nested_labels_after_rows(depth):
    """That many `Label`s one in the other, each after a row."""
    heads = [{**label(head, head + 1, 2 * depth - head), "instructions": [head]} for head in range(depth)]
    jumps = [jump(number, number + 1) for number in range(depth, 2 * depth)]
    rows = [{"id": 2 * depth + 2 + head, "lvalue": 0, "value": {"k": "Debugger"}} for head in range(depth)]
    return document([*heads, *jumps, answer(2 * depth)], rows=rows)


def nested_scopes(depth):
    """That many scopes one in the other."""
    return nested(lambda head, to, after: scope(head, to, after, head), depth, depth)


def go_on(number, to):
    """A block that begins the next turn of a loop."""
    return block(number, "Goto", {"variant": "Continue", "block": to})


def loop(number, test, body, after):
    """A `While`."""
    return block(number, "While", {"test": test, "loop_block": body, "fallthrough": after})


def tested(number, to, after):
    """The test of a loop, or of a value."""
    return block(number, "Branch", {"test": 0, "consequent": to, "alternate": after})


def loops_in_a_row(count):
    """That many `While`s one after the other, each with an empty body."""
    blocks = []
    for head in range(0, 3 * count, 3):
        test, body, after = head + 1, head + 2, head + 3
        blocks += [loop(head, test, body, after), tested(test, body, after), go_on(body, test)]
    return document([*blocks, answer(3 * count)])


def nested_loops(depth):
    """That many `While`s one in the other: the body of each goes on with the next one, and ends with a continue."""
    blocks = []
    for level in range(depth):
        head, test, after = 2 * level, 2 * level + 1, 2 * depth + level + 1
        blocks += [loop(head, test, head + 2, after), tested(test, head + 2, after)]
    blocks.append(go_on(2 * depth, 2 * depth - 1))
    for level in range(depth - 1, 0, -1):
        blocks.append(go_on(2 * depth + level + 1, 2 * level - 1))
    return document([*blocks, answer(2 * depth + 1)])


def switch(number, firsts, after):
    """A `Switch` with a case for each of these blocks."""
    return block(number, "Switch", {"test": 0, "cases": [{"test": 0, "block": to} for to in firsts], "fallthrough": after})


def falling_cases(count):
    """A `Switch` of that many cases, each of which falls into the next one."""
    cases = [jump(case, case + 1) for case in range(1, count + 1)]
    return document([switch(0, range(1, count + 1), count + 1), *cases, answer(count + 1)])


def breaking_cases(count):
    """A `Switch` of that many cases, each with a break out of it."""
    cases = [jump(case, count + 1) for case in range(1, count + 1)]
    return document([switch(0, range(1, count + 1), count + 1), *cases, answer(count + 1)])


def nested_switches(depth):
    """A loop around that many `Switch`es one in the other, whose first cases all begin the next turn."""
    end = 2 * depth + 3
    blocks = [loop(0, 1, 2, end), tested(1, 2, end)]
    for level in range(depth):
        head = 2 * level + 2
        blocks += [switch(head, [head + 1, head + 2], 1), go_on(head + 1, 1)]
    return document([*blocks, go_on(2 * depth + 2, 1), answer(end)])


# The one row of the graphs with values: what an arm answers with, or a silent arm.
STORE = {"id": 1, "lvalue": 0, "value": {"k": "StoreLocal", "lvalue": {"kind": "Const", "place": 0}, "value": 0}}


def arm(number, to):
    """A block of the one row that goes to another one."""
    return {**jump(number, to), "instructions": [0]}


def value(kind, number, test, after):
    """A value terminal."""
    own = {"Logical": {"operator": "And"}, "Optional": {"optional": True}}.get(kind, {})
    first = "block" if kind == "Sequence" else "test"
    return block(number, kind, {**own, first: test, "fallthrough": after})


def size(kind):
    """How many blocks a value of this kind has without its fallthrough."""
    return 2 if kind == "Sequence" else 4


def whole_value(kind, head, after):
    """A value of this kind with all of its blocks, of which the first has that number."""
    first = head + 1
    if kind == "Sequence":
        return [value(kind, head, first, after), arm(first, after)]
    arms = [arm(head + 2, after), arm(head + 3, after)]
    return [value(kind, head, first, after), tested(first, head + 2, head + 3), *arms]


def values_in_a_row(kind, count):
    """That many values one after the other in a list."""
    end = size(kind) * count
    blocks = [part for head in range(0, end, size(kind)) for part in whole_value(kind, head, head + size(kind))]
    return document([*blocks, answer(end)], rows=[STORE])


def chained_values(kind, count):
    """As the test of a `While` that many values, each in the fallthrough of the one before."""
    end = size(kind) * count + 1
    blocks = [part for head in range(1, end, size(kind)) for part in whole_value(kind, head, head + size(kind))]
    ends = [tested(end, end + 1, end + 2), go_on(end + 1, 1), answer(end + 2)]
    return document([loop(0, 1, end + 1, end + 2), *blocks, *ends], rows=[STORE])


def may_throw(number, to, handler=None):
    """A block that may throw before it goes on to another one."""
    return block(number, "MaybeThrow", {"continuation": to, "handler": handler})


def attempt(number, to, handler, after):
    """A `Try`."""
    return block(number, "Try", {"block": to, "handler": handler, "fallthrough": after})


def tries_in_a_row(count):
    """That many `Try`s one after the other, whose blocks may throw."""
    blocks = []
    for head in range(0, 4 * count, 4):
        blocks += [attempt(head, head + 1, head + 3, head + 4), may_throw(head + 1, head + 2, head + 3)]
        blocks += [jump(head + 2, head + 4), jump(head + 3, head + 4)]
    return document([*blocks, answer(4 * count)])


def nested_tries(depth):
    """That many `Try`s one in the block of the other, the innermost of which may throw."""
    end = 3 * depth + 1
    heads = [attempt(head, head + 1, depth + 1 + head, end - head) for head in range(depth)]
    handlers = [jump(depth + 1 + head, end - head) for head in range(depth)]
    after = [jump(number, number + 1) for number in range(2 * depth + 1, end)]
    return document([*heads, may_throw(depth, 2 * depth + 1, 2 * depth), *handlers, *after, answer(end)])


def throws_in_a_row(count):
    """That many blocks that may throw, one after the other in a list."""
    return document([*[may_throw(number, number + 1) for number in range(count)], answer(count)])


def throws_in_a_test(count):
    """As the test of a `While` that many blocks that may throw, one after the other."""
    chain = [may_throw(number, number + 1) for number in range(1, count + 1)]
    return document([loop(0, 1, count + 2, count + 3), *chain, tested(count + 1, count + 2, count + 3), go_on(count + 2, 1),
                     answer(count + 3)])


def throws_in_an_arm(count):
    """That many blocks that may throw, one after the other, as the short arm of an `Optional`."""
    chain = [may_throw(number, number + 1) for number in range(4, count + 4)]
    return document([value("Optional", 0, 1, 3), tested(1, 2, 4), arm(2, 3), answer(3), *chain, jump(count + 4, 3)], rows=[STORE])


def nested_sequences(depth):
    """That many `Sequence`s, each in the block of the one around it."""
    heads = [value("Sequence", head, head + 1, 2 * depth - head) for head in range(depth)]
    arms = [arm(number, number + 1) for number in range(depth, 2 * depth)]
    return document([*heads, *arms, answer(2 * depth)], rows=[STORE])


def nested_tests(kind, depth):
    """That many values, each in the test of the one around it, with arms of their own."""
    end = 2 * depth
    blocks = [value(kind, head, head + 1, end - head) for head in range(depth)]
    for head in range(depth):
        first = end + 1 + 2 * head
        blocks += [tested(end - 1 - head, first, first + 1), arm(first, end - head), arm(first + 1, end - head)]
    return document([*blocks, answer(end)], rows=[STORE])


def nested_optionals(depth):
    """That many `Optional`s, each of which answers the test of the one around it; the short arm of all is one block."""
    end = 2 * depth
    blocks = [value("Optional", head, head + 1, end - head) for head in range(depth)]
    for head in range(depth):
        first = end + 2 + head
        blocks += [tested(end - 1 - head, first, end + 1), arm(first, end - head)]
    return document([*blocks, jump(end + 1, end), answer(end)], rows=[STORE])


def nested_alternates(depth):
    """That many `Ternary`s, each in the alternate of the one around it."""
    end = 4 * depth
    blocks = []
    for level in range(depth):
        head, after = 3 * level, end - level
        blocks += [value("Ternary", head, head + 1, after), tested(head + 1, head + 2, head + 3)]
        blocks.append(arm(head + 2, after))
    arms = [arm(number, number + 1) for number in range(3 * depth, end)]
    return document([*blocks, *arms, answer(end)], rows=[STORE])


def names_document(values, answered, more=0, functions=()):
    """The bytes of a document with a row for each of these values, whose target is a name of its own, and which returns
    that name. Name 0 is the parameter, and row I has name I + 1 as its target. The last row stands in a scope, which
    declares its target. There are that many names more."""
    count = len(values)
    rows = [{"id": number + 1, "lvalue": number + 1, "value": value} for number, value in enumerate(values)]
    rows[-1]["id"] = count + 1
    opens = {"k": "Scope", "fallthrough": 2, "block": 1, "scope": 0, "id": count}
    ends = {"k": "Goto", "variant": "Break", "block": 2, "id": count + 2}
    last = {"k": "Return", "value": answered, "id": count + 3}
    blocks = [
        {"id": 0, "instructions": list(range(count - 1)), "terminal": opens},
        {"id": 1, "instructions": [count - 1], "terminal": ends},
        {"id": 2, "terminal": last},
    ]
    names = [{"declaration_id": number, "type_": 0} for number in range(count + 1 + more)]
    names[count]["scope"] = 0
    declared = {"key": count, "value": {"identifier": count, "scope": 0}}
    env = {"identifiers": names, "types": ["Other"], "functions": [*functions],
           "scopes": [{"range": {"start": count, "end": count + 3}, "declarations": [declared]}],
           "config": {}, "next_block": 3}
    hir = {"params": [{"k": "Place", "v": 0}], "body": {"entry": 0, "blocks": blocks}, "instructions": rows}
    return packed({"hir": hir, "env": env})


def array_of(places):
    return {"k": "ArrayExpression", "elements": [{"k": "Place", "v": place} for place in places]}


def names_in_a_chain(count):
    """That many names, each of which needs the one before it; the last one is returned."""
    return names_document([{"k": "Await", "value": number} for number in range(count)], count)


def names_in_a_star(count):
    """That many names, all of which the last one needs, which is returned."""
    others = [{"k": "Await", "value": 0} for _ in range(count - 1)]
    return names_document([*others, array_of(range(1, count))], count)


def names_in_cycles(count):
    """That many names, each of which needs the one before it and the one after it; the last one is returned."""
    others = [array_of((number, number + 2)) for number in range(count - 1)]
    return names_document([*others, {"k": "Await", "value": count - 1}], count)


def names_that_change(count):
    """That many names, all of which the last one holds and may change, so that each needs all others; it is returned."""
    others = [{"k": "Await", "value": 0} for _ in range(count - 1)]
    return names_document([*others, array_of([number, "Store", False] for number in range(1, count))], count)


def function_of(context):
    """A nested function with these places as its context, which only answers."""
    return {"context": context, "body": {"entry": 0, "blocks": [answer(0)]}}


def names_of_one_function(count):
    """That many names, but for the last each the target of a row that names one function, whose context has as many
    places, which are names of their own. The last one holds the one before it, and is returned."""
    rows = [{"k": "FunctionExpression", "lowered_func": {"func": 0}} for _ in range(count - 1)]
    context = range(count + 1, 2 * count + 1)
    return names_document([*rows, array_of((count - 1,))], count, count, [function_of([*context])])


def names_in_one_function(count):
    """The same, where the places of the context are the targets of the rows, and may change there."""
    rows = [{"k": "FunctionExpression", "lowered_func": {"func": 0}} for _ in range(count - 1)]
    context = [[number, "Capture", False] for number in range(1, count)]
    return names_document([*rows, array_of((count - 1,))], count, 0, [function_of(context)])


def names_in_scopes(count):
    """The same, where each of these names is in a scope of its own, which is active at the next row alone."""
    whole = json.loads(names_in_one_function(count))
    for name in range(1, count):
        whole["env"]["identifiers"][name]["scope"] = name
        whole["env"]["scopes"].append({"range": {"start": name + 1, "end": name + 2}})
    return packed(whole)


def names_in_scopes_in_no_order(count):
    """The same, where the places of the context stand in no order."""
    whole = json.loads(names_in_scopes(count))
    random.Random(count).shuffle(whole["env"]["functions"][0]["context"])
    return packed(whole)


def names_that_are_loaded(count):
    """That many rows that name one function, with a load in front of each into a place of the function's context, which has
    as many places."""
    rows = [{"k": "LoadLocal", "place": 0}, {"k": "FunctionExpression", "lowered_func": {"func": 0}}]
    context = range(1, 2 * count, 2)
    return names_document([*(rows * count), array_of((2 * count,))], 2 * count + 1, 0, [function_of([*context])])


def functions_in_values(count):
    """That many `Ternary`s one after the other, both arms of which name one function, whose context has as many places."""
    whole = json.loads(values_in_a_row("Ternary", count))
    whole["hir"]["instructions"][0]["value"] = {"k": "FunctionExpression", "lowered_func": {"func": 0}}
    names = len(whole["env"]["identifiers"])
    whole["env"]["identifiers"] += [{"declaration_id": names + name, "type_": 0} for name in range(count)]
    whole["env"]["functions"] = [function_of([*range(names, names + count)])]
    return packed(whole)


def scope_with_array(name, ids):
    """The two blocks of a scope with an array, the row, the identifier of the array, and the scope; of that many ids for
    each scope it takes the last three."""
    head, at = 2 * name, ids * (name + 1) - 2
    opens = {"k": "Scope", "fallthrough": head + 2, "block": head + 1, "scope": name, "id": at}
    ends = {"k": "Goto", "variant": "Break", "block": head + 2, "id": at + 2}
    value = {"k": "ArrayExpression", "elements": [{"k": "Place", "v": name}]}
    return (
        [{"id": head, "terminal": opens}, {"id": head + 1, "instructions": [name], "terminal": ends}],
        {"id": at + 1, "lvalue": name + 1, "value": value},
        {"declaration_id": name + 1, "type_": 0, "scope": name},
        {"range": {"start": at, "end": at + 3},
         "declarations": [{"key": name + 1, "value": {"identifier": name + 1, "scope": name}}]},
    )


def scopes_with_arrays(count, answered, ids=3):
    """That many scopes one after the other, each with an array that holds that of the scope before, and the return of
    this name."""
    parts = [scope_with_array(name, ids) for name in range(count)]
    last = {"id": 2 * count, "terminal": {"k": "Return", "value": answered, "id": ids * count + 1}}
    blocks = [block for part in parts for block in part[0]]
    hir = {"params": [{"k": "Place", "v": 0}], "body": {"entry": 0, "blocks": [*blocks, last]},
           "instructions": [part[1] for part in parts]}
    env = {"identifiers": [{"declaration_id": 0, "type_": 0}, *[part[2] for part in parts]], "types": ["Other"],
           "scopes": [part[3] for part in parts], "config": {}, "next_block": 2 * count + 1}
    return packed({"hir": hir, "env": env})


def scopes_in_one_function(count):
    """The same, with a row in front of each scope that names one function, whose context has the names of all arrays; the
    last array is returned."""
    whole = json.loads(scopes_with_arrays(count, count, 4))
    env, hir = whole["env"], whole["hir"]
    for name in range(count):
        head, row = hir["body"]["blocks"][2 * name], count + name
        head["instructions"] = [row]
        hir["instructions"].append({"id": head["terminal"]["id"] - 1, "lvalue": row + 1,
                                    "value": {"k": "FunctionExpression", "lowered_func": {"func": 0}}})
        env["identifiers"].append({"declaration_id": row + 1, "type_": 0})
    env["functions"] = [function_of([*range(1, count + 1)])]
    return packed(whole)


def scopes_that_escape(count):
    """That many scopes with arrays. The last array is returned and needs all others. They merge,
    and no array before the last one stays declared."""
    return scopes_with_arrays(count, count)


def with_returned_names(whole, count, names):
    """The graph of that many scopes with arrays, which returns an array of these names."""
    last, end = count + 1, whole["hir"]["body"]["blocks"][-1]
    end["instructions"] = [count]
    whole["hir"]["instructions"].append({"id": end["terminal"]["id"], "lvalue": last, "value": array_of(names)})
    whole["env"]["identifiers"].append({"declaration_id": last, "type_": 0})
    end["terminal"] = {"k": "Return", "value": last, "id": end["terminal"]["id"] + 1}
    return packed(whole)


def scopes_that_merge(count):
    """That many scopes with arrays, which merge; all arrays stay declared, since the one that is returned holds them."""
    return with_returned_names(json.loads(scopes_with_arrays(count, count)), count, range(1, count + 1))


def scopes_that_drop_and_keep(count):
    """The same, where every other array is in no array but the next one, so that it is declared no more after that."""
    return with_returned_names(json.loads(scopes_with_arrays(count, count)), count, range(2, count + 1, 2))


def scopes_that_stay_apart(count):
    """That many scopes with arrays. Each may begin a group, and none has the dependencies of the next."""
    whole = json.loads(scopes_with_arrays(count, count))
    whole["hir"]["instructions"][0]["value"] = array_of(([0, "Read", True],))
    whole["env"]["types"] = [{"k": "Object", "shape": "Array"}]
    for name, it in enumerate(whole["env"]["scopes"]):
        it["dependencies"] = [{"identifier": 0}] * (1 + name % 2)
    return with_returned_names(whole, count, range(1, count + 1))


def nested_scopes_that_dissolve(depth):
    """That many scopes, one in the other, each with an array after the inner one, which holds that one's array."""
    heads = [scope(head, head + 1, 2 * depth - head, head) for head in range(depth)]
    ends = [{"id": depth + name, "instructions": [name],
             "terminal": {"k": "Goto", "variant": "Break", "block": depth + name + 1, "id": depth + 2 * name + 2}}
            for name in range(depth)]
    last = {"id": 2 * depth, "terminal": {"k": "Return", "value": depth, "id": 3 * depth + 1}}
    rows = [{"id": depth + 2 * name + 1, "lvalue": name + 1, "value": array_of((name,))} for name in range(depth)]
    whole = json.loads(document([*heads, *ends, last], depth, rows))
    for name in range(depth):
        number = depth - 1 - name
        whole["env"]["identifiers"].append({"declaration_id": name + 1, "type_": 0, "scope": number})
        whole["env"]["scopes"][number] = {
            "range": {"start": number + 1, "end": depth + 2 * name + 3},
            "declarations": [{"key": name + 1, "value": {"identifier": name + 1, "scope": number}}],
        }
    return packed(whole)


def scopes_with_long_lists(count):
    """Two scopes with arrays, which depend on the same names, that many; those of the second are in no order."""
    whole, names = json.loads(scopes_with_arrays(2, 2)), range(4, count + 4)
    whole["hir"]["instructions"][0]["value"] = array_of([[name, "Read", True] for name in names])
    whole["env"]["types"] = [{"k": "Object", "shape": "Array"}]
    mixed = random.Random(count).sample(names, count)
    for it, dependencies in zip(whole["env"]["scopes"], (names, mixed)):
        it["dependencies"] = [{"identifier": name} for name in dependencies]
    whole["env"]["identifiers"].append({"declaration_id": 3, "type_": 0})
    whole["env"]["identifiers"] += [{"declaration_id": name, "type_": 0} for name in names]
    return packed(whole)


def scopes_that_do_not_escape(count):
    """That many scopes with arrays, none of which is returned."""
    return scopes_with_arrays(count, 0)


# The shapes below cost the product of two of their parts. They have about as many bytes of one part as of the other, so
# that few documents of as many bytes cost more in this way.

DEBUGGER = {"id": 1, "lvalue": 0, "value": {"k": "Debugger"}}
NAMES_THE_FUNCTION = {"id": 1, "lvalue": 0, "value": {"k": "FunctionExpression", "lowered_func": {"func": 0}}}
LOAD = {"id": 1, "lvalue": 0, "value": {"k": "LoadLocal", "place": 0}}


def one_block(rows, listed):
    """A document of one block, which lists these of the rows."""
    whole = json.loads(document([answer(0)], rows=rows))
    whole["hir"]["body"]["blocks"][0]["instructions"] = listed
    return whole


def scopes_around(depth, rows, listed, front=()):
    """That many scopes one in the other, the innermost of which lists these of the rows; in front of each scope stand
    those of `front`."""
    whole = json.loads(nested_scopes(depth))
    whole["hir"]["instructions"] = rows
    blocks = whole["hir"]["body"]["blocks"]
    for head in blocks[:depth]:
        head["instructions"] = [*front]
    blocks[depth]["instructions"] = listed
    return whole


def add_parameters(whole, count, scopes=()):
    """Adds that many parameters and answers their names, the first of which are in these scopes."""
    identifiers = whole["env"]["identifiers"]
    names = range(len(identifiers), len(identifiers) + count)
    identifiers += [{"declaration_id": name, "type_": 0} for name in names]
    for name, scope in zip(names, scopes):
        identifiers[name]["scope"] = scope
    whole["hir"]["params"] += [{"k": "Place", "v": name} for name in names]
    return names


def active_scopes_around(depth, rows, listed):
    """The same, where all scopes are active at the rows, and the names of as many parameters, each in one of the
    scopes."""
    whole = scopes_around(depth, rows, listed)
    for it in whole["env"]["scopes"]:
        it["range"] = {"start": 1, "end": 2}
    return whole, add_parameters(whole, depth, range(depth))


def holding(names):
    """A row that makes an array of names."""
    return {"id": 1, "lvalue": 0, "value": array_of(names)}


def names_reassigned_in_scopes(count):
    """That many nested scopes, the innermost of which reassigns five times as many names."""
    whole, _ = active_scopes_around(count, [holding(range(1, count + 1))], [0])
    whole["env"]["scopes"][-1]["reassignments"] = [*add_parameters(whole, 5 * count)]
    return packed(whole)


def name_reassigned_in_scopes(count):
    """The same, where one name is among them a hundred times as often."""
    whole, _ = active_scopes_around(count, [holding(range(1, count + 1))], [0])
    whole["env"]["scopes"][-1]["reassignments"] = 100 * count * [0]
    return packed(whole)


def function_in_scopes(count):
    """A row that names a function and is listed a hundred times as often, in that many nested scopes, of each of which
    the function's context has a name."""
    whole, names = active_scopes_around(count, [NAMES_THE_FUNCTION], 100 * count * [0])
    whole["env"]["functions"] = [function_of([*names])]
    return packed(whole)


def function_after_loads(count):
    """A load and a row that names a function, which a scope lists in turn, ten times as often; the function's context
    has that many names."""
    whole = scopes_around(1, [LOAD, NAMES_THE_FUNCTION], 10 * count * [0, 1])
    whole["env"]["functions"] = [function_of([*add_parameters(whole, count)])]
    return packed(whole)


def function_that_changes_names(count):
    """A row that names a function, which a scope lists thirty times as often; the function may change each of the that
    many names of its context."""
    whole = scopes_around(1, [NAMES_THE_FUNCTION], 30 * count * [0])
    context = [[name, "Capture", False] for name in add_parameters(whole, count)]
    whole["env"]["functions"] = [function_of(context)]
    return packed(whole)


def rows_in_scopes(count, front=()):
    """A row that is listed a hundred times as often, in that many nested scopes, which don't escape: each declares a
    name that nothing returns."""
    whole = scopes_around(count, [DEBUGGER], 100 * count * [0], front)
    (name,) = add_parameters(whole, 1)
    for scope, it in enumerate(whole["env"]["scopes"]):
        it["declarations"] = [{"key": name, "value": {"identifier": name, "scope": scope}}]
    return packed(whole)


def rows_in_scopes_after_rows(count):
    """The same, where each scope stands after a row."""
    return rows_in_scopes(count, [0])


def row_listed_again(count):
    """One row, which its block lists that many times."""
    return packed(one_block([DEBUGGER], count * [0]))


def wide_row_listed_again(count):
    """A row of that many places, which its block lists ten times as often."""
    return packed(one_block([holding(count * [0])], 10 * count * [0]))


def rows_in_ifs(count):
    """A row that is listed a hundred times as often, in that many nested `If`s."""
    whole = json.loads(nested_ifs(count))
    whole["hir"]["instructions"] = [DEBUGGER]
    whole["hir"]["body"]["blocks"][count]["instructions"] = 100 * count * [0]
    return packed(whole)


def else_ifs(count):
    """A chain of that many `else if`s."""
    blocks = []
    for level in range(count):
        head, after = 2 * level, 3 * count - level
        arms = {"consequent": head + 1, "alternate": head + 2, "fallthrough": after}
        blocks += [block(head, "If", {"test": 0, **arms}), jump(head + 1, after)]
    blocks += [jump(number, number + 1) for number in range(2 * count, 3 * count)]
    return document([*blocks, answer(3 * count)])


def nested_labels_with_breaks(depth):
    """That many `Label`s one in the other, with a break out of each in front of the next one."""
    blocks, last = [], 3 * depth
    for level in range(depth):
        head, after = 3 * level, last + depth - level
        blocks += [label(head, head + 1, after), branch(head + 1, head + 2, head + 3), jump(head + 2, after)]
    blocks += [jump(number, number + 1) for number in range(last, last + depth)]
    return document([*blocks, answer(last + depth)])


def scopes_beside_memoized_names(count):
    """That many scopes with arrays that don't escape, and as many arrays after them that do."""
    whole = json.loads(scopes_with_arrays(count, 0))
    end, names = whole["hir"]["body"]["blocks"][-1], range(count + 1, 2 * count + 1)
    last = 2 * count + 1
    order = end["terminal"]["id"]
    values = [array_of(()) for _ in names] + [array_of(names)]
    end["instructions"] = [*range(count, last)]
    end["terminal"] = {"k": "Return", "value": last, "id": order + 1}
    whole["hir"]["instructions"] += [{"id": order, "lvalue": name, "value": value}
                                     for name, value in zip((*names, last), values)]
    whole["env"]["identifiers"] += [{"declaration_id": name, "type_": 0} for name in (*names, last)]
    return packed(whole)


def silent_rows_replayed(count):
    """A `While` whose body lists a row without an event, ten times as often, and a run that begins that many turns."""
    whole = json.loads(loops_in_a_row(1))
    whole["hir"]["instructions"] = [LOAD]
    whole["hir"]["body"]["blocks"][2]["instructions"] = 10 * count * [0]
    return packed({**whole, "run": {"events": count * [{"k": "Arm", "v": True}], "end": "Open"}})


def scopes_that_declare_again(count):
    """Scopes that merge, that many, each of which declares the first array's number again, with its own array."""
    whole = json.loads(scopes_that_merge(count))
    for name, it in enumerate(whole["env"]["scopes"][1:], 1):
        it["declarations"].append({"key": 1, "value": {"identifier": name + 1, "scope": name}})
    return packed(whole)


def same_parameters(count):
    """That many parameters, all of one name."""
    whole = one_block([], [])
    whole["hir"]["params"] *= count
    return packed(whole)


def shapes_of_functions(count):
    """A table of that many shapes of functions, which no type names."""
    whole = one_block([], [])
    whole["env"]["shapes"] = count * [{"hook": True}]
    return packed(whole)


def small_objects(count):
    """That many small objects, which are no document."""
    return packed({"": count * [{"": 0}]})
