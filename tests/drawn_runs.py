"""Runs drawn from the edges of a document's own graph, as documents of `rc replay`.

A run goes on from the entry along edges that chance chooses, and ends at a return, at a throw, or where it is long.
Each is a run of the graph, and without a row that throws it is one of the answered body too. The same run with one event
changed may be one of both or of none.
"""
import json, random

# How many runs are drawn from a graph, and how many moves one has at most.
RUNS, MOVES = 10, 60

# Where a terminal leads on that has one way.
STRAIGHT = {"Logical": "test", "Ternary": "test", "Optional": "test", "Sequence": "block", "Goto": "block",
            "DoWhile": "loop_block", "While": "test", "For": "init", "ForOf": "init", "ForIn": "init", "Label": "block",
            "Scope": "block", "PrunedScope": "block", "Try": "block"}


def is_silent(row, identifiers):
    """Whether a row has no event."""
    value = row["value"]
    if value["k"] == "StoreLocal":
        place = value["lvalue"]["place"]
        identifier = identifiers[place[0] if isinstance(place, list) else place]
        return row["id"] == 0 or identifier.get("name") is None
    return (row["id"] == 0 or value["k"] in ("LoadLocal", "StartMemoize", "FinishMemoize")
            or value["k"] == "Primitive" and value["value"] == "Undefined")


def moves(terminal):
    """The moves from a terminal, each as its events and its block."""
    kind = terminal["k"]
    if kind in ("If", "Branch"):
        arms = (True, terminal["consequent"]), (False, terminal["alternate"])
        return [([{"k": "Arm", "v": taken}], block) for taken, block in arms]
    if kind == "MaybeThrow":
        handler = terminal.get("handler")
        return [([], terminal["continuation"])] + ([(["Threw"], handler)] if handler is not None else [])
    if kind == "Switch":
        cases = [(case.get("test"), case["block"]) for case in terminal.get("cases", [])]
        if all(test is not None for test, _ in cases):
            cases.append((None, terminal["fallthrough"]))
        return [([{"k": "Chose", "v": test}], block) for test, block in cases]
    return [([], terminal[STRAIGHT[kind]])] if kind in STRAIGHT else []


def drawn(document, choose, most=MOVES):
    """A run of the document's graph, of at most so many moves, each of which is chosen from the ways and the events."""
    hir, identifiers = document["hir"], document["env"].get("identifiers", [])
    blocks = {block["id"] if block.get("key") is None else block["key"]: block for block in hir["body"]["blocks"]}
    rows, events, key = hir.get("instructions", []), [], hir["body"]["entry"]
    for _ in range(most):
        block = blocks[key]
        listed = [rows[index] for index in block.get("instructions", [])]
        events += [{"k": "Did", "v": row["value"]} for row in listed if not is_silent(row, identifiers)]
        terminal = block["terminal"]
        if terminal["k"] in ("Return", "Throw"):
            end = {"Return": "Returned", "Throw": "Thrown"}[terminal["k"]]
            return {"events": events, "end": {"k": end, "v": terminal["value"]}}
        ways = moves(terminal)
        if not ways:
            break
        step, key = choose(ways, events)
        events += step
    return {"events": events, "end": "Open"}


def changed(run, chance):
    """The run with one event taken out, put twice, or made another one."""
    events = list(run["events"])
    at = chance.randrange(len(events))
    if isinstance(events[at], dict) and events[at]["k"] == "Arm" and chance.random() < 0.5:
        events[at] = {"k": "Arm", "v": not events[at]["v"]}
    else:
        events[at:at + 1] = chance.choice([[], [events[at]] * 2])
    return {**run, "events": events}


def agree(printed, due):
    """Whether both lines say the same, or the second one says that the body isn't asked."""
    return printed in (b"graph yes\nbody yes\n", b"graph no\nbody no\n", b"graph yes\nbody skipped\n",
                       b"graph no\nbody skipped\n")


def text_with(document, run):
    """The text of a document with a run in it."""
    return json.dumps({**document, "run": run}).encode()


def texts(name, text):
    """The runs of a document: the name of each with its text, with what must be printed, and with how that is held."""
    document, chance = json.loads(text), random.Random(name)
    for index in range(RUNS):
        run = drawn(document, lambda ways, _: chance.choice(ways))
        body = b"skipped" if "Threw" in run["events"] else b"yes"
        yield f"run {index}", text_with(document, run), b"graph yes\nbody " + body + b"\n", bytes.__eq__
        if run["events"]:
            yield f"changed run {index}", text_with(document, changed(run, chance)), b"", agree


def long(text, count):
    """The text of a document with a run that takes each first way, and after that many events each last one."""
    document = json.loads(text)
    run = drawn(document, lambda ways, events: ways[0] if len(events) < count else ways[-1], 10 * count)
    assert len(run["events"]) >= count
    return text_with(document, run)
