"""What `rc why` may print of a document: the lines of `rc fates`, each with facts that fit its fate and may be those of
the document, as far as lines show them.
"""
import json, re
import printing_form

NUMBER = "(?:0|[1-9][0-9]*)"
PAIR = NUMBER + r'(?:[?]?[.]"(?:[^"\\]|\\.)*")*'
NUMBERS, PAIRS = (f"(none|{entry}(?:,{entry})*)" for entry in (NUMBER, PAIR))


class Scope:
    """A scope of a document: its outputs, by which scopes its values were declared, its dependencies and its end."""

    def __init__(self, number, entry, identifiers):
        names = [it["value"]["identifier"] for it in entry["declarations"]] + entry["reassignments"]
        self.number = number
        self.outputs = [identifiers[it]["declaration_id"] for it in names]
        self.declared_by = [it["value"]["scope"] for it in entry["declarations"]]
        self.reassignments = len(entry["reassignments"])
        self.dependencies = [it["identifier"] for it in entry["dependencies"]]
        self.pairs = [pair(it, identifiers) for it in entry["dependencies"]]
        self.end = entry["range"]["end"]


def pair(dependency, identifiers):
    """The text of a dependency."""
    steps = (("?." if it["optional"] else ".") + json.dumps(it["property"]["v"], ensure_ascii=False)
             for it in dependency["path"])
    return str(identifiers[dependency["identifier"]]["declaration_id"]) + "".join(steps)


def numbers(text):
    return [] if text == "none" else [int(it) for it in text.split(",")]


def is_left_of(left, whole):
    """Whether a list is left of another one where some entries go."""
    entries = iter(whole)
    return all(it in entries for it in left)


# Whether the facts of a fate fit it and may be those of the scope. Dependencies that aren't reactive are gone.

def kept(scope, output):
    return not scope.outputs if output == "none" else int(output) in scope.outputs


def not_escaping(scope, outputs, memoized):
    names = numbers(memoized)
    return (numbers(outputs) == scope.outputs != [] and names == sorted(set(names))
            and not set(scope.outputs) & set(names))


def unused(scope, declared_by, reassignments, returns):
    return (numbers(declared_by) == scope.declared_by and scope.number not in scope.declared_by
            and int(reassignments) == scope.reassignments == int(returns) == 0)


def dissolved(scope, own, parent):
    own, parent = re.findall(PAIR, own), re.findall(PAIR, parent)
    return len(own) == len(parent) and set(own) == set(parent) and is_left_of(own, scope.pairs)


def merged(scope, end):
    return int(end) == scope.end


def always_invalidating(scope, dependency):
    return int(dependency) in scope.dependencies


FACTS = {
    "kept": (f"output (none|{NUMBER})", kept),
    "not-escaping": (f"outputs {NUMBERS} memoized {NUMBERS}", not_escaping),
    "unused": (f"declared-by {NUMBERS} reassignments ({NUMBER}) returns ({NUMBER})", unused),
    f"dissolved into {NUMBER}": (f"own {PAIRS} parent {PAIRS}", dissolved),
    f"merged into {NUMBER}": (f"by (?:same|outputs|sources) end ({NUMBER})", merged),
    "always-invalidating": (f"dependency ({NUMBER})", always_invalidating),
}


def explains(printed, fates, document):
    """Whether this may be the text of the reasons of a document with these fates."""
    env = printing_form.printed("Environment", json.loads(document)["env"])
    scopes = [Scope(number, entry, env["identifiers"]) for number, entry in enumerate(env["scopes"])]
    grow_heads(scopes, fates.decode())
    lines, due = printed.decode().split("\n"), fates.decode().split("\n")
    return (len(lines) == len(due) and lines.pop() == due.pop() == ""
            and all(is_reason(*it, scopes) for it in zip(lines, due)) and is_one_set(lines))


def grow_heads(scopes, fates):
    """Lets the range of each head end no sooner than those of the scopes that are merged into it: a head that is merged
    later itself has grown by then.
    """
    merged = [(int(it), int(head)) for it, head in re.findall(r"^scope (\d+) merged into (\d+)$", fates, re.MULTILINE)]
    for _ in merged:
        for it, head in merged:
            scopes[head].end = max(scopes[head].end, scopes[it].end)


def is_reason(line, fate, scopes):
    """Whether a line has a fate of a scope and facts that fit it."""
    _, number, kind = fate.split(" ", 2)
    form, fit = next(it for name, it in FACTS.items() if re.fullmatch(name, kind))
    facts = re.fullmatch(form, line.removeprefix(f"{fate} "))
    return line.startswith(f"{fate} ") and facts is not None and fit(scopes[int(number)], *facts.groups())


def is_one_set(lines):
    """Whether all lines with memoized declarations have the same, and each output that is kept is one of them."""
    sets = {line.rsplit(" ", 1)[1] for line in lines if " memoized " in line}
    outputs = {line.rsplit(" ", 1)[1] for line in lines if re.search(" kept output [0-9]", line)}
    return len(sets) <= 1 and all(outputs <= set(it.split(",")) for it in sets)
