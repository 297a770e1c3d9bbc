"""What the answer of any document must have, as JSON: it keeps to its schema, and its environment is the document's, but
for what the passes change by the fates of the scopes and by the early returns.
"""
import json, os, sys

TOP = os.path.dirname(os.path.dirname(os.path.abspath(__file__)))
sys.path.insert(0, f"{TOP}/.ci")
import json_schema, printing_form

with open(f"{TOP}/docs/answer.schema.json") as file:
    SCHEMA = json_schema.Schema(json.load(file))


def compact(value):
    return json.dumps(value, ensure_ascii=False, separators=(",", ":"), sort_keys=True)


def answers(printed, document):
    """Whether this may be the text of the answer of that document, by its form and its environment."""
    try:
        answer = json.loads(printed)
    except ValueError:
        return False
    before = printing_form.printed("Environment", json.loads(document)["env"])
    return (printed.decode() == f"{compact(answer)}\n" and not SCHEMA.errors(answer)
            and is_after(before, answer["env"], answer["fates"], early_labels(answer["func"])))


def early_labels(func):
    """The labels of the early returns in a function; no other statement with a label has the id 0."""
    terminals = (it["v"] for block in func["blocks"] for it in block if it["k"] == "Terminal")
    return sorted(it["label"]["id"] for it in terminals if it["terminal"]["k"] == "Label" and it["terminal"]["id"] == 0)


def is_after(before, env, fates, labels):
    """Whether an environment may be what the passes make of another one, with these fates and early returns."""
    returns = [it["early_return_value"] for it in env["scopes"] if "early_return_value" in it]
    return (all(env[key] == before[key] for key in ("config", "functions", "shapes"))
            and grown(before["identifiers"], env["identifiers"], 5 * len(returns))
            and grown(before["types"], env["types"], 5 * len(returns))
            and env["next_block"] == before["next_block"] + len(returns)
            and sorted(it["label"] for it in returns) == labels == list(range(before["next_block"], env["next_block"]))
            and are_scopes_after(before["scopes"], env["scopes"], {it["scope"]: it["fate"] for it in fates}))


def grown(before, after, count):
    """Whether a table has so many further entries."""
    return after[:len(before)] == before and len(after) == len(before) + count


def are_scopes_after(before, after, fates):
    """Whether each scope may be what the passes make of it."""
    joined = {number: [] for number in range(len(before))}
    for scope, fate in fates.items():
        if isinstance(fate, dict) and fate["k"] == "MergedInto":
            joined[fate["v"]].append(scope)
    return len(after) == len(before) and all(
        is_scope_after(*pair, joined[number], fates.get(number)) for number, pair in enumerate(zip(before, after)))


def is_scope_after(before, after, joined, fate):
    """Whether a scope may be what the passes make of it, if those scopes joined it."""
    rest = {**after, "dependencies": before["dependencies"]}
    if "early_return_value" in after and fate == "Kept":
        value = after["early_return_value"]["value"]
        del rest["early_return_value"]
        rest["declarations"] = [it for it in after["declarations"] if it["key"] != value]
    if joined:
        rest |= {"declarations": before["declarations"], "merged": before["merged"], "range": before["range"]}
    return (rest == before and is_within(after["dependencies"], before["dependencies"])
            and (fate is not None or after == before) and has_joined(before, after, joined))


def has_joined(before, after, joined):
    """Whether a scope has these scopes, which joined it, after those that it had."""
    had, has = before["merged"], after["merged"]
    return (has[:len(had)] == had and sorted(has[len(had):]) == joined
            and after["range"]["start"] == before["range"]["start"] and after["range"]["end"] >= before["range"]["end"])


def is_within(some, all_):
    """Whether a list is another one without some of its entries."""
    rest = iter(all_)
    return all(it in rest for it in some)
