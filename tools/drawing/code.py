"""Rows and values as code, with the names of the source."""
import json


class Names:
    """The names of a document's identifiers. A temporary, and what a pass added, is a dollar sign and its number."""

    def __init__(self, env):
        self.identifiers = env["identifiers"]
        texts = [self.text(it) for it in self.identifiers]
        self.repeated = {it for it in texts if texts.count(it) > 1}

    def text(self, identifier):
        return (identifier.get("name") or {}).get("v", "")

    def of(self, number):
        text = self.text(self.identifiers[number]) if number < len(self.identifiers) else ""
        return f"{text}${number}" if not text or text in self.repeated else text

    def place(self, place):
        return self.of(place if isinstance(place, int) else place[0])

    def entry(self, entry):
        """An argument or an entry of a literal or of a pattern."""
        if entry == "Hole":
            return ""
        return self.place(entry["v"]) if entry["k"] == "Place" else f"...{self.place(entry['v']['place'])}"

    def entries(self, entries):
        return ", ".join(map(self.entry, entries))

    def key(self, key):
        return f"[{self.place(key['v'])}]" if key["k"] == "Computed" else key["v"]

    def property(self, entry):
        if entry["k"] == "Spread":
            return self.entry(entry)
        key, name = self.key(entry["v"]["key"]), self.place(entry["v"]["place"])
        return key if key == name else f"{key}: {name}"

    def properties(self, entries):
        return f"{{{', '.join(map(self.property, entries))}}}"

    def pattern(self, pattern):
        if pattern["k"] == "Array":
            return f"[{self.entries(pattern['items'])}]"
        return self.properties(pattern["properties"])


def member(names, it):
    """A property of an object, by its name or by a computed key."""
    at = it["property"]
    if isinstance(at, dict):
        return names.place(it["object"]) + (f".{at['v']}" if at["k"] == "String" else f"[{at['v']}]")
    return f"{names.place(it['object'])}[{names.place(at)}]"


def stored(names, it):
    kind = "" if it["lvalue"]["kind"] == "Reassign" else f"{it['lvalue']['kind'].lower()} "
    target = it["lvalue"].get("place")
    target = names.pattern(it["lvalue"]["pattern"]) if target is None else names.place(target)
    return f"{kind}{target} = {names.place(it['value'])}" if "value" in it else f"{kind}{target}"


def primitive(names, it):
    value = it["value"]
    if isinstance(value, str):
        return value.lower()
    return json.dumps(value["v"], ensure_ascii=False) if value["k"] != "Number" else value["v"]


def element(names, it):
    tag = it["tag"]["v"] if it["tag"]["k"] == "Builtin" else names.place(it["tag"]["v"])
    props = "".join(attribute(names, part) for part in it["props"])
    if it.get("children") is None:
        return f"<{tag}{props} />"
    return f"<{tag}{props}>{children(names, it)}</{tag}>"


def attribute(names, it):
    if it["k"] == "SpreadAttribute":
        return f" {{...{names.place(it['argument'])}}}"
    return f" {it['name']}={{{names.place(it['place'])}}}"


def children(names, it):
    return " ".join(f"{{{names.place(child)}}}" for child in it["children"])


def template(names, it):
    parts = [f"${{{names.place(part)}}}" for part in it["subexprs"]] + [""]
    return "`" + "".join(text + part for text, part in zip(it["quasis"], parts)) + "`"


def update(names, it):
    name = names.place(it["lvalue"])
    return it["operation"] + name if it["k"] == "PrefixUpdate" else name + it["operation"]


def function(names, it):
    return f"function {it.get('name') or ''}(..)"


LOADS = {kind: lambda names, it: names.place(it["place"]) for kind in ("LoadLocal", "LoadContext")}
STORES = {kind: stored for kind in ("DeclareLocal", "DeclareContext", "StoreLocal", "StoreContext", "Destructure")}
MEMBERS = {kind: member for kind in ("PropertyLoad", "ComputedLoad")}
DELETES = {kind: lambda names, it: f"delete {member(names, it)}" for kind in ("PropertyDelete", "ComputedDelete")}
WRITES = {kind: lambda names, it: f"{member(names, it)} = {names.place(it['value'])}"
          for kind in ("PropertyStore", "ComputedStore")}
KINDS = {
    **LOADS, **STORES, **MEMBERS, **DELETES, **WRITES, "Primitive": primitive, "TemplateLiteral": template,
    "PrefixUpdate": update, "PostfixUpdate": update, "FunctionExpression": function, "ObjectMethod": function,
    "JsxExpression": element, "JsxFragment": lambda names, it: f"<>{children(names, it)}</>",
    "JSXText": lambda names, it: json.dumps(it["value"], ensure_ascii=False),
    "BinaryExpression": lambda names, it: f"{names.place(it['left'])} {it['operator']} {names.place(it['right'])}",
    "UnaryExpression": lambda names, it: f"{it['operator']} {names.place(it['value'])}",
    "TypeCastExpression": lambda names, it: f"{names.place(it['value'])} as {it['annotation']}",
    "Await": lambda names, it: f"await {names.place(it['value'])}",
    "NewExpression": lambda names, it: f"new {names.place(it['callee'])}({names.entries(it['args'])})",
    "CallExpression": lambda names, it: f"{names.place(it['callee'])}({names.entries(it['args'])})",
    "MethodCall": lambda names, it: f"{names.place(it['property'])}.call({names.place(it['receiver'])}"
                                    f"{''.join(', ' + names.entry(arg) for arg in it['args'])})",
    "ObjectExpression": lambda names, it: names.properties(it["properties"]),
    "ArrayExpression": lambda names, it: f"[{names.entries(it['elements'])}]",
    "RegExpLiteral": lambda names, it: f"/{it['pattern']}/{it['flags']}",
    "MetaProperty": lambda names, it: f"{it['meta']}.{it['property']}",
    "LoadGlobal": lambda names, it: it["binding"]["name"],
    "StoreGlobal": lambda names, it: f"{it['name']} = {names.place(it['value'])}",
    "TaggedTemplateExpression": lambda names, it: f"{names.place(it['tag'])}`{it['quasi']}`",
    "GetIterator": lambda names, it: f"iterator of {names.place(it['collection'])}",
    "IteratorNext": lambda names, it: f"next of {names.place(it['iterator'])}",
    "NextPropertyOf": lambda names, it: f"next key of {names.place(it['value'])}",
    "Debugger": lambda names, it: "debugger",
    "StartMemoize": lambda names, it: f"memo {it['manual_memo_id']} of [{', '.join(map(names.place, it['deps']))}]",
    "FinishMemoize": lambda names, it: f"memo {it['manual_memo_id']} is {names.place(it['decl'])}",
}


def value(names, it):
    """A value as code: an instruction, or a nested value."""
    kind, parts = it
    if kind == "instruction":
        return KINDS[parts["k"]](names, parts)
    if kind == "logical":
        return f"{value(names, parts[1])} {parts[0]} {value(names, parts[2])}"
    if kind == "cond":
        test, consequent, alternate = (value(names, part) for part in parts)
        return f"{test} ? {consequent} : {alternate}"
    if kind == "seq":
        return f"({'; '.join([row(names, part) for part in parts[0]] + [value(names, parts[1])])})"
    return f"{'?.' if parts[0] else ''}({value(names, parts[1])})"


def row(names, it):
    target, what = it
    return value(names, what) if target is None else f"{names.place(target)} = {value(names, what)}"
