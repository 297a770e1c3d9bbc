"""The JSON Schemas of a document and of an answer, in the words of draft 2020-12.

A variant is chosen by its `k` with `if` and `then`, so that a wrong word is one error, and not one for each variant.
"""
import json
import type_table
from type_table import meaning, sentence

WIDTH = 118
MOST = 4294967295
NUMBER = {"type": "integer", "minimum": 0, "maximum": MOST}
LENGTHS = {"Table": {"maxItems": MOST}, "NonEmpty": {"minItems": 1}}
# The long form of a place for which the short one is enough.
NEEDLESS = {"type": "array", "prefixItems": [True, {"const": "Read"}, {"const": False}], "minItems": 3, "maxItems": 3}


def said(title, *means):
    return {"title": title, "description": " ".join(means)}


def ref(name):
    return {"$ref": f"#/$defs/{name}"}


def form_of(form):
    """The schema of a form that isn't optional."""
    list_ = type_table.list_of(form)
    if list_:
        return {"type": "array", "items": form_of(list_[1]), **LENGTHS.get(list_[0], {})}
    return {"Text": {"type": "string"}, "bool": {"type": "boolean"}}.get(form) or ref(form)


def is_variant(name):
    """Whether a value is an object with this `k`."""
    return {"type": "object", "properties": {"k": {"const": name}}, "required": ["k"]}


def tagged(type_):
    """One of the variants with fields, by its `k`."""
    choices = [(variant.name, f"{owner.name}.{variant.name}") for owner, variant in type_.choices()]
    names = [name for name, _ in choices]
    chosen = [{"if": is_variant(name), "then": ref(definition)} for name, definition in choices]
    return {"type": "object", "properties": {"k": {"description": "The variant.", "enum": names}}, "required": ["k"],
            "allOf": chosen}


def enum(type_):
    """A name for a variant without fields, and an object for one that has some."""
    names = {"enum": [it.name for it in type_.plain()]}
    if not type_.choices():
        return names
    if not type_.plain():
        return tagged(type_)
    return {"if": {"type": "string"}, "then": names, "else": tagged(type_)}


def span():
    return {**said("Span", "Start and end in the source."), "type": "array", "prefixItems": [NUMBER, NUMBER],
            "items": False, "minItems": 2}


class Schema:
    """The schema of the printing form, where it is exact: no field is left out or null but those that are none, and places
    are in their shortest form. Else that of what rc reads."""

    def __init__(self, is_exact):
        self.is_exact = is_exact

    def property_of(self, field):
        form = form_of(field.form)
        if field.is_optional and not self.is_exact:
            form = {"if": {"type": "null"}, "else": form}
        return {"description": sentence(field.means), **form}

    def is_required(self, field):
        return not (field.is_optional if self.is_exact else field.may_miss())

    def object_of(self, fields, tag=None):
        """An object with these fields, and with this `k` where it is a variant."""
        properties = {field.key: self.property_of(field) for field in fields}
        required = [field.key for field in fields if self.is_required(field)]
        if tag:
            properties, required = {"k": {"const": tag}, **properties}, ["k", *required]
        return {"type": "object", "properties": properties, "required": required, "additionalProperties": False}

    def place(self):
        means = ["A use of an identifier: its number alone, which means effect Read, not reactive and no span; or an "
                 "array of identifier, effect, whether it is reactive, and perhaps a span."]
        shortest = {"not": NEEDLESS} if self.is_exact else {}
        return {
            **said("Place", *means, *["The number alone, where that is enough."] * self.is_exact),
            "type": ["integer", "array"], "minimum": 0, "maximum": MOST,
            "prefixItems": [ref("IdentifierId"), ref("Effect"), {"type": "boolean"}, ref("Span")],
            "items": False, "minItems": 3, **shortest,
        }

    def form_of_type(self, type_):
        if type_.kind == "number":
            return NUMBER
        if type_.kind == "list":
            return form_of(type_.form)
        return self.object_of(type_.fields) if type_.kind == "struct" else enum(type_)

    def defs(self, types):
        found = {"Span": span(), "Place": self.place()}
        for type_ in types:
            found[type_.name] = {**said(type_.name, meaning(type_)), **self.form_of_type(type_)}
            for variant in type_.tagged():
                name = f"{type_.name}.{variant.name}"
                found[name] = {**said(name, sentence(variant.means)), **self.object_of(variant.fields, variant.name)}
        return found

    def of(self, types, root, head):
        """The schema of a type, with what its head says beside."""
        found = self.defs(types)
        top = {**head, **found.pop(root), **head}
        return {"$schema": "https://json-schema.org/draft/2020-12/schema", **top, "$defs": found}


def document():
    """The schema of a document, as rc reads it."""
    head = {
        "$id": "urn:rc:document:0.1", "title": "A document of rc",
        "$comment": "tools/form/write makes this file. docs/FROM_OXC.md says how an editor is pointed at it, and "
                    "docs/FAULTS.md, at status 4, what a schema can't say.",
    }
    return Schema(is_exact=False).of(type_table.document(), "Document", head)


def answer():
    """The schema of an answer in its printing form."""
    head = {
        "$id": "urn:rc:answer:0.1", "title": "An answer of rc",
        "$comment": "tools/form/write makes this file. What a schema can't say: keys are in byte order; a block of a "
                    "graph has a key only where that isn't its id; and from left to right the text names the blocks of "
                    "the function as 1, 2, 3 .. and its nested values as 0, 1, 2 ..",
    }
    return Schema(is_exact=True).of(type_table.answer(), "Answer", head)


def filled(entries, indent):
    """The entries with commas between them, as many on a line as fit."""
    lines = [""]
    for entry in entries:
        if lines[-1] and len(indent) + len(lines[-1]) + len(entry) > WIDTH or "\n" in lines[-1] + entry:
            lines.append("")
        lines[-1] += f" {entry}," if lines[-1] else f"{entry},"
    text = "\n".join(indent + it for it in lines if it)
    return text.removesuffix(",")


def layout(value, indent="", room=0):
    """The JSON text of a value, after a key that takes so much room: in a line where it fits."""
    line = json.dumps(value, ensure_ascii=False)
    if len(indent) + room + len(line) <= WIDTH or not isinstance(value, (dict, list)):
        return line
    inner = indent + "  "
    if isinstance(value, dict):
        keys = [json.dumps(it) for it in value]
        entries = [f"{key}: {layout(part, inner, len(key) + 3)}" for key, part in zip(keys, value.values())]
        return f"{{\n{filled(entries, inner)}\n{indent}}}"
    return f"[\n{filled([layout(part, inner, 1) for part in value], inner)}\n{indent}]"
