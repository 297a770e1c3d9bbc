"""The tables of docs/FROM_OXC.md: the fields of each type, with their keys, forms and meanings."""
import re


def cell(text):
    return text.replace("|", "\\|")


def form_of(field):
    """How a field's form is written in a table: a list or a table in brackets, and ? for what may be null."""
    form = re.sub(r"^(Table|Keyed)\[", "[", field.form)
    return f"`{form}{'?' * field.is_optional}`"


def row(*cells):
    return "| " + " | ".join(map(cell, cells)) + " |"


def head(*names):
    return [row(*names), "|" + "---|" * len(names)]


def row_of(field):
    return row(f"`{field.key}`", form_of(field), field.means)


def struct(type_):
    return [*head("Field and key", "Form", "Means"), *map(row_of, type_.fields)]


def own_fields(type_, variant):
    """The fields of a variant without those that every variant of the type has."""
    shared = shared_keys(type_)
    return [it for it in variant.fields if it.key not in shared]


def shared_keys(type_):
    """The keys that every variant of a large enum has, which are said once."""
    if len(type_.tagged()) < 10:
        return set()
    return set.intersection(*({it.key for it in variant.fields} for variant in type_.tagged()))


def key_of(field):
    if field.key == "v":
        return f"`v` {form_of(field)}"
    return f"`{field.key}` {form_of(field)}: {field.means}"


def row_of_variant(type_, variant):
    keys = "<br>".join(key_of(it) for it in own_fields(type_, variant))
    return row(f"`{variant.name}`", variant.means, *[keys] * bool(type_.tagged()))


def enum(type_):
    names = ["Variant", "Means", *["Keys beside `k`"] * bool(type_.tagged())]
    lines = [*head(*names), *(row_of_variant(type_, it) for it in type_.variants)]
    shared = shared_keys(type_)
    also = [key_of(it) for it in type_.tagged()[0].fields if it.key in shared] if shared else []
    return [*lines, "", f"Each has also {'; '.join(also)}."] if also else lines


def table(type_):
    kind = {"struct": struct, "enum": enum}[type_.kind]
    return "\n".join([f"### {type_.name}", "", f"{type_.means[0].upper()}{type_.means[1:]}.", "", *kind(type_), ""])


def numbers(types):
    lines = [row(f"`{it.name}`", it.means) for it in types if it.kind == "number"]
    return "\n".join(["### Numbers", "", *head("Type", "Means"), *lines, ""])


def tables(types):
    return "\n".join([numbers(types), *(table(it) for it in types if it.kind != "number")])
