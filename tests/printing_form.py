"""The printing form of the parts of a document, by the types of tools/form/document.types.

A field that is none is left out, a list, a table or a flag never is, and each place is in the shortest of its forms.
"""
import os, sys

sys.path.insert(0, f"{os.path.dirname(os.path.dirname(os.path.abspath(__file__)))}/tools/form")
import type_table

TYPES = {it.name: it for it in type_table.document()}


def printed(form, value):
    """The printing form of a value of that form; what is left out is `None`."""
    list_ = type_table.list_of(form)
    if list_:
        return [printed_in(list_[0], list_[1], it) for it in value or []]
    if form == "bool":
        return bool(value)
    if form == "Place":
        return place(value)
    type_ = TYPES.get(form)
    if type_ is None or type_.kind == "number" or isinstance(value, str):
        return value
    if type_.kind == "struct":
        return fields(type_.fields, value)
    variant = next(it for it in type_.variants if it.name == value["k"])
    return {"k": variant.name, **fields(variant.fields, value)}


def fields(types, value):
    """The fields of a struct or of a variant, but those that are none."""
    return {it.key: printed(it.form, value.get(it.key)) for it in types
            if not it.is_optional or value.get(it.key) is not None}


def printed_in(kind, form, value):
    """An entry of a list. In a list of blocks by their keys, a key that is the block's number is left out."""
    entry = printed(form, value)
    if kind == "Keyed" and entry.get("key") == entry["id"]:
        del entry["key"]
    return entry


def place(value):
    """A place that is its number alone where it is read, isn't reactive, and has no span."""
    return value[0] if isinstance(value, list) and value[1:] == ["Read", False] else value
