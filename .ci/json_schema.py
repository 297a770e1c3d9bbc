"""What a value breaks of a JSON Schema, as far as the schemas of docs/ use draft 2020-12.

Each error is a place in the value and what is wrong there. A schema with a word that is not checked here is refused.
"""
import json

CHECKED = {"type", "enum", "const", "minimum", "maximum", "minItems", "maxItems", "prefixItems", "items", "properties",
           "required", "additionalProperties", "allOf", "not", "if", "then", "else", "$ref"}
SAID = {"$schema", "$id", "$comment", "$defs", "title", "description"}

TYPES = {
    "object": lambda it: isinstance(it, dict),
    "array": lambda it: isinstance(it, list),
    "string": lambda it: isinstance(it, str),
    "boolean": lambda it: isinstance(it, bool),
    "null": lambda it: it is None,
    "integer": lambda it: is_number(it) and it == int(it),
}


def is_number(value):
    return isinstance(value, (int, float)) and not isinstance(value, bool)


def inner_schemas(schema):
    """The schemas that stand in a schema."""
    for word in "$defs", "properties":
        yield from schema.get(word, {}).values()
    for word in "prefixItems", "allOf":
        yield from schema.get(word, [])
    for word in "items", "not", "if", "then", "else", "additionalProperties":
        yield schema.get(word, True)


def words_of(schema):
    """The words of a schema and of all in it; there are none in true and false."""
    if isinstance(schema, bool):
        return set()
    return set(schema).union(*map(words_of, inner_schemas(schema)))


def same(one, other):
    return type(one) is type(other) and one == other


class Schema:
    def __init__(self, root):
        unknown = words_of(root) - CHECKED - SAID
        if unknown:
            raise ValueError(f"the schema has words that are not checked: {sorted(unknown)}")
        self.root = root

    def errors(self, value):
        """What the value breaks, in the order of the schema."""
        return list(self.broken(self.root, value, ""))

    def fits(self, schema, value):
        return not any(self.broken(schema, value, ""))

    def broken(self, schema, value, place):
        if isinstance(schema, bool):
            yield from [] if schema else [f"{place}: nothing may be here"]
            return
        yield from broken_itself(schema, value, place)
        if "not" in schema and self.fits(schema["not"], value):
            yield f"{place}: a value of this form is not allowed: {json.dumps(schema['not'])}"
        if isinstance(value, dict):
            yield from self.broken_keys(schema, value, place)
        if isinstance(value, list):
            yield from self.broken_entries(schema, value, place)
        for part in self.applied(schema, value):
            yield from self.broken(part, value, place)

    def applied(self, schema, value):
        """The further schemas that the value has to keep to."""
        if "$ref" in schema:
            yield self.root["$defs"][schema["$ref"].removeprefix("#/$defs/")]
        yield from schema.get("allOf", [])
        if "if" in schema:
            yield schema.get("then" if self.fits(schema["if"], value) else "else", True)

    def broken_keys(self, schema, value, place):
        fields = schema.get("properties", {})
        for key in schema.get("required", []):
            if key not in value:
                yield f"{place}: the key {key} is missing"
        for key, part in value.items():
            if key in fields:
                yield from self.broken(fields[key], part, f"{place}.{key}")
            elif not schema.get("additionalProperties", True):
                yield f"{place}: unknown key {key}"

    def broken_entries(self, schema, value, place):
        first = schema.get("prefixItems", [])
        for index, part in enumerate(value):
            entry = first[index] if index < len(first) else schema.get("items", True)
            yield from self.broken(entry, part, f"{place}[{index}]")


def broken_itself(schema, value, place):
    """What a value breaks without its parts."""
    types = schema.get("type", [])
    types = [types] if isinstance(types, str) else types
    if types and not any(TYPES[it](value) for it in types):
        yield f"{place}: expected {' or '.join(types)}"
    if "const" in schema and not same(schema["const"], value):
        yield f"{place}: expected {schema['const']}"
    if "enum" in schema and not any(same(it, value) for it in schema["enum"]):
        yield f"{place}: {value!r} is none of {', '.join(schema['enum'])}"
    if is_number(value) and not schema.get("minimum", value) <= value <= schema.get("maximum", value):
        yield f"{place}: {value} is outside of its range"
    if isinstance(value, list) and not schema.get("minItems", 0) <= len(value) <= schema.get("maxItems", len(value)):
        yield f"{place}: a list of {len(value)} entries"
