"""Reads the list `mistakes`: each line is a change of one document, and what standard error must say of it. A further
change is made for each type that has variants or words, and two texts nest deep."""
import codecs, json, os

HERE = os.path.dirname(os.path.abspath(__file__))
SCHEMA = f"{os.path.dirname(HERE)}/docs/document.schema.json"
DEPTHS = 128, 200

# Where a value of each type with variants can be in the document: a part, and what is in its place, with a variant or
# word that isn't known.
VALUE = '{"k": "Debugger", "span": [40, 41]}'
RETURN = '{"k": "Return", "value": [4, "Freeze", false, [90, 91]], "id": 5, "span": [90, 92]}'
VARIANTS = [
    ("ParamPattern", '{"k": "Place", "v": 0}', '{"k": "?"}'),
    ("PlaceOrSpread", VALUE, '{"k": "NewExpression", "callee": 0, "args": [{"k": "?"}]}'),
    ("ArrayElement", VALUE, '{"k": "ArrayExpression", "elements": [{"k": "?"}]}'),
    ("Pattern", VALUE, '{"k": "Destructure", "lvalue": {"kind": "Let", "pattern": {"k": "?"}}, "value": 0}'),
    ("ArrayPatternElement", VALUE,
     '{"k": "Destructure", "lvalue": {"kind": "Let", "pattern": {"k": "Array", "items": ["?"]}}, "value": 0}'),
    ("ObjectPropertyOrSpread", VALUE, '{"k": "ObjectExpression", "properties": [{"k": "?"}]}'),
    ("ObjectPropertyKey", VALUE,
     '{"k": "ObjectExpression", "properties": [{"k": "Property", "v": {"key": {"k": "?"}, "place": 0}}]}'),
    ("PropertyLiteral", VALUE, '{"k": "PropertyLoad", "object": 0, "property": {"k": "?"}}'),
    ("PrimitiveValue", VALUE, '{"k": "Primitive", "value": "?"}'),
    ("NonLocalBinding", VALUE, '{"k": "LoadGlobal", "binding": {"k": "?"}}'),
    ("JsxTag", VALUE, '{"k": "JsxExpression", "tag": {"k": "?"}}'),
    ("JsxAttribute", VALUE, '{"k": "JsxExpression", "tag": {"k": "Builtin", "v": "b"}, "props": [{"k": "?"}]}'),
    ("InstructionValue", VALUE, '{"k": "?"}'),
    ("Terminal", RETURN, '{"k": "?"}'),
    ("IdentifierName", '{"k": "Named", "v": "a"}', '{"k": "?"}'),
    ("HirType", '"types": ["Other"]', '"types": [{"k": "?"}]'),
    ("Shape", '"types": ["Other"]', '"types": [{"k": "Object", "shape": "?"}]'),
]
WORDS = [
    ("InstructionKind", '"kind": "Const"', '"kind": "?"'),
    ("LogicalOperator", RETURN, '{"k": "Logical", "operator": "?", "test": 0, "fallthrough": 0, "id": 5}'),
    ("GotoVariant", RETURN, '{"k": "Goto", "block": 0, "variant": "?", "id": 5}'),
]
EFFECTS = [("Effect", '"Freeze"', '"?"')]


def content(file):
    with open(f"{HERE}/{file}", "rb") as it:
        return it.read()


def unescaped(text):
    """The bytes of a text with escapes."""
    return codecs.escape_decode(text.encode())[0]


def changed(document, part, by):
    """A document with one part in the place of another one."""
    if part == b"$":
        return by
    if part == b"^":
        return by + document
    if part not in document:
        raise ValueError(f"{part} isn't in the document")
    return document.replace(part, by, 1)


def known(schema):
    """The variants of a type that are objects, and then those that are texts, as the schema has them."""
    variants = schema.get("else", schema).get("properties", {}).get("k", {}).get("enum", [])
    return [*variants, *schema.get("then", schema).get("enum", [])]


def unknown_words(document):
    """The document with an unknown word of each type; standard error must name all that the type has."""
    with open(SCHEMA) as it:
        types = json.load(it)["$defs"]
    for sort, places in ("variant", VARIANTS), ("word", WORDS), ("effect", EFFECTS):
        for name, part, by in places:
            words = f'unknown {sort} "?"; the {sort}s are {", ".join(known(types[name]))}\n'
            yield f"an unknown {name}", changed(document, part.encode(), by.encode()), 4, [words.encode()]


def texts():
    """The name of each mistake, its bytes, the status that is due, and the words that standard error must have."""
    document = content("documents/lines/each-field.json")
    for line in content("mistakes").decode().splitlines():
        if line and not line.startswith("#"):
            status, part, by, *words = line.split("\t")
            text = changed(document, unescaped(part), unescaped(by))
            yield f"{by} for {part}", text, int(status), [unescaped(word) for word in words]
    yield from unknown_words(document)
    words = b"more than 127 levels of arrays and objects, which aren't read, at line 1 column 129"
    for depth in DEPTHS:
        yield f"{depth} nested arrays", b"[" * depth + b"]" * depth, 3, [words]
