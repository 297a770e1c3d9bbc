"""Texts that are no document, with the status that is due. Nothing is printed for any of them."""
import json, os

TOP = os.path.dirname(os.path.dirname(os.path.abspath(__file__)))

NO_JSON = [
    b"",
    b" ",
    b"tree",
    b"{} {}",
    b"{}x",
    b"[1,]",
    b'{"hir":1e400}',
    b"\xff",
    b'{"hir":"\xff"}',
    b"\xef\xbb\xbf{}",
    b'"\\ud800"',
    b'"a\nb"',
    b"[" * 128 + b"]" * 128,
]

OTHER_JSON = [
    "{}",
    "null",
    "true",
    "0",
    '"tree"',
    "[]",
    '{"hir":{},"env":{}}',
    '{"hir":null,"env":null}',
    "[" * 127 + "]" * 127,
]

# Values that are no whole numbers below 2^32, and fields of the small document, each with its number.
NO_NUMBERS = ["1.0", "1e0", "-0", "-1", "4294967296", "18446744073709551616", '"1"', "null"]
NUMBERS = [("v", "0"), ("entry", "0"), ("id", "1"), ("declaration_id", "0"), ("next_block", "1")]

# Parts of the document with each field, each with a text that isn't of its type.
WRONG_PARTS = [
    ('"span":[0,99]', '"span":[0]'),
    ('"id":"f"', '"id":1'),
    ('"name_hint":"g"', '"name_hint":[]'),
    ('"params":[', '"params":[null,'),
    ('{"k":"Place","v":0}', '0'),
    ('{"k":"Spread","v":{"place":1}}', '{"k":"Spread","v":1}'),
    ('"generator":true', '"generator":1'),
    ('"is_async":true', '"is_async":"true"'),
    ('"context":[2]', '"context":2'),
    ('"entry":0', '"entry":"0"'),
    ('"key":0', '"key":false'),
    ('"instructions":[0,1,2,3]', '"instructions":{}'),
    ('"instructions":[0,1,2,3]', '"instructions":[0,1,2,"3"]'),
    ('"k":"Return"', '"k":"Answer"'),
    ('[4,"Freeze",false,[90,91]]', '[4,"Freeze",false,[90,91],0]'),
    ('[4,"Freeze",false,[90,91]]', '[4,"Frozen",false,[90,91]]'),
    ('[4,"Freeze",false,[90,91]]', '[4,"Freeze",0,[90,91]]'),
    ('[4,"Freeze",false,[90,91]]', '[4,"Freeze",false,null]'),
    ('"id":5,"span":[90,92]', '"id":5,"span":[90,"92"]'),
    ('"id":5', '"id":null'),
    ('"lvalue":3', '"lvalue":null'),
    ('"k":"LoadLocal"', '"k":"LoadAll"'),
    ('"place":[0,"Read",true]', '"place":[0,"Read"]'),
    ('"span":[10,11]', '"span":10'),
    ('"span":[10,12]', '"span":{}'),
    ('"kind":"Const"', '"kind":0'),
    ('"kind":"Const"', '"kind":"const"'),
    ('"place":4', '"place":{}'),
    ('"value":3', '"value":"3"'),
    ('{"k":"Number","v":"1"}', '1'),
    ('{"k":"Number","v":"1"}', '{"k":"Number","v":1}'),
    ('{"k":"Number","v":"1"}', '{"k":"Null"}'),
    ('{"k":"Debugger","span":[40,41]}', '"Debugger"'),
    ('"directives":["use memo"]', '"directives":[0]'),
    ('"identifiers":[', '"identifiers":[0,'),
    ('{"k":"Named","v":"a"}', '"a"'),
    ('{"k":"Promoted","v":"b"}', '{"k":"Promoted","v":null}'),
    ('"scope":null', '"scope":[]'),
    ('"declaration_id":3', '"declaration_id":[3]'),
    ('"declaration_id":3,"type_":0', '"declaration_id":3,"type_":"Other"'),
    ('"types":["Other"]', '"types":"Other"'),
    ('"types":["Other"]', '"types":["other"]'),
    ('"scopes":[]', '"scopes":[0]'),
    ('"functions":[]', '"functions":{}'),
    ('"shapes":[]', '"shapes":[[]]'),
    ('"enable_forest":true', '"enable_forest":null'),
    ('"enable_forest":true', '"enable_forest":[]'),
]


def content(file):
    with open(f"{TOP}/{file}") as it:
        return it.read().rstrip()


def compact(file):
    """The document of a file without spaces between its parts."""
    return json.dumps(json.loads(content(file)), separators=(",", ":"))


def replaced(text, part, by):
    if part not in text:
        raise ValueError(f"{part} isn't in the document")
    return text.replace(part, by, 1)


def wrong_documents():
    """The document with each field, with one wrong part in the place of the right one."""
    full = compact("tests/documents/lines/each-field.json")
    for part, by in WRONG_PARTS:
        yield f"the document with each field with {by} for {part}", replaced(full, part, by)
    for index, character in enumerate(full):
        if character == "{":
            text = f'{full[:index + 1]}"other":0,{full[index + 1:]}'
            yield f"the document with each field with another key at {index}", text


def texts():
    """The name of each text, its bytes, and the status that is due."""
    whole = content("examples/one-parameter.json")
    for length in range(len(whole)):
        yield f"the first {length} bytes of a document", whole[:length].encode(), 3
    for text in NO_JSON:
        yield f"the bytes {text[:40]}", text, 3
    for text in OTHER_JSON:
        yield f"the JSON {text[:40]}", text.encode(), 4
    small = compact("examples/one-parameter.json")
    for key, number in NUMBERS:
        for other in NO_NUMBERS:
            text = replaced(small, f'"{key}":{number}', f'"{key}":{other}')
            yield f"a document with {other} for the number of {key}", text.encode(), 4
    twice = replaced(small, '"next_block":1', '"next_block":1,"next_block":null')
    yield "a document whose last next_block is null", twice.encode(), 4
    for name, text in wrong_documents():
        yield name, text.encode(), 4
