"""Changes of a valid value in one place, by which .ci/schema tries a schema. Each change is made, named, and undone."""

# The keys at which a word of a type is, and no text of a user. Words are in lists too.
WORDS = {"k", "kind", "variant", "fate", "target_kind"}


def places(value):
    """Each entry of the objects and arrays of a value: the one that holds it, and its key or index."""
    entries = value.items() if isinstance(value, dict) else enumerate(value) if isinstance(value, list) else []
    for key, part in list(entries):
        yield value, key
        yield from places(part)


def is_number(value):
    return isinstance(value, int) and not isinstance(value, bool)


def put(holder, key, other):
    """Has another value in that place, and names it, until the next step."""
    before = holder[key]
    holder[key] = other
    yield f"{key}: {other!r}"
    holder[key] = before


def misspelt(value):
    """Another word, or another form, in one place after the other."""
    for holder, key in places(value):
        before = holder[key]
        if isinstance(before, dict):
            yield from put(holder, key, [])
        elif isinstance(before, str) and (key in WORDS or isinstance(holder, list)):
            yield from put(holder, key, f"{before}x")


def long_places(value):
    """An array in the place of one number after the other, as of a place that needs none."""
    for holder, key in places(value):
        if is_number(holder[key]):
            yield from put(holder, key, [holder[key], "Read", False])


def left_out(value, optional):
    """Without one list or flag after the other, but at the keys that an object may do without."""
    for holder, key in places(value):
        if isinstance(holder, dict) and isinstance(holder[key], (list, bool)) and key not in optional:
            before = holder.pop(key)
            yield f"without {key}"
            holder[key] = before
