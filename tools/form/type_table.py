"""Reads document.types and answer.types: the types of a document and of an answer."""
import os, re

HERE = os.path.dirname(os.path.abspath(__file__))
LISTS = re.compile(r"(Table|Keyed|NonEmpty|)\[(.*)\]")


class Field:
    """A field of a struct or of a variant: its key, its form, and what it means."""

    def __init__(self, key, form, means):
        self.key, self.means = key, means
        self.is_optional = form.endswith("?")
        self.form = form.removesuffix("?")

    def may_miss(self):
        """Whether a document may leave the field out: not a map of blocks by their keys."""
        return self.is_optional or self.form == "bool" or self.form.startswith(("[", "Table["))


class Variant:
    """A variant of an enum, with its fields; one without any is its name as a string."""

    def __init__(self, name, means, fields):
        self.name, self.means, self.fields = name, means, fields


class Type:
    """A kind of number, a list, a struct with its fields, or an enum with its variants."""

    def __init__(self, kind, name, form, means):
        self.kind, self.name, self.form, self.means = kind, name, form, means
        self.fields, self.variants, self.also = [], [], []

    def plain(self):
        """The variants without fields."""
        return [it for it in self.variants if not it.fields]

    def tagged(self):
        """The variants with fields, which `k` names."""
        return [it for it in self.variants if it.fields]

    def choices(self):
        """The type of each variant that `k` can name: another enum's too, where a value may be one of those."""
        return [*(pair for other in self.also for pair in other.choices()), *((self, it) for it in self.tagged())]


def sentence(text):
    return f"{text[0].upper()}{text[1:]}."


def meaning(type_):
    """What a type means, and each of its variants that is a name."""
    return " ".join([sentence(type_.means), *(f"{it.name}: {it.means}." for it in type_.plain())])


def list_of(form):
    """The word before a list's bracket and the form of its entries, if this is the form of a list."""
    found = LISTS.fullmatch(form)
    return found and found.groups()


def field_of(line):
    key, form, means = re.fullmatch(r"(\w+) (\S+): (.*)", line).groups()
    return Field(key, form, means)


def variant_of(line):
    name, form, means = re.fullmatch(r"(\w+)(?:\((\S+)\))?: (.*)", line).groups()
    return Variant(name, means, [Field("v", form, means)] if form else [])


def lines(file):
    """The lines with a meaning, each with the number of spaces before it."""
    with open(f"{HERE}/{file}") as it:
        for line in it:
            text = line.strip()
            if text and not text.startswith("#"):
                yield len(line) - len(line.lstrip()), text


def add_to(type_, depth, line):
    """Adds a field or a variant to the type, or a field to its last variant."""
    if depth == 4:
        type_.variants[-1].fields.append(field_of(line))
    elif line == "each":
        type_.variants.append(Variant("each", "", []))
    elif line.startswith("also "):
        type_.also.append(line.removeprefix("also "))
    elif type_.kind == "struct":
        type_.fields.append(field_of(line))
    else:
        type_.variants.append(variant_of(line))


def share_fields(type_):
    """Gives the fields below `each` to every variant, after its own."""
    if type_.variants and type_.variants[0].name == "each":
        shared = type_.variants.pop(0).fields
        for variant in type_.variants:
            variant.fields += shared


def types_in(file):
    """The types of a file, in their order."""
    found = []
    for depth, line in lines(file):
        if depth == 0:
            head = re.fullmatch(r"(number|list|struct|enum) (\w+)(?: (\S+))?: (.*)", line)
            found.append(Type(*head.groups()))
        else:
            add_to(found[-1], depth, line)
    for type_ in found:
        share_fields(type_)
    return found


def document():
    """The types of a document; Document is one of them."""
    return types_in("document.types")


def answer():
    """The types of an answer, its own first; Answer is one of them."""
    types = [*types_in("answer.types"), *(it for it in document() if it.name != "Document")]
    named = {it.name: it for it in types}
    for type_ in types:
        type_.also = [named[name] for name in type_.also]
    return types
