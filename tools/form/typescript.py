"""The types of a document and of an answer for TypeScript."""
import textwrap
import type_table
from type_table import meaning, sentence

WIDTH = 120
HEAD = """\
// The types of the documents and answers of rc. tools/form/write makes this file.
//
// A document may leave out a field that is empty, false or null, or spell it out. An answer has one form: it leaves out
// a field that would be null, and no other. So there are two types of each part, for what is read and what is printed.
// `rc json` prints an answer; docs/ANSWER.md says how its two tables of blocks and values are read.

export type Document = Read.Document;
export type Answer = Printed.Answer;
"""
FIXED = """\
  /** Start and end in the source. */
  export type Span = [start: number, end: number];

  /** A use of an identifier; its number alone means effect Read, not reactive and no span. */
  export type Place = IdentifierId | [identifier: IdentifierId, effect: Effect, reactive: boolean, span?: Span];
"""


def comment(text, indent=""):
    """A comment, on a line if it fits there."""
    line = f"{indent}/** {text} */"
    if len(line) <= WIDTH:
        return line
    inner = f"{indent} * "
    return f"{indent}/**\n{textwrap.fill(text, WIDTH, initial_indent=inner, subsequent_indent=inner)}\n{indent} */"


def form_of(form):
    """The type of a form that isn't optional."""
    list_ = type_table.list_of(form)
    if list_:
        return f"{form_of(list_[1])}[]"
    return {"Text": "string", "bool": "boolean"}.get(form, form)


def words_of(type_):
    return [f'"{it.name}"' for it in type_.plain()]


def named(type_, variant):
    return f"{type_.name}_{variant.name}"


def union(name, parts):
    """A type that is one of several, on a line if they fit there."""
    line = f"  export type {name} = {' | '.join(parts)};"
    if len(line) <= WIDTH:
        return [line]
    return [f"  export type {name} =", *(f"    | {it}" for it in parts[:-1]), f"    | {parts[-1]};"]


class Types:
    """The types of the printing form, where they are exact, or else of what rc reads."""

    def __init__(self, is_exact):
        self.is_exact = is_exact

    def field(self, field):
        may_miss = field.is_optional if self.is_exact else field.may_miss()
        null = " | null" if field.is_optional and not self.is_exact else ""
        line = f"    {field.key}{'?' * may_miss}: {form_of(field.form)}{null};"
        return line if field.key == "v" else f"{comment(sentence(field.means), '    ')}\n{line}"

    def interface(self, name, means, fields, tag=()):
        return [comment(means, "  "), f"  export interface {name} {{", *tag, *map(self.field, fields), "  }"]

    def variants(self, type_):
        """The types of the variants with fields, each after an empty line."""
        for variant in type_.tagged():
            tag = [f'    k: "{variant.name}";']
            yield from ["", *self.interface(named(type_, variant), sentence(variant.means), variant.fields, tag)]

    def enum(self, type_):
        also = [it.name for it in type_.also]
        parts = [*words_of(type_), *also, *(named(type_, it) for it in type_.tagged())]
        return [comment(meaning(type_), "  "), *union(type_.name, parts), *self.variants(type_)]

    def of(self, type_):
        if type_.kind == "struct":
            return self.interface(type_.name, meaning(type_), type_.fields)
        if type_.kind == "enum":
            return self.enum(type_)
        form = "number" if type_.kind == "number" else form_of(type_.form)
        return [comment(meaning(type_), "  "), *union(type_.name, [form])]

    def namespace(self, name, means, types):
        """A namespace with these types."""
        parts = ["\n".join(self.of(it)) for it in types]
        return "\n".join([comment(means), f"export namespace {name} {{", "\n\n".join([FIXED.rstrip(), *parts]), "}"])


def text():
    """The whole file."""
    read = Types(is_exact=False).namespace("Read", "What rc reads.", type_table.document())
    printed = Types(is_exact=True).namespace("Printed", "The printing form.", type_table.answer())
    return "\n".join([HEAD, f"{read}\n", f"{printed}\n"])
