#!/usr/bin/env python3
"""Compares the calls that the crates export with those of .ci/signatures, whose signatures are settled. Others are free.

usage: .ci/signatures.py [--all]

A signature is on a line, after the type, the trait or the public module that the call belongs to. With --all this
prints all that are exported."""
import os, re, sys

TOP = os.path.dirname(os.path.dirname(os.path.abspath(__file__)))
# A function as far as its clauses or its body, and the head of a trait or of a type's own methods.
FUNCTION = re.compile(r"(pub )?(?:final )?fn (\w+.*?)(?=\n\s*(?:requires|ensures)\W|\n\s*where\b|\s*[{;])", re.DOTALL)
HOLDER = re.compile(r"^(?:pub )?(?:(trait) |impl(?:<[^{]*?>)? )(\w+)(?![^{]* for )[^{]*\{", re.MULTILINE)
# A text or a character, which may be a brace.
TEXT = re.compile(r"""b?"(?:\\.|[^"\\])*"|b?'(?:\\.|[^'\\])'""")


def sources(place):
    """The texts of a file or of the files below a folder, without comments and without what texts and characters are."""
    files = [place] if os.path.isfile(place) else [
        f"{folder}/{name}" for folder, _, names in os.walk(place) for name in sorted(names) if name.endswith(".rt")
    ]
    for path in files:
        with open(path) as file:
            yield TEXT.sub('""', re.sub(r"//[^\n]*", "", file.read()))


def one_line(function):
    line = re.sub(r"\s+", " ", function).strip()
    return line.replace("( ", "(").replace(", )", ")").replace(",)", ")")


def inside(text, start):
    """What stands from an opening brace up to the one that closes it."""
    depth = end = 1
    while depth:
        depth += {"{": 1, "}": -1}.get(text[start + end], 0)
        end += 1
    return text[start + 1 : start + end]


def taken_apart(text):
    """The signatures in a file: those of its public functions by name, and those of each type and trait by its name."""
    functions, holders = {}, []
    for found in reversed(list(HOLDER.finditer(text))):
        body = inside(text, found.end() - 1)
        calls = [call for is_public, call in FUNCTION.findall(body) if is_public or found.group(1)]
        holders += [(found.group(2), one_line(call)) for call in calls]
        text = text[: found.start()] + text[found.end() + len(body) :]
    for is_public, call in FUNCTION.findall(text):
        if is_public:
            functions[re.match(r"\w+", call).group()] = one_line(call)
    return functions, holders


def exported(root, folder, prefix=""):
    """The signatures that a module exports: its own, those that it names by `pub use`, and those of its public modules."""
    [text] = sources(root)
    own, _ = taken_apart(text)
    named = set(re.findall(r"\w+", " ".join(re.findall(r"pub use ([^;]*);", text))))
    for part in sources(folder):
        functions, holders = taken_apart(part)
        yield from (f"{prefix}{call}" for name, call in functions.items() if name in named)
        yield from (f"{holder}::{call}" for holder, call in holders if holder in named)
    yield from (f"{prefix}{call}" for call in own.values())
    for module in re.findall(r"pub mod (\w+);", text):
        yield from exported(f"{folder}/{module}.rt", f"{folder}/{module}", f"{prefix}{module}::")


def main(words):
    crates = sorted(name for name in os.listdir(f"{TOP}/crates") if not name.endswith("_tests") and name != "rc_main")
    found = {
        line for name in crates for line in exported(f"{TOP}/crates/{name}/src/lib.rt", f"{TOP}/crates/{name}/src")
    }
    if words == ["--all"]:
        print(*sorted(found), sep="\n")
        return 0
    with open(f"{TOP}/.ci/signatures") as file:
        listed = [line.rstrip("\n") for line in file if line.strip() and not line.startswith("#")]
    missing = [line for line in listed if line not in found]
    for line in missing:
        print(f"FAILED: no crate exports {line}")
    return len(missing) > 0


if __name__ == "__main__":
    sys.exit(main(sys.argv[1:]))
