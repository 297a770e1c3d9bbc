"""How many instructions each phase of `rc tree` takes, as callgrind counts them, with those of the functions that are
called. A phase is a function of the program that isn't inlined."""
import os, re, subprocess, tempfile

PROGRAM = f"{os.path.dirname(os.path.dirname(os.path.abspath(__file__)))}/crates/rc_main/out/rc_main"
# Each phase with the function that is it.
PHASES = {
    "loading": r"rc_program::load::document",
    "reading": r"rc_doc::document::DocRead::read",
    "freeing": r"rc_program::serde_json\+\+value\+\+Value\+Destruct::drop",
    "building": r"rc_build::builder::Builder::build_list",
    "passes": r"rc_pipe::passes::prune",
    "lines": r"rc_lines::statement::write_block",
}


def counted(data):
    """The instructions of each phase, and of the whole, on a document with these bytes. Parsing is what loading takes
    beside reading the value and freeing it."""
    with tempfile.TemporaryDirectory() as room:
        path, counts = f"{room}/document.json", f"{room}/counts"
        with open(path, "wb") as file:
            file.write(data)
        words = ["valgrind", "--tool=callgrind", f"--callgrind-out-file={counts}", PROGRAM, "tree"]
        with open(path, "rb") as file:
            run = subprocess.run(words, stdin=file, stdout=subprocess.DEVNULL, stderr=subprocess.DEVNULL)
        assert run.returncode in (0, 5)
        words = ["callgrind_annotate", "--inclusive=yes", "--threshold=100", counts]
        text = subprocess.run(words, stdout=subprocess.PIPE, stderr=subprocess.DEVNULL, text=True, check=True).stdout
    found = {"whole": int(re.search(r"([\d,]+) .*PROGRAM TOTALS", text).group(1).replace(",", ""))}
    for phase, name in PHASES.items():
        line = re.search(rf"^\s*([\d,]+) .*\?\?\?:{name} \[", text, re.MULTILINE)
        found[phase] = int(line.group(1).replace(",", "")) if line else 0
    found["parsing"] = found["loading"] - found["reading"] - found["freeing"]
    return found
