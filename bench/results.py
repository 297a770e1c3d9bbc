"""The measures of docs/benchmarks.tsv: a row for each, with the commit of the program that was measured."""
import csv, os, subprocess

TOP = os.path.dirname(os.path.dirname(os.path.abspath(__file__)))
PATH = f"{TOP}/docs/benchmarks.tsv"
COLUMNS = ("part", "case", "size", "measure", "value", "commit")


def read():
    """The rows that are stored, as dictionaries."""
    with open(PATH, newline="") as file:
        return list(csv.DictReader(file, delimiter="\t", quoting=csv.QUOTE_NONE))


def commit():
    """The commit of the program that is measured."""
    words = ["git", "describe", "--always", "--dirty"]
    return subprocess.run(words, cwd=TOP, stdout=subprocess.PIPE, text=True, check=True).stdout.strip()


def replace(part, rows):
    """Puts rows (case, size, measure, value) in the place of those of a part."""
    text = commit()
    new = [dict(zip(COLUMNS, (part, *row, text))) for row in rows]
    kept = [row for row in read() if row["part"] != part]
    with open(PATH, "w", newline="") as file:
        out = csv.DictWriter(file, COLUMNS, delimiter="\t", quoting=csv.QUOTE_NONE, quotechar=None, lineterminator="\n")
        out.writeheader()
        out.writerows(kept + new)
