"""Prints the tables of docs/DESIGN-PASS.md that set old and new side by side, by the toolchain's contracts.py.

usage: python3 tools/beside.py OLD NEW, two checkouts of this repository
"""

import collections
import re
import sys

sys.path.insert(0, "/opt/rattle/port")
import contracts  # noqa: E402


def cell(text):
    text = re.sub(r"\s+", " ", text).strip().replace("|", "\\|").replace("`", "'")
    return f"`{text}`" if text else ""


def table(title, first, rows):
    print(f"## Old and new: {title}\n\n| {first} | Old | New |\n|---|---|---|")
    for row in rows:
        print(f"| {' | '.join(map(cell, row))} |")
    print()


def public(checkout):
    """The names of the checkout's public functions, as contracts.compare has them."""
    functions = contracts.read(checkout)[1]
    return {" ".join(filter(None, place)) for place, found in functions.items() for f in found if f["pub"]}


def place(name):
    return name.replace("src/", "").replace(".rt", "")


def only(clauses, others):
    """The clauses of one side that the other doesn't have."""
    words = ("requires", "ensures")
    pairs = [(word, c) for word, cs, os in zip(words, clauses, others) for c in cs if c not in os]
    return " ".join(f"{word} {label} {{ {text} }}" for word, (label, text) in pairs)


def spelt(text):
    """A definition with mathlib's Option spelt as the library's, without the words before its name."""
    text = re.sub(r"\bsome\b", "Some", re.sub(r"\bnone\b", "None", text))
    return re.sub(r"^((abbrev|unfoldable|pub) )+", "", text)


def texts(found):
    return found if isinstance(found, list) else [found]


def main(old, new):
    report = contracts.compare(old, new)
    known = public(old)
    signatures = [row for row in report["signatures changed"] if row[0] in known]
    table("signatures of public functions", "Function, where it stood", [(place(n), a, b) for n, a, b in signatures])
    changed = [row for row in report["contracts changed"] if row[0] in known]
    clauses = [(place(n), only((q, e), (r, f)), only((r, f), (q, e))) for n, q, e, r, f in changed]
    table("clauses of public functions", "Function, where it stood", [row for row in clauses if any(row[1:])])
    alike, differing = collections.defaultdict(list), []
    for crate, name, a, b in report["definitions"]["changed"]:
        a, b = texts(a), texts(b)
        if list(map(spelt, a)) == list(map(spelt, b)):
            alike[crate].append(name)
        else:
            left, right = [t for t in a if t not in b], [t for t in b if t not in a]
            differing.append((f"{crate} {name}", " ; ".join(left), " ; ".join(right)))
    table("definitions and statements of specs/", "Definition", differing)
    print("These differ by the library's `Some` and `None` alone, in place of mathlib's:\n")
    print("| Crate | Definitions |\n|---|---|")
    for crate, names in sorted(alike.items()):
        print(f"| {crate} | {', '.join(map(cell, sorted(names)))} |")


main(*sys.argv[1:3])
