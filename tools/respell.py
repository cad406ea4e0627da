#!/usr/bin/env python3
"""Spells this repository's own definitions and lemmas in snake case: `mergedWith` becomes `merged_with`, `left-refused`
becomes `left_refused`. It ran once, after the toolchain's port.py (docs/PORT.md), and writes nothing a second time.

usage: tools/respell.py [--check]      at the top of the repository; --check only lists the names and where they meet

What turns, as whole words: a name in camel case that begins small, and a name with a dash that a file of specs/ or a
lemma file of proofs/ declares. A name that a library declares stays, as do strings and the names of Rust's functions.
Turned are the .antt, .rt and .edit files of crates/, and the code spans of README.md and docs/.
"""
import os
import re
import sys

WORD = re.compile(r"[^\s(){}\[\]|.;,@\"«»`:⟦⟧⌜⌝*/+<>=&!?]+")
CAMEL = re.compile(r"[a-z][a-z0-9]*(?:[A-Z][a-z0-9]*)+'*$")
DECLARED = re.compile(r"(?m)^ *(?:(?:pub|abbrev|unfoldable|data|record|postulate|where|\|) +)*([^\s(){}.;,:]+)(?: \{[^{}\n]*\})*(?: \([^()\n]*\))* :(?: |$)")
IMPORT = re.compile(r"\buse ([^\s;{]+?)\.?\{([^}]*)\}|\buse ([^\s;{]+)\.([^\s;.{]+)")
SPAN = re.compile(r"`[^`\n]+`")
STRING = re.compile(r'b?"(?:[^"\\\n]|\\.)*"')


def snake(name):
    return re.sub(r"(?<=[a-z0-9])[A-Z]", lambda m: "_" + m[0].lower(), name).replace("-", "_")


def files(ends):
    for folder, dirs, names in os.walk("crates"):
        dirs[:] = sorted(d for d in dirs if d != "out")
        for n in sorted(names):
            if n.endswith(ends):
                yield os.path.join(folder, n)


def text(path):
    with open(path, encoding="utf-8") as f:
        return f.read()


def own(path):
    """A file of definitions or of lemmas: right in specs/ or proofs/."""
    return re.fullmatch(r"crates/\w+/(specs|proofs)/\w+\.antt", path)


def names():
    crates = set(os.listdir("crates"))
    declared, lent, camel = set(), set(), set()
    for p in files((".antt", ".rt")):
        t = text(p)
        if own(p):
            declared |= set(DECLARED.findall(t))
        for m in IMPORT.finditer(t):
            steps = (m[1] or m[3]).split(".")
            if steps[0] == "Rattle" and len(steps) > 1 and steps[1] in crates:
                continue
            lent |= {w.split(" as ")[0].strip() for w in (m[2] or m[4]).split(",")}
        camel |= {w for w in WORD.findall(t) if CAMEL.match(w)}
    dashed = {n for n in declared if "-" in n and re.fullmatch(r"[A-Za-z0-9][A-Za-z0-9'_-]*", n)}
    return {n: snake(n) for n in (camel | dashed) - lent}, declared


def meeting(olds, new, declared):
    """The lemma, field or constructor that would have a definition's name gets another."""
    for old in olds:
        if "-" in old and (len(olds) > 1 or new in declared):
            yield old, OTHER.get(old, new + "_lem")
        elif new in declared:
            yield old, new
            yield new, new + "_lem"


# Not lemmas: constructors of a question, and fields of definitions.
OTHER = {
    "get-supertype": "get_supertype_call",
    "materialize-unknown": "materialize_unknown_call",
    "merge-all": "merge_all_call",
    "is-listed": "is_listed_kind",
    "in-range": "is_in_range",
}


def apart(table, declared):
    back = {}
    for old, new in table.items():
        back.setdefault(new, []).append(old)
    for new, olds in back.items():
        table.update(meeting(olds, new, declared))


STARRED = re.compile(r"(requires|ensures)\*( \w+)? \{ do\b(.*?)⌜(.*?)⌝ *\}", re.S)
CONSTANT = re.compile(r"(\w+) ← \(?⟦(\w+)::(\w+)⟧\)?(?:\.entry)?$")


def plain(m):
    """A starred clause that reads constants and states one fact becomes a plain one: `Flat.MAX_NODES` where it had a name
    for `⟦Flat::MAX_NODES⟧`, and each `let` with its `in`."""
    steps, fact = [], m[4].strip()
    for line in m[3].strip().split("\n"):
        if re.match(r"\s*(let \S+ =|\w+ ←)", line) or not steps:
            steps.append(line.strip())
        else:
            steps[-1] += " " + line.strip()
    lets, values = [], {}
    for s in steps:
        c = CONSTANT.match(s)
        if c:
            values[c[1]] = f"{c[2]}.{c[3]}"
        elif s.startswith("let "):
            lets.append(s)
        elif s:
            return m[0]
    body = "".join(f"{s} in\n" for s in lets) + fact
    if "∗" in body:
        return m[0]
    for name, value in values.items():
        body = re.sub(rf"(?<![\w.'-]){name}(?![\w'-])", value, body)
    body = re.sub(r"\b(\w+)\.entry\.now\b", r"\1.old", body)
    body = re.sub(r"\b(\w+)\.exit\.now\b", r"\1.new", body)
    return f"{m[1]}{m[2] or ''} {{ {body} }}"


def turn(t, table):
    return WORD.sub(lambda m: table.get(m[0], m[0]), t)


def turned(path, t, table):
    if path.endswith(".md"):
        return SPAN.sub(lambda m: turn(m[0], table), t)
    if path.endswith(".rt"):
        t = STARRED.sub(plain, t)
        out, at = [], 0
        for m in STRING.finditer(t):
            out += [turn(t[at : m.start()], table), m[0]]
            at = m.end()
        return "".join(out) + turn(t[at:], table)
    return turn(t, table)


def meetings(table, declared):
    """Two names that become one, and a name whose new spelling something already has."""
    back = {}
    for old, new in table.items():
        back.setdefault(new, []).append(old)
    for new, olds in sorted(back.items()):
        if len(olds) > 1 or new in declared:
            yield f"meets: {' '.join(sorted(olds))} -> {new}" + (" (declared already)" if new in declared else "")
    for p in files((".rt",)):
        t = text(p)
        for m in re.finditer(r"\bfn (\w+)\s*(?:<[^>]*>)?\(([^)]*)\)", t):
            for w in re.findall(r"(\w+)\s*:", m[2]):
                if w in back:
                    yield f"hides: {p}: fn {m[1]}: parameter {w} is spelled like {' '.join(back[w])}"


def main():
    table, declared = names()
    for line in sorted(set(meetings(table, declared))):
        print(line)
    apart(table, declared)
    if "--check" in sys.argv:
        print("\n".join(f"{a}\t{b}" for a, b in sorted(table.items())))
        return
    docs = ["README.md"] + [os.path.join(d, n) for d, _, ns in os.walk("docs") for n in ns if n.endswith(".md")]
    for p in list(files((".antt", ".rt", ".edit"))) + docs:
        t = text(p)
        new = turned(p, t, table)
        if new != t:
            with open(p, "w", encoding="utf-8") as f:
                f.write(new)


main()
