#!/usr/bin/env python3
"""Brings the repository's own definitions and lemmas to the spelling of today's Rattle; run once, at the top, after port.py.

Words are in snake case, types in upper camel case. A name is the repository's own where it is declared in specs/ or in a
file right in proofs/; there, in the sources' clauses, in the proofs, in the must-fail edits and in the pages' code it is
respelled. `ground`, a tactic today, is `third_ground`; `bit-or` and `bit-and` would fall together with words of std, and `Maps-made` with a struct. Generated names and Rust's names stay as they are.
"""
import os
import re
import sys

TOKEN = re.compile(r"[^\s(){}\[\];,.\"«»`]+")
DECL = re.compile(r"^\s*(?:(?:pub|abbrev|unfoldable)\s+)*([^\s:(){}\[\]|=;]+(?:\s+[^\s:(){}\[\]|=;]+)*)(?:\s+\{[^}]*\})*\s+:(?:\s+(.*))?$")
BINDER = re.compile(r"[({]([^\s:(){},;=]+(?:\s+[^\s:(){},;=]+)*)\s+:\s")
ALIAS = re.compile(r"\bas ([^\s,}]+)")
IMPORT = re.compile(r"use ([^\s{]+)\.\{([^}]*)\}")
SHAPE = re.compile(r"^\s*(?:pub\s+)?(?:data|record)\s+([^\s:(){}]+)")
WORDS = {"ground": "third_ground", "bit-or": "bit_of_or", "bit-and": "bit_of_and", "Maps-made": "MakesMaps"}


def walk(root, *ends):
    for folder, dirs, files in os.walk(root):
        dirs[:] = sorted(d for d in dirs if d not in ("out", ".git", "target"))
        for f in sorted(files):
            if f.endswith(ends):
                yield os.path.join(folder, f)


def is_own(path):
    """A file of specs/, or one that lies right in proofs/."""
    return "/specs/" in path or os.path.basename(os.path.dirname(path)) == "proofs"


def read(path):
    with open(path, encoding="utf-8") as f:
        return f.read()


def declared(root):
    """Each own name, and whether it is a type."""
    names = {}
    for path in walk(os.path.join(root, "crates"), ".antt"):
        if not is_own(path):
            continue
        for line in read(path).split("\n"):
            code = line.split("--")[0] if line.lstrip().startswith("--") else line
            shape = SHAPE.match(code)
            if shape:
                names[shape[1]] = True
                continue
            for name in " ".join(BINDER.findall(code)).split():
                if "-" in name:
                    names.setdefault(name, False)
            for name in ALIAS.findall(code) if code.startswith("use ") else []:
                if "-" in name:
                    names.setdefault(name, name[:1].isupper())
            it = DECL.match(code)
            if it:
                for name in it[1].split():
                    names.setdefault(name, False)
                    if re.search(r"(^|\s)Type [01]\s*(where)?$", it[2] or "") and re.match(r"[A-Z][a-z]", name):
                        names[name] = True
    return names


def foreign(text, crates):
    """The names that a file imports from the library: they are not this repository's."""
    out = set()
    for path, them in IMPORT.findall(text):
        if not re.match(r"Rattle\.(" + "|".join(crates) + r")\.", path):
            out |= {n.split(" as ")[0].strip() for n in them.split(",")}
    return out


def spelled(name, is_type):
    if is_type:
        head, *rest = re.split(r"-", name)
        return head + "".join(w[:1].upper() + w[1:] for w in rest)
    return re.sub(r"(?<=[\w'])-(?=[\w'])", "_", name)


def turned(text, table):
    return TOKEN.sub(lambda it: table.get(it[0], it[0]), text)


def line_of_code(line, table, mark):
    """A line with its names turned; a comment keeps the words that are plain English."""
    code, sep, comment = line.partition(mark)
    dashed = {k: v for k, v in table.items() if "-" in k}
    return turned(code, table) + sep + turned(comment, dashed)


def antt(text, table):
    return "\n".join(line_of_code(l, table, "-- ") for l in text.split("\n"))


def rt(text, table):
    """Only clauses and `ghost use` lines: elsewhere a name is Rust's."""
    out, depth = [], 0
    for line in text.split("\n"):
        clause = depth > 0 or re.match(r"\s*(ghost\b|requires\b|ensures\b|invariant\b)", line)
        if clause:
            depth = max(0, depth + line.count("{") - line.count("}"))
            out.append(line_of_code(line, table, "// "))
        else:
            out.append(line)
    return "\n".join(out)


def edit(text, table):
    out = []
    for line in text.split("\n"):
        head, sep, rest = line.partition(": ")
        out.append(head + sep + turned(rest, table) if head in ("old", "new") else line)
    return "\n".join(out)


def page(text, table):
    """Names between backticks, and lines of code blocks."""
    dashed = {k: v for k, v in table.items() if "-" in k}
    out, inside = [], False
    for line in text.split("\n"):
        if line.lstrip().startswith("```"):
            inside = not inside
        elif inside or line.startswith("    "):
            line = turned(line, dashed)
        else:
            line = re.sub(r"`[^`]*`", lambda it: turned(it[0], dashed), line)
        out.append(line)
    return "\n".join(out)


def main(root):
    names = declared(root)
    table = {n: spelled(n, t) for n, t in names.items()}
    # what port.py respelled is known by its new name: the edits and the pages still have the old one
    for n, t in list(names.items()):
        if "_" in n.strip("_") and n.replace("_", "-") not in names:
            table.setdefault(n.replace("_", "-"), n)
    for w, v in WORDS.items():
        table[w] = v
    table = {a: b for a, b in table.items() if a != b}
    fallen = {}
    for n in names:
        fallen.setdefault(table.get(n, n), set()).add(n)
    for n, them in fallen.items():
        if len(them) > 1:
            sys.exit(f"these names fall together as {n}: {sorted(them)}")
    crates = sorted(os.listdir(os.path.join(root, "crates")))
    written = 0
    for path in walk(root, ".antt", ".rt", ".edit", ".md"):
        text = read(path)
        if path.endswith(".antt"):
            own = {k: v for k, v in table.items() if k not in foreign(text, crates)}
            if not is_own(path):
                for line in text.split("\n"):
                    it = re.match(r"(\S+) : tie\.", line)
                    if it:
                        own.pop(it[1], None)
            new = antt(text, own)
        elif path.endswith(".rt"):
            new = rt(text, {k: v for k, v in table.items() if k not in foreign(text, crates)})
        elif path.endswith(".edit"):
            new = edit(text, table)
        else:
            new = page(text, table)
        if new != text:
            written += 1
            with open(path, "w", encoding="utf-8") as f:
                f.write(new)
    print(f"{len(table)} names, {written} files")


if __name__ == "__main__":
    main(sys.argv[1] if len(sys.argv) > 1 else ".")
