#!/usr/bin/env python3
"""Respells the names that this repository's own specs/ and proofs/ declare, after port.py has respelled the rest.

usage: python3 tools/respell.py [--check]      at the top of the repository; --check writes nothing

A name that begins with a small letter gets underscores for its dashes, one that begins with a capital is written in
camel case: `first-bad` becomes `first_bad`, `Keeps-run` becomes `KeepsRun`. Where a file cites a definition beside
the Rust function of its name, `_lem` tells the definition apart. Names declared in a function's own folder of proofs/
are not collected, since the toolchain makes them. A collected name is turned wherever it stands in .antt text and in the
ghost text of .rt files, so a name of the library or of the toolchain that is the same is turned too, and has to be
turned back. Strings and prose keep theirs; in comments and pages only what stands between backticks is respelled. Names
that would fall together, or onto a name that stands in the same file already, are listed and stop the run.
"""
import os
import re
import sys

PART = r"[A-Za-z0-9_'₀₁₂₃₄₅₆₇₈₉ℕ≡≤<+*]"
TOKEN = re.compile(rf"(?<![A-Za-z0-9_'-]){PART}+(?:-{PART}+)*")
HEAD = re.compile(r"^\s*((?:(?:abbrev|unfoldable|mutual|pub|data|record|ruleset)\s+)*)((?:[A-Za-z_][^\s(){}:.,;]*\s+)+)(?:[({].*[)}]\s*)?:(?:\s|$)")
MADE = ("Answers.antt", "Invariants.antt", "Choices.antt", "Proof.antt")
# Definitions that a file cites beside the Rust function of that name
BESIDE_A_FUNCTION = (
    "begins-statement", "count-fault", "end-effects", "end-value", "false-operand", "for-parts", "has-depth", "is-command", "is-constant", "is-label",
    "is-literal-row", "known-number", "largest-answer", "try-parts",
)


def files(endings, top="crates"):
    for folder, dirs, names in os.walk(top):
        dirs[:] = sorted(d for d in dirs if d not in ("out", ".git"))
        for name in sorted(names):
            if name.endswith(endings):
                yield os.path.join(folder, name)


def declared():
    names = set()
    for path in files((".antt",)):
        if os.path.basename(path) in MADE:
            continue
        for line in open(path, encoding="utf-8"):
            found = None if line.lstrip().startswith("--") else HEAD.match(line)
            if found and not line.lstrip().startswith("let "):
                names.update(n for n in found.group(2).split() if "-" in n)
    return names


def respelled(name):
    if name in BESIDE_A_FUNCTION:
        return name.replace("-", "_") + "_lem"
    if name[0].isupper():
        first, *rest = name.split("-")
        return first + "".join(w[0].upper() + w[1:] for w in rest)
    return name.replace("-", "_")


def turn(text, new):
    return TOKEN.sub(lambda m: new.get(m.group(0), m.group(0)), text)


def turn_ticked(text, new):
    return re.sub(r"`[^`\n]*`", lambda m: turn(m.group(0), new), text)


def turn_antt(text, new):
    lines = []
    for line in text.split("\n"):
        code, dash, prose = line.partition("--") if re.match(r"\s*--|.*\s--\s", line) else (line, "", "")
        lines.append(turn(code, new) + dash + turn_ticked(prose, new))
    return "\n".join(lines)


def turn_rust(text, new):
    """Ghost lines and clauses alone can hold a name with a dash; strings and comments are left."""
    pieces = re.split(r'("(?:[^"\\]|\\.)*"|//[^\n]*)', text)
    return "".join(turn_ticked(p, new) if p.startswith("//") else p if p.startswith('"') else turn(p, new) for p in pieces)


def main():
    new = {n: respelled(n) for n in declared()}
    troubles = []
    taken = {}
    for old, name in sorted(new.items()):
        if taken.setdefault(name, old) != old:
            troubles.append(f"{old} and {taken[name]} would both be {name}")
    writes = []
    for path in files((".antt", ".rt", ".edit")):
        text = open(path, encoding="utf-8").read()
        out = turn_rust(text, new) if path.endswith((".rt", ".edit")) else turn_antt(text, new)
        code = "\n".join(line for line in text.split("\n") if not line.lstrip().startswith("--"))
        words = set(TOKEN.findall(code))
        for old in sorted(words & new.keys()):
            if new[old] in words:
                troubles.append(f"{path}: {old} would fall onto {new[old]}")
        if out != text:
            writes.append((path, out))
    edits = {os.path.basename(path)[:-5] for path in files((".edit",))}
    pages = {old: name for old, name in new.items() if old not in edits}
    for path in files((".md",), "docs"):
        text = open(path, encoding="utf-8").read()
        out = turn_ticked(text, pages)
        if out != text:
            writes.append((path, out))
    for line in troubles:
        print(line)
    if troubles or "--check" in sys.argv:
        print(f"{len(new)} names, {len(writes)} files to change, {len(troubles)} troubles")
        raise SystemExit(1 if troubles else 0)
    for path, out in writes:
        with open(path, "w", encoding="utf-8") as f:
            f.write(out)
    print(f"{len(new)} names, {len(writes)} files changed")


main()
