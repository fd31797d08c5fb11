#!/usr/bin/env python3
"""Spells the repository's own definitions and lemmas in snake case, once, after the port script of today's Rattle.

usage: tools/respell.py [--list]

Must-fail edits and the names that documents quote turn along. A name turns if a .antt file of the repository declares it, it begins with a small letter, and it has a dash or a capital letter inside. Types, modules,
functions of src/, strings, and names that Rattle makes (those of goals and steps) stay. --list prints the rows and what falls together, and writes nothing.
Names that would fall together get the spelling of APART.
"""

import collections
import glob
import os
import re
import sys

WORD = re.compile(r"[^\s(){}.;,@\"«»\[\]|`]+")
HEAD = re.compile(
    r"^\s*(?:(?:abbrev|unfoldable|pub|pattern|opaque)\s+)*([^\s(){}.;,@\"«»]+)((?:\s*\{[^{}\n]*\})*)\s*:(?=\s|$)"
)
MADE = re.compile(r"-(?:test|requires|ensures|init|preserved|smaller|raw|holds)(?:-\d+)?$")
CLAUSE = re.compile(r"(?:requires|ensures)\s*\*?\s*(?:\w+\s*)?\{|ghost\s+use\b")
SPAN = re.compile(r"`[^`\n]+`")
KIT = re.compile(r"use (?!Rattle\.|package\.)[^\n]*|use Rattle\.(?:std|core|io|libc|os)\b[^\n]*")
# Names that would otherwise be spelled like another one: the definition keeps the plain spelling. A lemma or field with a dash gets the ending "_law" by itself.
APART = {
    "goesOn": "goes_on_with",
    "is_digit": "is_digit_law",
    "is_name": "is_name_law",
    "same_row": "same_row_law",
    "underLow": "under_low_word",
}

# Names that an import or a comment keeps from the rule, and local names of imports.
EXTRA = {"newFits": "new_fits", "rowsIn": "rows_in", "searchKindOf": "search_kind_of", "answerSays": "answer_says"}


def snake(name):
    words = re.sub(r"(?<=[a-z0-9])[A-Z]", lambda m: "_" + m[0].lower(), name)
    return words.replace("-", "_")


def spelled(name, declared):
    if name in APART:
        return APART[name]
    plain = snake(name)
    others = {n for n in declared if n != name and n not in APART and snake(n) == plain}
    return plain + "_law" if "-" in name and others else plain


def is_turned(name):
    return re.match(r"[a-z]", name) and ("-" in name or re.search(r"[a-z0-9][A-Z]", name))


def read(path):
    with open(path, encoding="utf-8") as f:
        return f.read()


def proofs_and_specs():
    return sorted(p for k in ("specs", "proofs") for p in glob.glob(f"crates/*/{k}/**/*.antt", recursive=True))


def heads(path, text):
    """The names that a file declares, without those at a type that Rattle makes."""
    lines = text.split("\n")
    for i, line in enumerate(lines):
        if line.lstrip().startswith("--"):
            continue
        m = HEAD.match(line)
        if not m:
            continue
        rest = line[m.end():].strip() or (lines[i + 1].strip() if i + 1 < len(lines) else "")
        of_function = path.endswith("/Proof.antt") and m.group(1).endswith("-spec")
        yield m.group(1), of_function or rest.startswith(("tie.", "goal."))


def main():
    os.chdir(os.path.join(os.path.dirname(os.path.abspath(__file__)), ".."))
    declared = collections.defaultdict(set)
    made = collections.defaultdict(set)
    texts = {p: read(p) for p in proofs_and_specs()}
    for p, t in texts.items():
        for name, of_rattle in heads(p, t):
            if of_rattle:
                made[p].add(name)
            else:
                declared[name].add(p)
    rows = {n: spelled(n, declared) for n in declared if is_turned(n) or n in APART}
    if "--list" in sys.argv:
        return report(declared, rows, texts)
    for p, t in texts.items():
        write(p, t, turn_words(turn_antt(t, rows, made[p], p.endswith("/Proof.antt")), EXTRA, set(), False))
    for p in sorted(glob.glob("crates/*/src/**/*.rt", recursive=True)):
        write(p, read(p), turn_words(turn_rt(read(p), rows), EXTRA, set(), False))
    # In edits and documents the names that the port script spelled anew turn too.
    for p in texts:
        for name, _ in heads(p, read(p)):
            older = re.sub(r"_([a-z])", lambda m: m[1].upper(), name)
            rows.setdefault(older, name) if "_" in name else None
            rows.setdefault(name.replace("_", "-"), name) if "_" in name else None
    plain = {n: r for n, r in rows.items() if n not in APART or "_" not in n}
    for p in sorted(glob.glob("crates/*/must-fail/*.edit")):
        write(p, read(p), turn_edit(read(p), plain))
    for p in ["README.md", "CHANGELOG.md", "CONTRIBUTING.md"] + sorted(glob.glob("docs/**/*.md", recursive=True)):
        write(p, read(p), SPAN.sub(lambda m: turn_words(m[0], plain, set(), False), read(p)))


def report(declared, rows, texts):
    spelled = collections.defaultdict(set)
    for n in declared:
        spelled[rows.get(n, n)].add(n)
    for s, ns in sorted(spelled.items()):
        if len(ns) > 1:
            print("together:", s, "=", ", ".join(f"{n} ({', '.join(sorted(p.split('crates/')[1] for p in list(declared[n])[:3]))})" for n in sorted(ns)))
    print(len(rows), "rows")


def turn_words(text, rows, stay, in_proof):
    def one(m):
        word = m[0]
        if word not in rows or word in stay:
            return word
        if word in APART and "_" in word and text[: m.start()].endswith("."):
            return word
        if in_proof and m.start() and text[m.start() - 1] == "." and (MADE.search(word) or text[: m.start()].endswith("tie.")):
            return word
        return rows[word]

    return WORD.sub(one, text)


def turn_antt(text, rows, stay, in_proof):
    theirs = set(stay)
    for m in KIT.finditer(text):
        theirs |= set(re.findall(WORD, m[0])) - {w for w in re.findall(WORD, m[0]) if w not in rows}
    out = []
    for line in text.split("\n"):
        if line.lstrip().startswith("--"):
            out.append(re.sub(r"`[^`]*`", lambda m: turn_words(m[0], rows, theirs, in_proof), line))
        elif KIT.match(line.lstrip()):
            out.append(line)
        else:
            code, dash, note = line.partition(" -- ")
            out.append(turn_words(code, rows, theirs, in_proof) + dash + re.sub(r"`[^`]*`", lambda m: turn_words(m[0], rows, theirs, in_proof), note))
    return "\n".join(out)


def turn_rt(text, rows):
    out = []
    inside = False
    for line in text.split("\n"):
        s = line.lstrip()
        if s.startswith("//"):
            out.append(re.sub(r"`[^`]*`", lambda m: turn_words(m[0], rows, set(), False), line))
            continue
        if not inside and (s.startswith("ghost use Rattle.std") or not CLAUSE.match(s)):
            out.append(line)
            continue
        inside = True
        out.append(turn_words(line, rows, set(), False))
        if s.rstrip().endswith(("}", ";", "{")):
            inside = not s.rstrip().endswith(("}", ";"))
    return "\n".join(out)


def turn_edit(text, rows):
    capitals = {n: r for n, r in rows.items() if "-" not in n}
    return "\n".join(turn_words(line, capitals if line.startswith("#") else rows, set(), False) for line in text.split("\n"))


def write(path, old, new):
    if old != new:
        with open(path, "w", encoding="utf-8") as f:
            f.write(new)


if __name__ == "__main__":
    main()
