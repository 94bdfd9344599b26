#!/usr/bin/env python3
"""Gives the definitions, lemmas and fields that this repository declares in antt the spelling of Rattle's libraries: words in snake case.

usage: tools/respell.py [--dry]      at the top of the repository, once, over the files as port.py left them

A name that a file of specs/ or proofs/ declares and that begins with a small letter loses its capitals and its dashes: `boundsFrom`
becomes `bounds_from`, `taken-is` becomes `taken_is`; `getD` and `get_d` in such a name become `get_or`. Types, modules and what
Rattle makes (goals, labels, statements) keep their names, and so does every function of src/. Clauses in src/, must-fail edits and
the names in the pages between backticks go with them. It stops and writes nothing where two names would fall together or where a new
name is in use already.
"""

import os
import re
import sys

WORD = r"[^\s(){}\[\].;:,@\"«»`λ]+"
DECLARED = re.compile(r"^[ \t]*(?:(?:abbrev|unfoldable|pub|private|opaque) +)*(" + WORD + r")(?: +\{[^{}\n]*\})* : ", re.M)
RECORD = re.compile(r"^[ \t]*(?:pub +)?record (" + WORD + r")", re.M)
TOKEN = re.compile(WORD)
# A lemma that would have its function's name gets `_lem`, and a field that would have another name's gets one of its own.
OTHERWISE = {
    "at-goal": "at_goal_lem",
    "best-text": "best_text_lem",
    "cover-of": "cover_of_lem",
    "first-listed": "first_listed_lem",
    "free-at": "free_at_lem",
    "free-last": "free_last_lem",
    "free-row": "free_row_lem",
    "row-length": "row_length_lem",
    "tile-at": "tile_at_lem",
    "run-at": "run_at_lem",
    "word-at": "word_at_lem",
    "longer-run": "longer_run_lem",
    "replaced-hash": "replaced_hash_lem",
    "free-first": "first_free",
    "free-second": "second_free",
    "on-pattern": "of_pattern",
    "on-text": "of_text",
    "report-bytes": "reported_bytes",
}
# The same of names that have no capital and no dash, in the one file that has them.
HERE = {
    "crates/window/proofs/HashList.antt": {"hash_at": "hash_at_lem"},
    "crates/sweep/proofs/Step.antt": {"one_more": "one_more_lem"},
}


def new_spelling(name):
    if name in OTHERWISE:
        return OTHERWISE[name]
    name = re.sub(r"getD|^get_d(?=_)", "get_or", name)
    name = re.sub(r"(?<=[a-z0-9])[A-Z]", lambda m: "_" + m[0].lower(), name)
    return name.replace("-", "_").replace("′", "'")


def read(path):
    with open(path, encoding="utf-8") as file:
        return file.read()


def files():
    for folder, dirs, names in os.walk("crates"):
        dirs[:] = sorted(d for d in dirs if d != "out")
        for name in sorted(names):
            if name.endswith((".antt", ".rt", ".edit")):
                yield os.path.join(folder, name)


def without_comments(path, text):
    mark = r"//.*" if path.endswith(".rt") else r"(?m)(^|(?<=\s))--.*"
    return re.sub(mark, "", text)


def is_proof(path):
    """A file that answers goals: the names that it declares are Rattle's."""
    folder, name = os.path.split(path)
    return name in ("Proof.antt", "Answers.antt", "Invariants.antt") and os.path.basename(folder) != "proofs"


def main(argv):
    originals = {path: read(path) for path in files()}
    texts = dict(originals)
    for path, here in HERE.items():
        texts[path] = TOKEN.sub(lambda m: here.get(m[0], m[0]), texts[path])
    declared = {}
    for path, text in texts.items():
        if not path.endswith(".antt") or is_proof(path):
            continue
        for name in DECLARED.findall(without_comments(path, text)):
            if name[0].islower() and new_spelling(name) != name:
                declared.setdefault(name, set()).add(path)
    table = {name: new_spelling(name) for name in declared}
    bad = []
    for name, new in table.items():
        for other, spelled in table.items():
            if other != name and spelled == new:
                bad.append(f"{name} and {other} would both be {new}")
    for path, text in texts.items():
        code = without_comments(path, text)
        if path.endswith(".rt"):
            code = "\n".join(re.findall(r"(?:requires|ensures|ghost)[^\n]*", code))
        tokens = set(TOKEN.findall(code))
        for name in tokens & table.keys():
            if table[name] in tokens:
                bad.append(f"{path}: {name} and {table[name]} both stand here")
    if bad:
        print("\n".join(sorted(set(bad))))
        return 1
    if "--dry" in argv:
        for name in sorted(table):
            print(name, table[name])
        return 0
    for path, text in texts.items():
        turned = TOKEN.sub(lambda m: table.get(m[0], m[0]), text)
        if path.endswith(".antt") and is_proof(path):
            turned = keeping_generated(text, table)
        if turned != originals[path]:
            with open(path, "w", encoding="utf-8") as file:
                file.write(turned)
    pages = ["README.md"] + [os.path.join("docs", f) for f in sorted(os.listdir("docs")) if f.endswith(".md")]
    pages += [os.path.join("docs/landings", f) for f in sorted(os.listdir("docs/landings")) if f.endswith(".md")]
    for path in pages:
        text = read(path)
        turned = re.sub(r"`[^`\n]+`", lambda m: TOKEN.sub(lambda w: table.get(w[0], w[0]), m[0]), text)
        if turned != text:
            with open(path, "w", encoding="utf-8") as file:
                file.write(turned)
    print(len(table), "names")
    return 0


def keeping_generated(text, table):
    """In a file of answers only names that it imports from this repository are turned."""
    imported = set()
    for names in re.findall(r"^use Rattle\.\w+\.(?:specs|proofs)\.[^\s{]*\{([^}]*)\}", text, re.M):
        imported.update(n.strip() for n in names.split(","))
    def turn(m):
        name = m[0]
        if name not in table:
            return name
        before = text[m.start() - 1] if m.start() else ""
        if before == ".":
            return table[name]
        return table[name] if name in imported else name
    return TOKEN.sub(turn, text)


if __name__ == "__main__":
    raise SystemExit(main(sys.argv[1:]))
