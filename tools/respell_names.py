#!/usr/bin/env python3
"""Respells this repository's own names of antt in one style: snake case for functions, lemmas, fields and constructors, upper camel
case for what is a type. Functions of src/ keep their names. Run once, after the kit's port.py, at the top of the repository:

    python3 tools/respell_names.py            rewrites the files below crates/
    python3 tools/respell_names.py --list     prints each name with its new spelling, and names that fall together
"""

import collections
import os
import re
import sys

WORD = re.compile(r'[^\s(){}.;,@"«»]+')
COMMENT = re.compile(r"(?<![^\s(){}.;,@\"«»])--[^\n]*")
DECLARED = re.compile(
    r"^[ ]*((?:(?:pattern|unfoldable|abbrev|pub|axiom) +)*)([^\s(){}.;,@\"«»:]+)((?: \{[^{}\n]*\})*) :(?: |$)(.*)$", re.M
)
SPAN = re.compile(r"`[^`\n]*`|^```.*?^```", re.S | re.M)
KEYWORDS = set("pub abbrev unfoldable pattern record data module use where let in elim unfolding".split())
def snake(name):
    words = re.sub(r"(?<=[a-z0-9'])[A-Z]", lambda m: "_" + m[0].lower(), name)
    return words.replace("-", "_")


# Names that would fall together with another name, and those whose plain respelling would say something else.
# A lemma that would have its function's name ends in _lem. Two constructors that stand in one line with others are named here too.
CHOSEN = {
    name: snake(name) + "_lem"
    for name in "at-end chain-at end_by front_of is-cell is-key last-in lookup-end new-of new-version no-version opened-at own-write "
    "publish-all put-cell read-end row-chain rows-read snap-top some-cell swept-to unlock-base vacuum-now write-now write-stores".split()
} | {"beyond": "BeyondHere", "fullSet": "FullHere", "tooLong": "too_long", "goesOn": "goes_on"}


def texts(endings):
    for folder, dirs, files in os.walk("crates"):
        dirs[:] = sorted(d for d in dirs if d != "out")
        for f in sorted(files):
            if f.endswith(endings):
                yield os.path.join(folder, f)


def read(path):
    with open(path, encoding="utf-8") as f:
        return f.read()


def is_walk(path):
    """A proof of one function, whose labels are Rattle's."""
    return os.path.basename(path) in ("Proof.antt", "Answers.antt", "Invariants.antt")


def camel(name):
    return "".join(w[:1].upper() + w[1:] for w in re.split("[-_]", name))


def result_is_type(rest, text, at):
    """Whether the signature that begins with rest ends in a universe."""
    lines = [rest]
    for line in text[at:].split("\n")[1:]:
        if line.startswith(" ") and not re.match(r"\s*(pub |abbrev |unfoldable )", line) and (rest.rstrip().endswith("→") or lines[-1].rstrip().endswith("→")):
            lines.append(line)
        else:
            break
    signature = " ".join(l.strip() for l in lines).strip()
    return re.search(r"(?:^|→ )Type (?:\d|ℓ)$", signature) is not None


def names():
    kinds = collections.defaultdict(set)
    for path in texts(".antt"):
        if is_walk(path):
            continue
        text = COMMENT.sub(lambda m: " " * len(m[0]), read(path))
        for m in DECLARED.finditer(text):
            name = m[2]
            if name in KEYWORDS or name == "_":
                continue
            kinds[name].add((path, result_is_type(m[4], text, m.start())))
    return kinds


def table(kinds):
    rows = {}
    for name, places in kinds.items():
        if name in CHOSEN:
            rows[name] = CHOSEN[name]
        elif name[:1].isupper() or not name[:1].isalpha():
            continue
        elif all(t for _, t in places):
            rows[name] = camel(name)
        elif re.search(r"[A-Z]|-", name):
            rows[name] = snake(name)
    rows.update(CHOSEN)
    return {a: b for a, b in rows.items() if a != b}


class Page(dict):
    """The table, and the plain respelling of whatever a file of antt declares."""

    def __init__(self, rows, known):
        super().__init__(rows)
        self.known = known

    def __contains__(self, name):
        return dict.__contains__(self, name) or re.search("[a-z0-9]-[a-z0-9]|[a-z][A-Z]", name) is not None and name[:1].islower() and snake(name) in self.known

    def __getitem__(self, name):
        return dict.__getitem__(self, name) if dict.__contains__(self, name) else snake(name)


def of_antt(text, rows):
    return WORD.sub(lambda m: turned(m[0], rows), text)


def turned(word, rows):
    """A word, or a word of prose with a sign of prose behind it."""
    if word in rows:
        return rows[word]
    bare = word.rstrip("`:?!'*")
    head = re.match("[`*]*", word)[0]
    bare = bare[len(head) :]
    if bare != word and bare in rows:
        return word.replace(bare, rows[bare], 1)
    return word


def of_walk(text, rows):
    """In a proof of one function what stands behind a dot may be a label of Rattle's, which has no capital."""

    def one(m):
        behind = text[m.start() - 1 : m.start()] == "."
        return m[0] if behind and not re.search("[A-Z]", m[0]) else rows.get(m[0], m[0])

    return WORD.sub(one, text)


def pages():
    for folder in (".", "docs", "hosts", "tests"):
        for top, dirs, files in os.walk(folder):
            if folder == ".":
                dirs[:] = []
            for f in sorted(files):
                if f.endswith((".md", ".tsv")) or f == "check-names":
                    yield os.path.join(top, f)


def keep(path, old, new):
    if new == old:
        return 0
    with open(path, "w", encoding="utf-8") as f:
        f.write(new)
    return 1


def main():
    kinds = names()
    rows = table(kinds)
    if "--list" in sys.argv:
        for a, b in sorted(rows.items()):
            print(a, b)
        every = collections.defaultdict(set)
        for name in kinds:
            every[rows.get(name, name)].add(name)
        for new, olds in sorted(every.items()):
            if len(olds) > 1:
                print("TOGETHER", new, *sorted(olds), *[p for o in sorted(olds) for p, _ in sorted(kinds[o])])
        return 0
    antt = {**rows}
    plain = {a: b for a, b in rows.items() if re.search(r"[A-Z]|-", a)}
    # what the kit's script respelled already, where pages and edits still have the old spelling
    known = {rows.get(name, name) for name in kinds}
    spelled = Page(plain, known)
    count = 0
    for path in texts((".antt", ".rt", ".edit")):
        old = read(path)
        new = (of_walk if is_walk(path) else of_antt)(old, antt) if path.endswith(".antt") else of_antt(old, spelled if path.endswith(".edit") else plain)
        count += keep(path, old, new)
    for path in pages():
        old = read(path)
        count += keep(path, old, SPAN.sub(lambda m: of_antt(m[0], spelled), old))
    print(f"{count} files respelled, {len(rows)} names")
    return 0


if __name__ == "__main__":
    raise SystemExit(main())
