#!/usr/bin/env python3
"""Respells the repository's own definitions and lemmas as the library spells its words: snake case, facts in camel case.

usage: tools/respell.py [--check]

Run it once, at the top, behind the kit's port.py, which respells only the names that the library has too. A definition or lemma is a name
that a file of specs/ or proofs/ declares outside the folder of a function's proof; goesOn becomes goes_on, any-more any_more, and holds, which is
a fact, Holds. It turns .antt files, the clauses, ghost items and comments of .rt files, must-fail edits, and what README and docs/ name in
backquotes. Names of Rust functions, generated names behind a dot and strings stay. Where a lemma would fall together with its definition,
it gets _lem behind it. --check says what it would turn and writes nothing.
"""

import glob
import os
import re
import sys

# facts, whose names are spelled as types
FACTS = {"holds": "Holds", "holdsAll": "HoldsAll"}
# lemmas that would fall together with the definition that they are about
LEM = (
    "mark-sum store-sum count-ends strict-of-old old-of-strict own-text stretch-role stretch-leaf one-run two_runs one-document two-documents"
    " one-call two-calls script-mark of_pair in-environment with-fence single_step both-scripts node-step goes_on text-plain is_name"
).split()
# the library's own spelling, of a lemma that one crate proves again
KEPT = {"and-false"}
DECLARED = re.compile(r"^\s*(?:(?:unfoldable|abbrev|pub|ruleset) )*(?:(?:data|record) )?([^\s:(){}]+) :(?!:)")
WORD = re.compile(r"[^\s(){}.;,@\"«»\[\]\\:`]+")
STRING = re.compile(r'b?"(?:[^"\\]|\\.)*"')


def snake(name):
    if name in FACTS:
        return FACTS[name]
    if not name[0].islower():
        return name
    return re.sub(r"[A-Z]", lambda m: "_" + m[0].lower(), name).replace("-", "_").replace("′", "'")


def of_function(path):
    """Whether the file is of one function's proof, whose names Rattle makes."""
    return os.path.basename(path) in ("Proof.antt", "Answers.antt", "Invariants.antt")


def table():
    """The new name of each declared name that gets one, the names of fields among them, and all names as they are then."""
    own, fields, every = {}, set(), set()
    for path in glob.glob("crates/*/specs/**/*.antt", recursive=True) + glob.glob("crates/*/proofs/**/*.antt", recursive=True):
        if of_function(path):
            continue
        for line in open(path, encoding="utf-8"):
            m = DECLARED.match(line)
            if not m or m[1] in KEPT:
                continue
            new = snake(m[1]) + ("_lem" if m[1] in LEM else "")
            every.add(new)
            if new != m[1]:
                own[m[1]] = new
                if line.startswith("  "):
                    fields.add(m[1])
    return own, fields, every


def words(text, own, fields):
    """The text with its words respelled; behind a dot only fields, and what a capital module is asked for."""

    def one(m):
        word = m[0]
        if word not in own:
            return word
        before = text[: m.start()]
        if before.endswith(".") and "-" in word and word not in fields and not re.search(r"(?:^|[^\w.'])[A-Z]\w*'?\.$", before):
            return word
        return own[word]

    return WORD.sub(one, text)


def outside_strings(text, turn):
    out, at = [], 0
    for m in STRING.finditer(text):
        out += [turn(text[at : m.start()]), m[0]]
        at = m.end()
    return "".join(out + [turn(text[at:])])


def camel(own):
    return {old: new for old, new in own.items() if "-" not in old and old not in ("holds",)}


def antt(text, own, fields):
    lines = []
    for line in text.split("\n"):
        code, dashes, note = line.partition("--") if line.lstrip().startswith("--") else (line, "", "")
        lines.append(outside_strings(code, lambda t: words(t, own, fields)) + dashes + quoted(words(note, camel(own), fields), own))
    return "\n".join(lines)


def quoted(text, own):
    return re.sub(r"`[^`\n]+`", lambda m: words(m[0], own, set(own)), text)


def source(text, own, fields):
    """A .rt file: clauses and ghost items, and comments."""
    out, at = [], 0
    for m in re.finditer(r"//[^\n]*|ghost use [^;]*;|\b(?:requires|ensures)\*? (?:\w+ )?\{|\bghost \w+: \{", text):
        if m.start() < at:
            continue
        out.append(text[at : m.start()])
        end = m.end()
        if text[m.start() : m.start() + 2] == "//":
            out.append(quoted(words(m[0], camel(own), fields), own))
        else:
            if m[0].endswith("{"):
                deep = 1
                while deep:
                    deep += (text[end] == "{") - (text[end] == "}")
                    end += 1
            out.append(words(text[m.start() : end], own, fields))
        at = end
    return "".join(out + [text[at:]])


def page(text, own, every):
    """A page of docs/: what it names in backquotes, port.py's share too."""
    return re.sub(r"`[^`\n]+`", lambda m: WORD.sub(lambda w: own.get(w[0]) or (snake(w[0]) if snake(w[0]) in every else w[0]), m[0]), text)


def edit(text, own, fields):
    """A must-fail edit: each line by the kind of the file that it changes."""
    out, kind = [], ""
    for line in text.split("\n"):
        if line.startswith("file: "):
            kind = line
        elif line.startswith("#"):
            line = quoted(words(line, camel(own), fields), own)
        elif line.startswith(("old:", "new:")):
            line = words(line, own if kind.endswith(".antt") else camel(own), fields)
        out.append(line)
    return "\n".join(out)


def main(argv):
    if argv not in ([], ["--check"]):
        print(__doc__)
        return 0 if argv in (["--help"], ["-h"]) else 2
    if not os.path.isdir("crates"):
        print("respell: run it at the top of the repository, where crates/ is", file=sys.stderr)
        return 2
    own, fields, every = table()
    turned = 0
    kinds = [(antt, "crates/**/*.antt"), (source, "crates/**/*.rt"), (edit, "crates/**/*.edit")]
    kinds += [(lambda t, o, f: page(t, o, every), p) for p in ("*.md", "docs/*.md")]
    for turn, pattern in kinds:
        for path in sorted(glob.glob(pattern, recursive=True)):
            with open(path, encoding="utf-8", newline="") as f:
                old = f.read()
            new = turn(old, own, fields)
            if new != old:
                turned += 1
                if not argv:
                    with open(path, "w", encoding="utf-8", newline="") as f:
                        f.write(new)
    print(f"respell: {len(own)} names, {turned} files" + (" to turn" if argv else " turned"))
    return 0


if __name__ == "__main__":
    raise SystemExit(main(sys.argv[1:]))
