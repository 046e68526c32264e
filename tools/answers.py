#!/usr/bin/env python3
"""Turns proofs of the older kit, each a Proof.antt over the generated Tie, to Invariants.antt and Answers.antt.

usage: tools/answers.py CRATE NAMES [FUNCTION..]

CRATE is the folder of a crate that the kit's port.py and then tools/respell.py have turned, NAMES the names.json that `rt check --generated DIR --old-names`
writes in that folder, and a FUNCTION is the path of a proof below proofs/. Without one all are turned. An older answer walks back from its goal by `.before`
and names a step by its kind and a count; today's names the step, and NAMES has both. What the check finds by itself gets no answer. A line for
each thing that is left by hand: `.branch` of a join is an `elim` today, the keys of a `match` on an enum want `opened` of borrow.Enum.Refused, and the measure of
a function in a cycle is written by hand. The Proof.antt is removed: commit first.
"""

import json
import os
import re
import sys
from difflib import SequenceMatcher

NAME = r"[^\s(){}.;,@\"«»\[\]\\]+"
TOKEN = re.compile(r"\"(?:[^\"\\]|\\.)*\"|" + NAME + r"|\s+|.")
DECLARED = re.compile(r"(?:(?:pub|abbrev|unfoldable) )*(\S+) :(?: |$)")
BODY = r"((?:\s+[^\s=]+)*)\s+=\s*(.*)"
LOOP_WORDS = [("loop-holds", "loop-init"), ("loop-less", "loop-smaller"), ("loop-again", "loop-preserved")]
AT_START = ("args", "requires", "ranges", "lifetimes", "type_inv", "well_formed", "utf8")
FOUND = ("search rules", "omega arith")


def plain(name):
    """A name without its dashes and underscores, which the kits set otherwise."""
    for old, new in LOOP_WORDS:
        name = name.replace(old, new)
    return re.sub("[-_]", "", name)


class Declaration:
    def __init__(self, notes, lines):
        self.notes, self.name = notes, DECLARED.match(lines[0])[1]
        ends = re.compile(r"unfolding\b|" + re.escape(self.name) + r"( |$)")
        at = next((i for i, l in enumerate(lines) if i and ends.match(l)), len(lines))
        self.type = "\n".join(lines[:at])
        body = next((i for i, l in enumerate(lines) if i >= at and not re.match(r"unfolding\b| ", l)), len(lines))
        self.unfolding, self.text = lines[at:body], "\n".join(lines[body:]).rstrip()

    def parts(self):
        """The parameters and the body."""
        m = re.match(re.escape(self.name) + BODY, self.text, re.S)
        return m[1].split(), m[2]

    def whole(self):
        return "\n".join(self.notes + [self.type] + self.unfolding + [self.text])


def read_proof(text):
    """The comment at the head, the use lines and the declarations."""
    text = re.sub(r"(?m)^(use [^\s{]+\.\{)\n((?:  .*\n)+)\}$", lambda m: m[1] + " ".join(m[2].split()).rstrip(",") + "}", text)
    head, uses, found, notes = [], [], [], []
    for line in text.split("\n"):
        if line.startswith("--"):
            (notes if uses or found else head).append(line)
        elif line.startswith("use "):
            uses.append(line)
        elif DECLARED.match(line):
            found.append((notes, [line]))
            notes = []
        elif found:
            found[-1][1].append(line)
    return [h for h in head if h != "-- Assumes nothing."], uses, [Declaration(n, l) for n, l in found]


def split(text):
    """The arguments of a call, up to the parenthesis that closes it."""
    out, deep, now = [], 0, ""
    for c in text.strip():
        deep += (c in "([{") - (c in ")]}")
        if deep < 0:
            break
        if c.isspace() and not deep:
            out, now = out + [now] if now else out, ""
        else:
            now += c
    return out + [now] if now else out


def renamed(body, new):
    """The body with variables renamed, but for those that a λ binds."""
    out, bound, before, binding = [], [set()], "", False
    for t in TOKEN.findall(body):
        if t in "([{":
            bound.append(set(bound[-1]))
        elif t in ")]}" and len(bound) > 1:
            bound.pop()
        if t.startswith("λ"):
            binding = True
            bound[-1].add(t[1:])
        elif binding and t == ".":
            binding = False
        elif binding:
            bound[-1].add(t)
        out.append(new[t] if t in new and t not in bound[-1] and before != "." else t)
        before = t if t.strip() else before
    return "".join(out)


class Steps:
    """What a goal of a function can cite, by its older and its present name."""

    def __init__(self, names):
        self.names = names
        self.at = {}
        for i, (name, parent, step, callee, _) in enumerate(names["places"]):
            self.at.setdefault(name, (i, parent, step, callee))

    def up(self, place):
        while place is not None:
            yield place
            place = self.at[place][1]

    def arm(self, goal, here):
        """The arm that holds the step at `here`, of the first place above the goal whose arm reaches so far."""
        for place in self.up(goal):
            arm = self.names["arms"][self.at[place][0]]
            if arm and here in list(self.up(place))[: arm[1]]:
                return arm
            if place == here:
                return None

    def path(self, goal, fields):
        """A path behind `c` in today's names, or None where it names no step."""
        place = goal
        while fields and fields[0] == "before":
            place, fields = self.at[place][1] or place, fields[1:]
        if not fields:
            return place, ""
        if fields[0] in AT_START:
            return None, ".".join(fields)
        # the older kit took other steps between, so a step goes by its name, and by the count only among several of one name
        like = [p for p in self.up(goal) if plain(self.at[p][2][0]) == plain(fields[0])]
        above = set(self.up(place))
        like = [p for p in like if p in above] or like
        return (None, self.step(self.arm(goal, like[0]), self.at[like[0]], fields)) if like else (None, None)

    def step(self, arm, at, fields):
        _, _, (_, step), callee = at
        more = fields[1:]
        if arm:
            fits = [(new, path) for new, old, path in arm[2] if plain(old) == plain(fields[0]) and more[: len(path)] == path]
            if fits:
                new, path = max(fits, key=lambda f: len(f[1]))
                return ".".join([arm[0], new] + more[len(path) :])
            return ".".join([arm[0]] + more)
        params = self.names["params"].get(callee, []) if callee else []
        if len(more) > 1 and more[0] in ("last", "kept", "new", "auto"):
            nth = re.match(r"((?:1\.)*)0(?:\.|$)", ".".join(more[1:]))
            if nth and nth[1].count("1") < len(params):
                n = nth[1].count("1")
                more = [{"last": "new", "kept": "auto"}.get(more[0], more[0]), params[n]] + more[n + 2 :]
        if (step.startswith("if-") or step.endswith("-test")) and more[-1:] in (["taken"], ["left"]):
            more[-1] = {"taken": "true", "left": "false"}[more[-1]]
        return ".".join([step] + more)


def answer(steps, body, goal, var, left):
    """The body of an answer, its paths in today's names."""
    places = {var: goal}
    while m := re.search(r"let (\S+) = (" + "|".join(map(re.escape, places)) + r")((?:\.before)+) in\s*", body):
        places[m[1]], _ = steps.path(places[m[2]], m[3].strip(".").split("."))
        body = body[: m.start()] + body[m.end() :]

    def one(m):
        _, text = steps.path(places[m[1]], m[2].strip(".").split("."))
        if text is None:
            left.append("no step for " + m[0])
        return m[0] if text is None else "c." + text if text else "c"

    body = re.sub(r"(?<![\w.'-])(" + "|".join(map(re.escape, places)) + r")((?:\." + NAME + ")+)", one, body)
    # the test of a negation says today what it is about
    return re.sub(r"not-(true|false) _ (c\.if-not-[\w-]+\.\1)", r"\2", body)


def without_measure(body):
    """In a cycle the older `requires` was a pair: the measure at the call, which a tactic finds by itself today, and what is required."""
    body = re.sub(r"let \S+ = c\.requires\.0 in\s*", "", body)
    for name in set(re.findall(r"let (\S+) = c\.requires in", body)):
        body = re.sub(r"(?<![\w.'-])" + re.escape(name) + r"\.1\.", name + ".", body)
    return re.sub(r"(?<![\w-])c\.requires\.1(?!\w)", "c.requires", body)


def of_loops(names, stem, kind, declared, left):
    out = []
    for d, ((_, loop), variables), changed in zip(declared, names["loops"], names["changed"]):
        params, body = d.parts()
        new = ["l.initial." + v if c else "l." + v for v, c in zip(variables, changed)] + ["l." + v for v, c in zip(variables, changed) if c]
        if len(params) != len(new) or re.search(r"\(l :|λ l\b", body):
            left.append(d.name)
        full = f"{kind}-{stem}{loop}"
        out.append("\n".join(d.notes + [f"abbrev pub {full} : goal.{full}"] + d.unfolding + [f"{full} l =\n    {renamed(body, dict(zip(params, new)))}"]))
    return out


def paired(answers, wanted, left):
    """Each goal of today with its older answer; the older kit asked for some that are gone."""
    if len(answers) == len(wanted):
        return list(zip(answers, wanted))
    old, new = [plain(a.name) for a in answers], [plain(w[0][0]) for w in wanted]
    pairs = [(b.a + k, b.b + k) for b in SequenceMatcher(None, old, new, autojunk=False).get_matching_blocks() for k in range(b.size)]
    kept = {a for a, _ in pairs}
    left += [f"{a.name} answers no goal" for i, a in enumerate(answers) if i not in kept and a.parts()[1] not in FOUND]
    return [(answers[a], wanted[b]) for a, b in pairs]


def member(names, prefix, spec, by, cycle, left):
    """Invariants and answers of one function, and the declarations that they are of."""
    called = [by[n] for a in spec if (n := re.sub(r"^\((\S+) t\)$", r"\1", a)) in by]
    kinds = {k: [d for d in called if re.search(r"\." + k, d.type)] for k in ("invariant", "decreases", "Need")}
    stem, steps = names.get("stem") or "", Steps(names)
    loops = [t for k in ("invariant", "decreases") for t in of_loops(names, stem, k, kinds[k], left)]
    for d in kinds["Need"]:
        d.text, d.name = d.text.replace(d.name, d.name[len(prefix) :]), d.name[len(prefix) :]
    out = []
    for d, ((_, goal), (place, _)) in paired(kinds["Need"], list(zip(names["needs"], names["asked_at"])), left):
        params, body = d.parts()
        params = [p for p in params if p not in ("κs", "t")]
        body = answer(steps, body, place, params[0], left)
        if cycle:
            body = without_measure(body)
        if body.strip() not in FOUND:
            full = stem + goal
            out.append("\n".join(d.notes + [f"pub {full} : goal.{full}"] + d.unfolding + [f"{full} {'t c' if cycle else 'c'} =\n    {body}"]))
    return loops, out, called


def used(uses, text, own):
    """The use lines that a file still needs."""
    out = []
    for line in uses:
        names = re.match(r"(use [^\s{]+\.)\{(.*)\}$", line)
        if any(f"{own}.{gone}" in line for gone in ("Statement", "Tie", "Lts", "Reads", "{")) or not names:
            continue
        kept = [n for n in names[2].split(", ") if all(p in text for p in n.split(" as ")[-1].split("◌"))]
        if kept:
            out.append(names[1] + "{" + ", ".join(kept) + "}")
    return out


def turn(folder, crate, path, functions):
    """One Proof.antt, of a function or of a cycle; functions has the names of each by its name."""
    base, left = os.path.join(folder, "proofs", path), []
    with open(os.path.join(base, "Proof.antt"), encoding="utf-8") as f:
        text = f.read()
    head, uses, declared = read_proof(text)
    by, cycle = {d.name: d for d in declared}, "+" in path
    invariants, answers, done = [], [], set()
    for name, names in functions.items():
        prefix = name.replace("_", "-") + "-" if cycle else ""
        at = re.search(re.escape(f"{prefix}lts.spec" if cycle else "tie.spec") + r"\s", text)
        if not at:
            return ["no call of spec"]
        loops, own, called = member(names, prefix, split(text[at.end() :]), by, cycle, left)
        measure = by.get("μ-" + prefix[:-1])
        if cycle and measure:
            invariants.append(f"abbrev pub decreases-{name} : goal.decreases-{name}\ndecreases-{name} l = ?")
            left.append(f"decreases-{name}: {measure.text}")
        invariants, answers, done = invariants + loops, answers + own, done | set(called)
    gone = re.compile(r"spec$|^μ-|[-_](at|below|calls)$")
    answers = [d.whole() for d in declared if d not in done and not gone.search(d.name)] + answers
    module = f"Rattle.{crate}.proofs.{path.replace('/', '.')}"
    for file, parts, goals in (("Invariants", invariants, "Given"), ("Answers", answers, "Goals")):
        if parts:
            body = "\n\n".join(parts)
            with open(os.path.join(base, file + ".antt"), "w", encoding="utf-8") as f:
                f.write("\n".join(head + used(uses, body, module) + [f"use {module}.{goals} as goal"]) + "\n\n" + body + "\n")
            head = []
    os.remove(os.path.join(base, "Proof.antt"))
    return left


def main(argv):
    if len(argv) < 2 or argv[0].startswith("-"):
        print(__doc__)
        return 0 if argv[:1] in (["--help"], ["-h"]) else 2
    folder, crate = argv[0], os.path.basename(os.path.abspath(argv[0]))
    try:
        with open(argv[1], encoding="utf-8") as f:
            names = json.load(f)
    except (OSError, ValueError) as e:
        print(f"answers: {argv[1]} cannot be read: {e}", file=sys.stderr)
        return 2
    proofs = {}
    for key, of in names.items():
        if m := re.match(rf"Rattle-{crate}-proofs\.(.*)\.Lts(?:-(.*))?$", key):
            path = m[1].replace(".", "/")
            proofs.setdefault(path, {})[m[2] or path] = of
    for path, functions in proofs.items():
        if (not argv[2:] or path in argv[2:]) and os.path.exists(os.path.join(folder, "proofs", path, "Proof.antt")):
            for line in turn(folder, crate, path, functions):
                print(f"left: {path}: {line}")
    return 0


if __name__ == "__main__":
    raise SystemExit(main(sys.argv[1:]))
