#!/usr/bin/env python3
"""Turns walks of goals of rattle-kit-5b (Proof.antt over a module Tie) into Invariants.antt and Answers.antt.

usage: rt check --generated FOLDER --old-names                     in the crate, whose lower crates are proved
       tools/answers.py FOLDER/names.json crates/NAME [FUNCTION..]

Each answer gets today's name of its goal, and each way to a fact (`c.before.before.if1.true`) today's short one (`c.if-x-lt-y.true`). Answers that only say
`search` go, since the check tries that by itself. What the old file names and names.json doesn't know is printed, and stays to be done by hand.
It was used once, for the port; docs/request-11/crates.patch still has such walks.
"""
import glob
import json
import os
import re
import sys

NAME = r"[^\s(){}\[\].,;:=]+"
START = r"(?<![\w.'₀-])"
END = r"(?![\w'₀.-])"
SIGNATURE = re.compile(r"^((?:pub |abbrev |unfoldable )*)([^\s:]+) : (.*)$")
KEPT = {"type-inv", "requires", "args", "ranges", "well_formed", "lifetimes", "type_inv"}


def plain(name):
    """A name as both kits' spellings have it."""
    return re.sub(r"_lem(?=\d*$)", "", name.replace("-", "_").strip("«»")).lower()


def plain_goal(name):
    return re.sub(r"^(overflow|slice_bounds|nonzero|bounds)_", "", plain(name))


def split_at(text, wanted):
    """The parts of a text at the characters that are wanted, outside brackets."""
    parts, depth, part = [], 0, ""
    for ch in text:
        depth += (ch in "([{") - (ch in ")]}")
        if depth == 0 and wanted(ch):
            parts.append(part)
            part = ""
        else:
            part += ch
    return [p for p in parts + [part] if p.strip()]


class Function:
    """What names.json says of one function: old name beside today's."""

    def __init__(self, entry):
        self.goals = entry["needs"]
        self.loops = [(old, new, variables, changed) for ((old, new), variables), changed in zip(entry["loops"], entry["changed"])]
        self.places = {plain(p[0]): new for p, new in zip(entry["places"], entry["places_by_name"])}
        self.steps = {plain(p[2][0]): p[2][1] for p in reversed(entry["places"]) if p[2][0]}
        self.callees = {p[2][1]: p[3] for p in entry["places"] if p[3]}
        self.own_labels = entry["pre"]["fields"] if entry["pre"] else None
        self.labels = {p[2][1]: c["fields"] for p, c in zip(entry["places"], entry["clauses"]) if c and p[2][1]}
        self.arms = {}
        for arm in filter(None, entry["arms"]):
            for new, old, way in arm[2]:
                if old and way:
                    self.arms.setdefault((plain(old), tuple(way)), [arm[0], new])
        self.arguments = {old.replace(" ", "").lstrip("."): new.replace(" ", "").lstrip(".") for old, new in entry["args"]}
        self.unknown = set()

    def goal(self, old):
        for same in (plain, plain_goal):
            for o, n in self.goals:
                if same(old) in (same(o), same(n)):
                    return n
        return None

    def way(self, fields):
        """Today's fields for the fields behind the `before`s."""
        first = fields[0]
        if first not in KEPT:
            for k in range(len(fields), 1, -1):
                arm = self.arms.get((plain(first), tuple(fields[1:k])))
                if arm:
                    fields = arm + fields[k:]
                    break
            else:
                if plain(first) in self.steps:
                    fields = [self.steps[plain(first)]] + fields[1:]
                else:
                    self.unknown.add(first)
        fields = [f.replace("type-inv", "type_inv") for f in fields]
        for k in (2, 1):
            old = ".".join(fields[:k])
            if old in self.arguments:
                fields = self.arguments[old].split(".") + fields[k:]
                break
        if fields[0] == "requires" and self.own_labels and len(fields) > 1 and fields[1].isdigit():
            fields[1] = self.own_labels[int(fields[1])]
        if len(fields) > 2 and fields[1] == "ensures" and fields[0] in self.labels and fields[2].isdigit():
            fields[2] = self.labels[fields[0]][int(fields[2])]
        return fields

    def shorten(self, text, roots):
        """Every way from one of the roots, by today's names."""

        def one(m):
            if m.group(1) not in roots:
                return m.group(0)
            fields = m.group(2).split(".")[1:]
            while fields and fields[0] == "before":
                fields.pop(0)
            root = roots[m.group(1)]
            return ".".join([root] + self.way(fields)) if fields else root

        return re.sub(START + r"([A-Za-z_][\w'₀-]*)((?:\.[^\s(){}\[\].,;:=]+)+)", one, text)

    def without_places(self, text, roots):
        """Drops each `let d = c.before.before in`; d then is c."""
        again = True
        while again:
            again = False
            for m in re.finditer(rf"let ({NAME}) = ({NAME})((?:\.before)*) in ?", text):
                if m.group(2) in roots:
                    roots[m.group(1)] = roots[m.group(2)]
                    text = text[: m.start()] + text[m.end() :]
                    again = True
                    break
        return "\n".join(line for line in text.split("\n") if line.strip())

    def body(self, text):
        roots = {"c": "c"}
        text = self.without_places(text, roots)
        for alias in roots:
            text = re.sub(START + re.escape(alias) + END, "c", text)
        text = self.shorten(text, dict.fromkeys(roots, "c"))
        for m in re.finditer(r"let (\S+) = c\.(\S+) in", text):
            labels = self.own_labels if m.group(2) == "requires" else self.labels.get(m.group(2).removesuffix(".ensures"))
            for k, label in enumerate(labels or []):
                text = re.sub(START + re.escape(m.group(1)) + rf"\.{k}(?!\d)", f"{m.group(1)}.{label}", text)
        return text

    def helper(self, text, said):
        """A lemma that takes a place, `(e : tie.Else3)`, with the name of the place."""
        m = re.search(r"^([^\s:]+) : .*?\((\S+) : tie\.([^\s)]+)\)", text, re.S | re.M)
        if not m:
            return text, None
        name, variable, place = m.groups()
        if plain(place) not in self.places:
            said.append(f"{name}: the place {place} is unknown")
            return text, None
        today = self.places[plain(place)]
        text = text.replace(f"tie.{place}", today)
        roots = {variable: variable}
        clause = re.search(rf"^{re.escape(name)} ((?:\S+ )*)=", text, re.M)
        for v in clause.group(1).split() if clause else []:
            roots[v] = v
        return self.shorten(self.without_places(text, roots), roots), (name, today)


def labels(root):
    """Of each function with several clauses of a kind: the names of its requires and of its ensures."""
    found = {}
    for path in glob.glob(os.path.join(root, "crates/*/src/**/*.rt"), recursive=True):
        crate = os.path.relpath(path, os.path.join(root, "crates")).split(os.sep)[0]
        with open(path) as f:
            text = f.read()
        for m in re.finditer(r"\bfn (\w+)", text):
            end = re.search(r"\n\s*\{\n", text[m.end() :])
            head = text[m.end() : m.end() + (end.start() if end else 0)]
            found.setdefault((crate, m.group(1)), [re.findall(rf"^\s+{kind} (\w+) \{{", head, re.M) for kind in ("requires", "ensures")])
    return found


def as_record(text, names):
    """A text that ends in a tuple of as many parts as there are names: the tuple as a record."""
    text = text.rstrip()
    if not names or not text.endswith(")"):
        return text
    depth = 0
    for k in range(len(text) - 1, -1, -1):
        depth += (text[k] in ")]}") - (text[k] in "([{")
        if depth == 0:
            break
    before = text[:k].rstrip()
    tail = re.split(r"\bin\b", before)[-1].strip()
    parts = split_at(text[k + 1 : -1], lambda ch: ch == ",")
    if len(parts) != len(names) or tail and (not re.match(r"rw\b", tail) or tail == "rw"):
        return text
    return before + " record { " + " ".join(f"{n} = {p.strip()};" for n, p in zip(names, parts)) + " }"


def declarations(text):
    """The comments at the head, the `use` lines, and each declaration with its clauses as lines."""
    lines = text.split("\n")
    uses = [i for i, line in enumerate(lines) if line.startswith("use ")]
    first, last = (uses[0], uses[-1] + 1) if uses else (0, 0)
    return lines[:first], [lines[i] for i in uses], [d.split("\n") for d in re.split(r"\n\s*\n", "\n".join(lines[last:]).strip("\n"))]


def invariant(function, name, kind, loop, notes, body, said):
    known = [l for l in function.loops if plain(loop) in (plain(l[0]), plain(l[1]))]
    if not known:
        said.append(f"the loop {loop} is unknown")
        return []
    _, today, variables, changed = known[0]
    opened = [body.pop(0)] if body[0].startswith("unfolding") else []
    m = re.match(rf"^{re.escape(name)}([^=]*)=(.*)$", "\n".join(body), re.S)
    bound, right = m.group(1).split(), m.group(2)
    by = {b: f"l.initial.{v}" if c else f"l.{v}" for b, v, c in zip(bound, variables, changed)}
    by |= {b: f"l.{v}" for b, v in zip(bound[len(variables) :], [v for v, c in zip(variables, changed) if c])}
    if len(bound) != len(variables) + sum(changed):
        said.append(f"{name} binds {bound}, and the loop has {variables}")
    right = re.sub(START + r"[A-Za-z_][\w'₀]*(?![\w'₀-])", lambda k: by.get(k.group(0), k.group(0)), right)
    return [""] + notes + [f"abbrev pub {kind}-{today} : goal.{kind}-{today}"] + opened + [f"{kind}-{today} l ={right}"]


def write(path, head, uses, more, lines):
    """A file with those of the imports that it needs."""
    text = "\n".join(lines)
    words = set(re.findall(r"[^\s(){}\[\].,;:]+", text))
    kept = []
    for use in uses:
        m = re.match(r"^use ([^\s{]+)\.\{(.*)\}$", use)
        items = [it.strip() for it in m.group(2).split(",")] if m else []
        items = [it for it in items if (it.split(" as ")[-1] in words) or "◌" in it and all(p in words for p in it.split("◌") if p)]
        if items or not m:
            kept.append(f"use {m.group(1)}.{{{', '.join(items)}}}" if m else use)
    with open(path, "w") as f:
        f.write("\n".join(head + kept + more) + "\n" + text.rstrip("\n") + "\n")


def convert(path, function, crate, module, clauses, said):
    with open(path) as f:
        text = f.read()
    if "tie.spec" not in text:
        said.append("it is a walk by hand")
        return False
    head, uses, blocks = declarations(text)
    invariants, answers, helpers, places, spec, opened = [], {}, [], {}, "", []
    for block in blocks:
        notes = [line for line in block if line.startswith("--")]
        code = block[len(notes) :]
        m = SIGNATURE.match(code[0]) if code else None
        walk = m and re.match(r"(?:\{[^}]*\} → )?tie\.(invariant|decreases|Need)-(\S+)", m.group(3))
        if m and "statement M" in m.group(3):
            opened = [line for line in code[1:] if line.startswith("unfolding")]
            spec = "\n".join(code[1:])
        elif walk and walk.group(1) == "Need":
            answers[m.group(2)] = (walk.group(2), notes, code[1:])
        elif walk:
            invariants += invariant(function, m.group(2), *walk.groups(), notes, code[1:], said)
        else:
            lines, place = function.helper("\n".join(block), said)
            helpers += ["", lines]
            places |= dict([place]) if place else {}
    inside = spec.split("tie.spec", 1)[1]
    depth, end = 0, len(inside)
    for k, ch in enumerate(inside):
        depth += (ch in "([{") - (ch in ")]}")
        if depth < 0:
            end = k
            break
    terms = [t for t in split_at(inside[:end], str.isspace) if not re.match(r"(invariant|decreases)-", t)]
    counted = len(terms) == len(function.goals)
    lines, named = [], {}
    for k, term in enumerate(terms):
        here = function.goals[k][1] if counted else None
        if term in answers:
            named[term] = here or function.goal(answers[term][0]) or "UNKNOWN-" + answers[term][0]
    for k, term in enumerate(terms):
        here = function.goals[k][1] if counted else f"UNKNOWN-{k}"
        inline = re.match(r"^\(λ ([^.]*)\. (.*)\)$", term, re.S)
        if term in answers:
            goal, (_, notes, code) = named[term], answers[term]
        elif inline and re.match(r"search (rules|needs)$", inline.group(2)):
            if not (opened and here.startswith("returns")):
                continue
            goal, notes, code = here, [], opened + [f"{here} c = search rules"]
        else:
            goal, notes, code = here, [], opened + [f"{here} c = {inline.group(2) if inline else term + ' c'}"]
        unfolding = [code[0]] if code[0].startswith("unfolding") else []
        m = re.match(r"^(\S+) (.*?)=(.*)$", "\n".join(code[len(unfolding) :]), re.S)
        bound, right = [b for b in m.group(2).split() if b != "κs"], function.body(m.group(3))
        for name, place in places.items():
            right = re.sub(START + re.escape(name) + " c" + END, f"{name} (goal.at.{goal} c).{place}", right)
        callee = function.callees.get(goal.removesuffix("-requires"), "").split("::")
        wanted = clauses.get((crate, module.split(".")[-1]), ([], []))[1] if goal.startswith("returns") else clauses.get((callee[0], callee[-1]), ([], []))[0]
        right = as_record(right, wanted)
        for old, new in named.items():
            right = re.sub(START + re.escape(old) + END, new, right)
        lines += [""] + notes + [f"pub {goal} : goal.{goal}"] + unfolding + [f"{goal} {' '.join(['c'] + bound[1:])} ={right}"]
    said += [f"the field {f} is unknown" for f in sorted(function.unknown)]
    uses = [u for u in uses if not re.search(r"\.(Statement|Tie)\b", u)]
    folder, own = os.path.dirname(path), f"Rattle.{crate}.proofs.{module}"
    if invariants:
        write(os.path.join(folder, "Invariants.antt"), head, uses, [f"use {own}.Given as goal"], invariants)
    if lines or helpers:
        taken = [f"use {own}.Goals.{{{', '.join(sorted(set(places.values())))}}}"] if places else []
        write(os.path.join(folder, "Answers.antt"), head, uses, [f"use {own}.Goals as goal"] + taken, helpers + lines)
    os.remove(path)
    return True


def main():
    with open(sys.argv[1]) as f:
        names = json.load(f)
    folder = os.path.abspath(sys.argv[2])
    crate, clauses = os.path.basename(folder), labels(os.path.dirname(os.path.dirname(folder)))
    for path in sorted(glob.glob(os.path.join(folder, "proofs/**/Proof.antt"), recursive=True)):
        module = os.path.relpath(os.path.dirname(path), os.path.join(folder, "proofs")).replace(os.sep, ".")
        entry = names.get(f"Rattle-{crate}-proofs.{module}.Lts")
        said = [] if entry else ["names.json does not know it"]
        if (not sys.argv[3:] or module in sys.argv[3:]) and entry:
            convert(path, Function(entry), crate, module, clauses, said)
        for line in said:
            print(f"{crate}::{module}: {line}")


if __name__ == "__main__":
    main()
