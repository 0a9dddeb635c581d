#!/usr/bin/env python3
"""Brings the repository's own definitions and lemmas to snake case: `lookOver` to `look_over`, `walk-good` to `walk_good`.

usage: tools/respell.py [--dry]     at the top of the repository, once, after the port to a new Rattle

Renames what specs/ and proofs/ declare with a name in mixed case that begins low, or with dashes: definitions, lemmas, constructors and fields of theirs.
Types and modules keep their names, and so do functions of src/, exported names, strings, and names of the library. In comments a name with dashes is renamed
only between backquotes, since it may be plain English. In each file a name that the file takes from the library stays as it is.
Prints each place where a new name already stands in the file for something else (`falls together:`), to be looked at by hand; --dry changes nothing.
"""
import collections
import glob
import os
import re
import sys

DECL = re.compile(r"^(\s*)((?:pub |abbrev |unfoldable )*)(data |record )?([^\s:{}()=]+)((?:\s*\{[^}]*\}|\s+\([^)]*\)|\s+ℓ)*)\s*:\s")
CAMEL = re.compile(r"^[a-z].*[a-z0-9][A-Z]")
TOKEN = re.compile(r"[^\s(){}\[\].,;:`\"&|!<>=*/+?]+")
STEPS = re.compile(r"^(invariant-|decreases-|loop-)")


def snake(name):
    parts = name.split("-")
    out = []
    for p in parts:
        if re.match(r"^[a-z]", p):
            p = re.sub(r"(?<=[a-z0-9])([A-Z])", lambda m: "_" + m.group(1).lower(), p)
        out.append(p)
    return "_".join(out)


def files():
    for pattern in ("crates/*/specs/**/*.antt", "crates/*/proofs/**/*.antt", "crates/*/src/**/*.rt", "crates/*/must-fail/*.edit"):
        yield from sorted(glob.glob(pattern, recursive=True))


def crates():
    return {os.path.basename(os.path.dirname(p)) for p in glob.glob("crates/*/src")}


def declared(text):
    for line in text.split("\n"):
        if line.startswith("--") or line.lstrip().startswith("use "):
            continue
        m = DECL.match(line)
        if m:
            yield m.group(4)


def wanted(name):
    return name[0].islower() and (CAMEL.match(name) or "-" in name) and not STEPS.match(name) and not name.startswith("Need")


def imported(text, own):
    """The names that a file takes from the library: these stay."""
    out = set()
    for m in re.finditer(r"(?m)^\s*(?:ghost )?use ([^\s{;]+)\.\{([^}]*)\}", text):
        path, items = m.group(1), m.group(2)
        parts = path.split(".")
        if parts[0] == "Rattle" and len(parts) > 1 and parts[1] in own:
            continue
        for it in items.split(","):
            out.add(it.strip().split(" as ")[-1].strip())
            out.add(it.strip().split(" as ")[0].strip())
    return out


def renamed_line(line, comment_at, names):
    def one(m):
        return names.get(m.group(0), m.group(0))

    if comment_at is None:
        return TOKEN.sub(one, line)
    code, comment = line[:comment_at], line[comment_at:]

    def said(m):
        t = m.group(0)
        return names[t] if t in names and "-" not in t else t

    comment = TOKEN.sub(said, comment)
    comment = re.sub(r"`[^`]*`", lambda m: TOKEN.sub(one, m.group(0)), comment)
    return TOKEN.sub(one, code) + comment


def comment_start(line, mark):
    i = line.find(mark)
    while i > 0 and mark == "--" and not line[i - 1].isspace():
        i = line.find(mark, i + 1)
    return None if i < 0 else i


def main():
    dry = "--dry" in sys.argv
    own = crates()
    texts = {f: open(f, encoding="utf-8").read() for f in files()}
    names, every = {}, set()
    for f, t in texts.items():
        if not f.endswith(".antt"):
            continue
        for n in declared(t):
            every.add(n)
            if wanted(n):
                names[n] = snake(n)
    # A definition keeps the plain word; a lemma that would have the same name gets `_lem`, and so does one whose name the library has.
    library = set().union(*(imported(t, own) for f, t in texts.items() if f.endswith(".antt")))
    defined = {to for n, to in names.items() if CAMEL.match(n)}
    for n, to in list(names.items()):
        if not CAMEL.match(n) and (to in defined or to in every or to in library):
            names[n] = to + "_lem"
        elif CAMEL.match(n) and to in library:
            names[n] = to + "_of"
        elif CAMEL.match(n) and to in every:
            names[to] = to + "_lem"
    back = collections.defaultdict(set)
    for n, to in names.items():
        back[to].add(n)
    for to, froms in sorted(back.items()):
        if len(froms) > 1 or to in every and to not in names:
            print(f"several names become one: {sorted(froms)} -> {to}" + (" (declared already)" if to in every else ""))
    for n, to in sorted(names.items()):
        if to != snake(n):
            print(f"named apart: {n} -> {to}")
    changed = 0
    for f, t in texts.items():
        stay = imported(t, own)
        here = {n: to for n, to in names.items() if n not in stay}
        mark = "--" if f.endswith(".antt") else "//"
        lines = t.split("\n")
        code = set()
        for line in lines:
            at = comment_start(line, mark)
            code |= set(re.findall(r"(?<![\w'.-])[^\s(){}\[\].,;:`\"&|!<>=*/+?]+", line if at is None else line[:at]))
        for n, to in here.items():
            if n in code and to in code and to not in names and f.endswith(".antt"):
                print(f"falls together: {f}: {n} -> {to}")
        new = "\n".join(renamed_line(l, comment_start(l, mark), here) for l in lines)
        if new != t:
            changed += 1
            if not dry:
                open(f, "w", encoding="utf-8").write(new)
    print(f"{len(names)} names, {changed} files" + (" would change" if dry else " changed"))


if __name__ == "__main__":
    main()
