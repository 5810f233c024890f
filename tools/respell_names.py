#!/usr/bin/env python3
"""Respells the names of this repository's own definitions and lemmas: words in snake case, types and facts in camel case.

usage: python3 tools/respell_names.py [FOLDER]      FOLDER is a checkout that the toolchain's port script has turned; without it, this one

A name with a dash that is defined in specs/ or proofs/ is turned wherever it stands in .antt files, and in the clauses of .rt files.
Names that Rattle makes (of goals, and of the steps that an answer cites), strings and comments stay as they are, but for names in backticks.
It stops, with nothing written, where two names would fall together.
"""

import os
import re
import sys

ROOT = sys.argv[1] if len(sys.argv) > 1 else os.path.join(os.path.dirname(os.path.realpath(__file__)), "..")
LETTERS = r"[^\s(){},;:.`\"\[\]|]"
TOKEN = re.compile(LETTERS + "+")
RECORD = re.compile(r"^\s*(?:pub )?(record|data) (" + LETTERS + "+)")
SIGNATURE = re.compile(r"^(\s*)((?:pub |abbrev |unfoldable |ruleset )*)(" + LETTERS + r"+)\s*:\s+(.*)$")
# names that would fall together with one of the toolchain's library, and words of a name that an import gives
GIVEN = {"bit-and": "bit-bit_and", "bit-or": "bit-bit_or", "Checked-in": "CheckedIn"}
GOAL = re.compile(r"^(?:pub |abbrev )*(" + LETTERS + r"+)\s*:\s*goal\.")


def sources(ending):
    for folder, dirs, files in os.walk(os.path.join(ROOT, "crates")):
        dirs[:] = sorted(d for d in dirs if d != "out")
        for f in sorted(files):
            if f.endswith(ending):
                yield os.path.join(folder, f)


def read(path):
    with open(path, encoding="utf-8") as f:
        return f.read()


def camel(name):
    return "".join(w[0].upper() + w[1:] for w in name.split("-") if w)


def collect():
    """The names that are defined, each with its new spelling; the fields among them; and all names, old and new, by file."""
    turned, fields, kept = {}, set(), set()
    for path in sources(".antt"):
        record = None
        for line in read(path).split("\n"):
            m = RECORD.match(line)
            if m:
                record = m.group(1)
                name = m.group(2)
                turned[name] = camel(name) if "-" in name else name
                continue
            if line and not line[0].isspace():
                record = None
            m = SIGNATURE.match(line)
            if not m or GOAL.match(line) or line.lstrip().startswith("--"):
                continue
            name, said = m.group(3), m.group(4)
            if record == "record" and m.group(1):
                fields.add(name)
            fact = re.search(r"(^|→ )Type 0\s*$", said) is not None
            turned[name] = (camel(name) if fact and name[0].isupper() else name.replace("-", "_")) if "-" in name else name
    turned.update({n: t for n, t in GIVEN.items() if n in turned or n[0].isupper()})
    for name, new in turned.items():
        if name == new:
            kept.add(name)
    return {n: t for n, t in turned.items() if n != t}, fields, kept


def respell(text, turned, fields, skip, made, modules=()):
    """Turns the names in a piece of text; `made` says that c, l and g are the records that Rattle makes, `modules` are names of modules."""
    out, at = [], 0
    for m in TOKEN.finditer(text):
        word = m.group(0)
        if word not in turned or word in skip:
            continue
        before = text[:m.start()]
        if before.endswith("."):
            # a projection, but where a module is named: in a `use` line, and behind the name that such a line gives it
            base = re.search(r"([\w']+)\.$", before)
            module = before.lstrip().startswith(("use ", "ghost use ", "pub use ")) or (base is not None and base.group(1) in modules)
            if not module and (word not in fields or before.endswith("goal.")):
                continue
            if made and re.search(r"(^|[\s(\[{,])[clg]\.$", before):
                continue
        out.append(text[at:m.start()] + turned[word])
        at = m.end()
    return "".join(out) + text[at:]


def comment(text, turned):
    return re.sub(r"`([^`]*)`", lambda m: "`" + respell(m.group(1), turned, set(), set(), False) + "`", text)


def turn_antt(path, turned, fields):
    text = read(path)
    skip = {m.group(1) for m in map(GOAL.match, text.split("\n")) if m}
    made = os.path.basename(path) in ("Answers.antt", "Invariants.antt", "Proof.antt")
    modules = set(re.findall(r"^use [^\s{]+ as (\w+)\s*$", text, re.M)) - {"goal"}
    lines = []
    for line in text.split("\n"):
        code, dash, rest = line.partition("-- ") if not line.startswith("--") else ("", "", line)
        lines.append(respell(code, turned, fields, skip, made, modules) + dash + comment(rest, turned))
    return "\n".join(lines)


def turn_rt(path, turned, fields):
    lines = []
    for line in read(path).split("\n"):
        code, slash, rest = line.partition("//")
        parts = re.split(r'("(?:[^"\\]|\\.)*")', code)
        code = "".join(p if p.startswith('"') else respell(p, turned, fields, set(), False) for p in parts)
        lines.append(code + slash + comment(rest, turned))
    return "\n".join(lines)


def main():
    turned, fields, kept = collect()
    seen = {}
    for old, new in sorted(turned.items()):
        if new in seen or new in kept:
            raise SystemExit(f"{old} and {seen.get(new, new)} would fall together as {new}: nothing was written")
        seen[new] = old
    changed = 0
    for path in list(sources(".antt")) + list(sources(".rt")):
        new = (turn_antt if path.endswith(".antt") else turn_rt)(path, turned, fields)
        if new != read(path):
            changed += 1
            with open(path, "w", encoding="utf-8") as f:
                f.write(new)
    print(f"{len(turned)} names turned, in {changed} files")


main()
