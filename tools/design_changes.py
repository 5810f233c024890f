#!/usr/bin/env python3
"""Prints, as Markdown, each public signature with its clauses, each type with its fields and facts, and each definition of specs/ that
differs between two checkouts: `design_changes.py OLD NEW`. docs/DESIGN-PASS.md ends with what it prints for the commit in that page's
first line and this checkout. MOVED says under which name a function stands now, GONE what says now what a name said that went."""
import glob
import os
import re
import sys


def squeeze(s):
    return re.sub(r"\s+", " ", s).strip()


def items(root):
    out = {}
    for path in sorted(glob.glob(os.path.join(root, "crates/*/src/**/*.rt"), recursive=True)):
        crate = os.path.relpath(path, root).split(os.sep)[1]
        lines = open(path, encoding="utf-8").read().split("\n")
        inside = ""
        i = 0
        while i < len(lines):
            l = lines[i]
            m = re.match(r"(pub )?(impl|trait)\b(.*)\{\s*$", l)
            if m:
                inside = squeeze(l.rstrip("{ ").replace("pub ", ""))
                trait_public = l.startswith("pub trait") or " for " in l
                i += 1
                continue
            if l == "}":
                inside = ""
            m = re.match(r"(\s*)(pub )?(ghost )?fn (\w+)", l)
            if m and (m.group(2) or (inside and trait_public)):
                name = m.group(4)
                j = i
                text = []
                while True:
                    t = lines[j]
                    if re.match(r"\s*\{\s*$", t):
                        break
                    text.append(t)
                    if t.rstrip().endswith(";") or "requires" not in t and "ensures" not in t and re.search(r"\{", t):
                        break
                    if j + 1 >= len(lines) or re.match(r"\s*((pub |ghost )*fn\b|\}$)", lines[j + 1]):
                        break
                    j += 1
                owner = re.sub(r"^(impl|trait)\s*(<[^>]*>)?\s*", "", inside)
                owner = re.sub(r"<.*", "", owner.split(" for ")[-1]).split(":")[0].strip()
                out.setdefault((crate, (owner + "::" if owner else "") + name), []).append(dedent(text))
                i = j + 1
                continue
            m = re.match(r"pub (struct|enum) (\w+)", l)
            if m:
                j = i
                text = []
                while True:
                    text.append(lines[j])
                    if lines[j] == "}" or lines[j].endswith(";"):
                        break
                    j += 1
                k = i - 1
                while k >= 0 and lines[k].startswith("#["):
                    text.insert(0, lines[k])
                    k -= 1
                out.setdefault((crate, "type " + m.group(2)), []).append(dedent(text))
                i = j + 1
                continue
            m = re.match(r"\s+(ghost [^=]*=.*)", l)
            if m and inside and "ghost use" not in l:
                out.setdefault((crate, inside), []).append(l.strip())
            i += 1
    return {k: "\n".join(v) for k, v in out.items()}


def dedent(ls):
    n = min((len(l) - len(l.lstrip()) for l in ls if l.strip()), default=0)
    return "\n".join(l[n:] for l in ls)


def definitions(root):
    out = {}
    for path in sorted(glob.glob(os.path.join(root, "crates/*/specs/**/*.antt"), recursive=True)):
        crate = os.path.relpath(path, root).split(os.sep)[1]
        blocks, block = [], []
        for l in open(path, encoding="utf-8").read().split("\n"):
            if l.startswith("--") or l.strip().startswith("import") or l.startswith("module"):
                if block:
                    blocks.append(block)
                    block = []
                continue
            if re.match(r"(abbrev|pub|record|data|def|theorem|lemma)\b", l):
                if block:
                    blocks.append(block)
                block = [l]
            elif block:
                block.append(l)
        if block:
            blocks.append(block)
        for b in blocks:
            while b and not b[-1].strip():
                b.pop()
            m = re.match(r"(?:abbrev |def )?(?:pub )?(?:private )?(?:abbrev |record |data |enum |theorem |lemma )?(?:pub )?([^\s:(){}]+)", b[0])
            name = m.group(1) if m else b[0]
            out.setdefault((crate, name), []).append(dedent(b))
    return {k: "\n".join(v) for k, v in out.items()}


def fence(s):
    return "```\n" + (s if s else "(none)") + "\n```\n"


# where what a name promised stands now
MOVED = {
    ("decision", "reaches"): ("graphs", "reaches"),
    ("decision", "bit_walked"): ("obligations", "Obligations::bit_walked"),
    ("frames", "put"): ("frames", "Writer::put"),
    ("frames", "put_number"): ("frames", "Writer::put_number"),
    ("loops", "write_lasso"): ("loops", "Accepted::write_lasso"),
    ("obligations", "accepts"): ("obligations", "Obligations::accepts"),
    ("obligations", "lies"): ("obligations", "Segment::holds"),
    ("obligations", "fair_vertex"): ("obligations", "Component::fair_vertex"),
    ("obligations", "meets_all"): ("obligations", "Component::meets_all"),
    ("obligations", "bit_walked"): ("obligations", "Obligations::bit_walked"),
    ("obligations", "all_walked"): ("obligations", "Obligations::all_walked"),
    ("tableau", "bit_set"): ("masks", "has"),
    ("tableau", "with_bit"): ("masks", "put"),
    ("models", "bit"): ("masks", "has"),
}

GRAPH = "Now an `impl Graph` for the same type."
TABLEAU = "Said twice before, in two wordings: `vertices`, `product_edge`, `number_of` and `vertex_of` of `tableau` (specs/Numbers) stand for both."
BOUNDS = "Stands as before, in a module over the bounds of the struct, whose model type is now a parameter."
NARROWED = "The same function, seen in its program alone (`pub(crate)`)."
GONE = {
    ("models", "nearer"): "Went with the loop that it served: `lowest` says which second state is the lowest, by the library's `filter` and `reduce min`.",
    ("piles", "ask"): NARROWED, ("piles", "fill"): NARROWED, ("piles", "words_of"): NARROWED,
    ("models", "zero"): "Went: `fill(0)` of the library writes the zeros.",
    ("models", "bit"): "One definition for all crates: `bit` of `masks`.",
    ("language", "bit"): "One definition for all crates: `bit` of `masks`, of the same text.",
    ("obligations", "impl<'a, 'b, 'c, 'd, M: Model> Steps for Inside<'a, 'b, 'c, 'd, M>"): GRAPH,
    ("obligations", "impl<'a, 'b, 'c, 'd, M: Model> Steps for Obligations<'a, 'b, 'c, 'd, M>"): GRAPH,
    ("product", "impl<'a, 'b, 'c, M: Model> Steps for Indexed<'a, 'b, 'c, M>"): GRAPH,
    ("docket", "made"): "`option_map` of the library, with `got` and `granted`.",
    ("loops", "FinderWords"): "What it said of the finder's words is a fact of the type `Finder` and the clauses by `SameWords`; the room is a clause by `room` of `graphs`.",
    ("obligations", "index_in"): BOUNDS, ("obligations", "model_in"): BOUNDS, ("obligations", "property_in"): BOUNDS, ("obligations", "set_in"): BOUNDS,
    ("product", "mask_in"): TABLEAU, ("product", "product_edge"): TABLEAU, ("product", "state_of"): TABLEAU, ("product", "vertex"): TABLEAU, ("product", "vertices"): TABLEAU,
    ("lassos", "Fits"): "Its facts on states and letters are those of the type `Connective`; that final states are states is the ghost field `final_states` of `Applied`.",
    ("product", "Below"): "Went with the private ghost fields that said it of operands: no proof needs that an operand is below 32, since a word has no bit there.",
    ("properties", "FewLetters"): "A fact of each `Connective`: its ghost field `few_letters`.",
    ("properties", "FewStates"): "A fact of each `Connective`: its ghost field `few_states`.",
}


def main():
    a, b = sys.argv[1:3]
    for head, f in (("Public signatures with their clauses, types, and what types mean", items), ("Definitions of `specs/`", definitions)):
        x, y = f(a), f(b)
        print("\n## " + head + "\n")
        keys = sorted(set(x) | set(y))
        taken = {v for k, v in MOVED.items() if isinstance(v, tuple) and k in x}
        for k in keys:
            old, new = x.get(k), y.get(k)
            if k[1] == "mod" or (old and new and squeeze(old) == squeeze(new)):
                continue
            to = MOVED.get(k) if f is items else None
            if old and not new and isinstance(to, tuple):
                print(f"**`{k[0]}`: `{k[1]}`, now `{to[0]}`: `{to[1]}`**\n")
                new = y[to]
            elif not old and k in taken:
                continue
            else:
                print(f"**`{k[0]}`: `{k[1]}`**\n")
            if old:
                print("old\n" + fence(old))
            if new:
                print("new\n" + fence(new))
            elif old:
                print(((to if isinstance(to, str) else "") or GONE.get(k, "GONE?")) + "\n")


main()
