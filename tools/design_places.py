#!/usr/bin/env python3
"""Lists the places in crates/*/src that docs/DESIGN-PASS.md counts: `design_places.py [POINT] [FOLDER]`, where FOLDER is a checkout of the
commit to count at (this one where none is given). A place is a line; each point's patterns stand in POINTS below."""
import collections
import glob
import os
import re
import sys

POINTS = {
    1: [
        ("an enum", r"^\s*(pub(\(crate\))? )?enum \w+"),
        ("a flag in a struct", r"^\s*(pub(\(crate\))? )?\w+: bool,"),
        ("a code for none in a result", r"^\s*//.*(, (and|or) (0|n - 1) (where|past|for)|; 0 where|1 more than the)"),
        ("an Option or Result turned into a bool or a code by hand", r"(Some\(_\)|Err\(_\)|Ok\(_\)|None|Some\(v\)) => (true|false|v|0|\{\})"),
        ("an early return of None for None", r"else \{\s*$(?=\n\s*return None;)"),
    ],
    2: [("a function name that stands more than once", None)],
    3: [
        ("a loop over a range", r"^\s*('\w+: )?for \w+ in .*\.\."),
        ("a while loop", r"^\s*('\w+: )?while "),
    ],
    4: [
        ("an impl of a standard trait", r"^impl.* (PartialEq|Eq|PartialOrd|Ord|Clone|Copy|Debug|Display|From<\w+>|TryFrom<\w+>|Default|Iterator) for"),
        ("a field copied by hand", r"^\s*(\w+): \*?self\.\1,"),
        ("two bytes joined by hand", r"256 \* \w+ as"),
    ],
    5: [
        ("a clause text that stands in three contracts or more", None),
        ("a parameter that is one of a group", r"^\s*(parents|queue|stack|place|bounds|pending|cursor|index|area|at): (&(mut )?\[\w+\]|usize),"),
    ],
    6: [
        ("a fixed array in a struct", r"^\s*(pub )?\w+: \[[^;]+; \d+\],"),
        ("a count beside it", r"^\s*(pub )?(len|used|count|arity): (u8|u32|usize),"),
    ],
    7: [("a match on a kind", r"match \((kind|\*kind)"), ("the same reading around two steps", r"fn (lone_|opening_in|entry_in)")],
}


def files(root):
    return sorted(glob.glob(os.path.join(root, "crates", "*", "src", "**", "*.rt"), recursive=True))


def clauses(text):
    """The clause texts of each function, without their names."""
    for function in re.split(r"(?m)^\s*(?:pub(?:\(crate\))? )?fn ", text)[1:]:
        head = function.split("\n{", 1)[0].split("\n    {", 1)[0]
        for clause in set(re.findall(r"(?m)^\s*(?:requires|ensures)\s*\w*\s*\{ (.*) \}\s*$", head)):
            yield clause


def places(point, root):
    found = []
    texts = [(os.path.relpath(path, root), open(path, encoding="utf-8").read()) for path in files(root)]
    for what, pattern in POINTS[point]:
        if pattern:
            for path, text in texts:
                for hit in re.finditer("(?m)" + pattern, text):
                    line = text.count("\n", 0, hit.start()) + 1
                    found.append((what, f"{path}:{line}: {hit.group(0).strip()}"))
        elif point == 2:
            names = collections.defaultdict(list)
            for path, text in texts:
                for hit in re.finditer(r"(?m)^(?:pub(?:\(crate\))? )?fn (\w+)", text):
                    names[hit.group(1)].append(f"{path}:{text.count(chr(10), 0, hit.start()) + 1}")
            found += [(what, f"{name}: {', '.join(at)}") for name, at in sorted(names.items()) if len(at) > 1 and name != "main"]
        else:
            count = collections.Counter(clause for _, text in texts for clause in clauses(text))
            found += [(what, f"{times} times: {clause}") for clause, times in count.most_common() if times >= 3]
    return found


def main():
    points = [int(a) for a in sys.argv[1:] if a.isdigit()] or sorted(POINTS)
    root = next((a for a in sys.argv[1:] if not a.isdigit()), ".")
    for point in points:
        found = places(point, root)
        print(f"point {point}: {len(found)}")
        for what, place in found:
            print(f"  {what}: {place}")


if __name__ == "__main__":
    main()
