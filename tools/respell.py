#!/usr/bin/env python3
"""respell.py: brings this repository's own definitions, fields, constructors and lemmas to the spelling of today's Rattle.

usage: python3 tools/respell.py          at the top, once, on what the kit's port.py left of commit 6f48391

- A name in camel case that begins small is in snake case: `keyBytes` is `key_bytes`, `length-bytesOf` is `length-bytes_of`.
- A field, a constructor or a definition of specs/ has no dash: `refusal-keeps` is `refusal_keeps`. Lemmas keep theirs.
- What would then have one name for two things is renamed as SPECIAL says.
The code of src/ keeps its names; there the words of clauses alone are turned. Must-fail edits are turned by tools/turn_edits.py.
"""
import os
import re

NAME = r"(?<![\w'₀-₉·-])[A-Za-z_][\w'₀-₉]*(?:-[\w'₀-₉]+)*(?![\w'₀-₉-])"
# file (below crates/; '' for all): old name, new name
SPECIAL = [
    ("trycalls/specs/Runs.antt", "goesOn", "GoesOn"),
    ("set_rules/proofs/Examples.antt", "outOfRange", "edit_out_of_range"),
    ("", "circlePasses", "CirclePasses"),
    ("", "othersRefused", "refuses_others"),
    ("", "lengths-in", "lengths_within"),
    ("", "piece-room", "piece_length"),
    ("", "found_in", "found_in_lem"),
    ("", "key_in", "key_in_lem"),
    ("isolation/proofs/Edits.antt", "row_fits", "row_fits_lem"),
    ("rows/proofs/Typed.antt", "view_fields", "view_fields_lem"),
    ("explain/proofs/explain_rows/Proof.antt", "view_fields", "view_fields_lem"),
    ("edit_rules/proofs/Outcomes.antt", "rows_in", "rows_in_lem"),
    ("edit_rows/proofs/Stores.antt", "rows_in", "rows_in_lem"),
    ("edit_sets/proofs/Sets.antt", "rows_in", "rows_in_lem"),
    ("", "rows_in", "rows_within"),
    ("", "getD-behind", "get_or-behind"),
    ("", "getD-first", "get_or-first"),
    ("", "getD-numbers", "get_or-numbers"),
    ("", "getD-other", "get_or-other"),
    ("", "getD-within", "get_or-within"),
]


def snake(name):
    return re.sub(r"(?<=[a-z0-9₀-₉])([A-Z])", lambda m: "_" + m.group(1).lower(), name)


def is_camel(name):
    return re.match(r"^[a-z][\w'₀-₉-]*[a-z0-9₀-₉][A-Z]", name) is not None and re.search(r"(?:^|-)[a-z][\w'₀-₉]*[a-z0-9₀-₉][A-Z]", name) is not None


def files(root):
    for folder, dirs, names in os.walk(root):
        dirs[:] = sorted(d for d in dirs if d not in ("out", "must-fail"))
        for n in sorted(names):
            if n.endswith((".antt", ".rt")):
                yield os.path.join(folder, n)


def dashed(root):
    """Fields and constructors with a dash, and what else specs/ defines with one."""
    found = set()
    for p in files(root):
        if not p.endswith(".antt"):
            continue
        inside, depth = False, 0
        for line in open(p, encoding="utf-8"):
            code = line.split("--")[0].rstrip()
            if not code.strip():
                continue
            indent = len(code) - len(code.lstrip())
            if inside and indent <= depth:
                inside = False
            if re.match(r"\s*(?:pub )?(?:record|data)\b", code):
                inside, depth = True, indent
                continue
            m = re.match(r"\s*(?:(?:abbrev|unfoldable|pub) )*([A-Za-z_][\w'₀-₉]*(?:-[\w'₀-₉]+)+)\s*(?:[({].*)?:", code)
            if m and (inside or "/specs/" in p):
                found.add(m.group(1))
    return found


def turn(text, table, dashes):
    def one(m):
        n = m.group(0)
        n = table.get(n, n)
        if n in dashes:
            n = n.replace("-", "_")
        return snake(n) if is_camel(n) else n

    return re.sub(NAME, one, text)


def in_antt(text, table, dashes):
    out = []
    for line in text.split("\n"):
        code, mark, said = line.partition("--")
        said = re.sub(r"`[^`]*`", lambda m: turn(m.group(0), table, dashes), said)
        out.append(turn(code, table, dashes) + mark + said)
    return "\n".join(out)


def in_rt(text, table, dashes):
    """No name of Rust's is in camel case that begins small, nor has a dash: so it is those of clauses and ghost imports alone."""
    out = []
    for line in text.split("\n"):
        code, mark, said = line.partition("//")
        parts = re.split(r'("(?:[^"\\]|\\.)*")', code)
        out.append("".join(s if s.startswith('"') else turn(s, table, dashes) for s in parts) + mark + said)
    return "\n".join(out)


def main():
    root = "crates"
    dashes = dashed(root)
    for p in files(root):
        where = os.path.relpath(p, root)
        table = {old: new for file, old, new in reversed(SPECIAL) if file in ("", where)}
        table |= {old: new for file, old, new in SPECIAL if file == where}
        text = open(p, encoding="utf-8").read()
        new = (in_antt if p.endswith(".antt") else in_rt)(text, table, dashes)
        if new != text:
            open(p, "w", encoding="utf-8").write(new)


if __name__ == "__main__":
    main()
