#!/usr/bin/env python3
"""turn_edits.py: brings the must-fail edits of commit 6f48391 to the text that the files have after port.py and respell.py.

usage: python3 tools/turn_edits.py          at the top, once, behind tools/respell.py

An `old:` text is found in the file as it was, and the words at its place in the file as it is are the new one; a `new:` text is turned
word by word, as the file's own words were, and else as those of all files were. What could not be turned is printed.
"""
import collections
import difflib
import glob
import os
import re
import subprocess

LANDED = "6f483910c9b03268ddcc800b8e2d2fb2e0d0bb88"
WORD = re.compile(r"[A-Za-z_][\w'₀-₉′]*(?:[-·][\w'₀-₉′]+)*|\d+|\s+|.", re.S)


def words(text):
    return WORD.findall(text)


def landed(path):
    r = subprocess.run(["git", "show", f"{LANDED}:{path}"], capture_output=True, text=True)
    return r.stdout if r.returncode == 0 else None


def real(tokens):
    return [(i, t) for i, t in enumerate(tokens) if not t.isspace()]


def starts(tokens):
    at, n = [], 0
    for t in tokens:
        at.append(n)
        n += len(t)
    return at + [n]


def tight(text):
    """A projection is written tight: `e .operation` is `e.operation`."""
    text = re.sub(r"(?<=[\w)'₀-₉]) (\.[a-z0-9_])", r"\1", text)
    return re.sub(r"\((\w[\w'.]*)\)(?=\s|$|\))", lambda m: m.group(1) if "." in m.group(1) else m.group(0), text)


class File:
    def __init__(self, path, old, new):
        self.old, self.new = old, new
        a, b = words(old), words(new)
        ra, rb = real(a), real(b)
        sa, sb = starts(a), starts(b)
        self.pairs = []
        self.table = collections.defaultdict(collections.Counter)
        m = difflib.SequenceMatcher(None, [t for _, t in ra], [t for _, t in rb], autojunk=False)
        for tag, i1, i2, j1, j2 in m.get_opcodes():
            if tag == "equal" or (tag == "replace" and i2 - i1 == j2 - j1):
                for k in range(i2 - i1):
                    i, j = ra[i1 + k][0], rb[j1 + k][0]
                    self.pairs.append((sa[i], sa[i + 1], sb[j], sb[j + 1]))
                    self.table[a[i]][b[j]] += 1
            elif tag == "replace":
                i, i_, j, j_ = ra[i1][0], ra[i2 - 1][0], rb[j1][0], rb[j2 - 1][0]
                self.pairs.append((sa[i], sa[i_ + 1], sb[j], sb[j_ + 1]))
            elif tag == "delete":
                i, i_ = ra[i1][0], ra[i2 - 1][0]
                at = sb[rb[j1][0]] if j1 < len(rb) else len(new)
                self.pairs.append((sa[i], sa[i_ + 1], at, at))

    def place(self, begin, end):
        hit = [p for p in self.pairs if p[0] < end and begin < p[1]]
        if not hit:
            return None
        return min(p[2] for p in hit), max(p[3] for p in hit)


def turn(text, own, all_):
    out = []
    for t in words(text):
        if not t.isspace():
            for table in (own, all_):
                if t in table:
                    t = table[t].most_common(1)[0][0]
                    break
        out.append(t)
    return tight("".join(out)).replace("Rattle·", "Rattle.")


def main():
    files, all_ = {}, collections.defaultdict(collections.Counter)
    names = subprocess.run(["git", "ls-tree", "-r", "--name-only", LANDED, "crates"], capture_output=True, text=True).stdout.split("\n")
    for p in names:
        if p.endswith((".rt", ".antt")) and os.path.exists(p):
            f = files[p] = File(p, landed(p), open(p, encoding="utf-8").read())
            for t, c in f.table.items():
                all_[t].update(c)
    bad = good = 0
    for p in sorted(n for n in names if n.endswith(".edit")):
        lines = landed(p).rstrip("\n").split("\n")
        crate = os.path.dirname(os.path.dirname(p))
        f, out, said, shift = None, [], [], None
        for line in lines:
            kind, _, text = line.partition(": ")
            if kind == "file":
                f = files.get(os.path.join(crate, text))
                out.append(line)
            elif kind == "old":
                n = f.old.count(text) if f else 0
                new = None
                if n == 1:
                    at = f.old.index(text)
                    to = f.place(at, at + len(text))
                    if to:
                        new = text[:len(text) - len(text.lstrip())] + f.new[to[0]:to[1]].strip("\n") + text[len(text.rstrip()):]
                        if "\n" in new:
                            said.append("old takes several lines: " + repr(new))
                            new = None
                        elif f.new.count(new) != 1:
                            said.append(f"old stands {f.new.count(new)} times: " + new)
                else:
                    new = turn(text, f.table if f else {}, all_)
                    if not f or f.new.count(new) != 1:
                        said.append(f"old stood {n} times: {text}")
                out.append("old: " + (new if new is not None else turn(text, f.table if f else {}, all_)))
            elif kind == "new":
                out.append("new: " + turn(text, f.table if f else {}, all_))
            else:
                out.append(line)
        open(p, "w", encoding="utf-8").write("\n".join(out) + "\n")
        if said:
            bad += 1
            print(p, *said, sep="\n    ")
        else:
            good += 1
    print(f"{good} turned, {bad} to look at")


if __name__ == "__main__":
    main()
