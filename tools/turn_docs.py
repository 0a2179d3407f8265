#!/usr/bin/env python3
"""turn_docs.py: respells, in README.md, CONTRIBUTING.md and docs/, the names of definitions, fields and lemmas that stand in backticks.

usage: python3 tools/turn_docs.py          at the top, once, behind tools/respell.py

RFC 3415's own words stay where a page speaks of the RFC's columns and values.
"""
import collections
import glob
import re
import sys

sys.path.insert(0, "tools")
import respell  # noqa: E402
import turn_edits  # noqa: E402

RFC = {"authPriv", "noAuthNoPriv", "authNoPriv", "readOnly", "nonVolatile", "volatile", "permanent", "viewType", "securityModel", "securityName",
       "securityLevel", "contextName", "groupName", "variableName", "vacmContextTable", "vacmSecurityToGroupTable", "vacmAccessTable",
       "vacmViewTreeFamilyTable"}


def names():
    import os
    import subprocess
    table = collections.defaultdict(collections.Counter)
    listed = subprocess.run(["git", "ls-tree", "-r", "--name-only", turn_edits.LANDED, "crates"], capture_output=True, text=True).stdout.split("\n")
    second = open("docs/PORT.md").read().split("\n")[1]
    for p in listed:
        if p.endswith(".antt"):
            r = subprocess.run(["git", "show", f"{second}:{p}"], capture_output=True, text=True)
            if r.returncode == 0:
                for t, c in turn_edits.File(p, turn_edits.landed(p), r.stdout).table.items():
                    table[t].update(c)
    return {t: c.most_common(1)[0][0] for t, c in table.items()}


def main():
    table = names()

    def one(m):
        n = m.group(0)
        if n in RFC or not (respell.is_camel(n) or "-" in n):
            return n
        return table.get(n, n)

    for p in ["README.md", "CONTRIBUTING.md", *sorted(glob.glob("docs/*.md")), *sorted(glob.glob("docs/changes/*.md"))]:
        if p.endswith("PORT.md"):
            continue
        text = open(p, encoding="utf-8").read()
        new = re.sub(r"`[^`\n]+`", lambda m: re.sub(respell.NAME, one, m.group(0)), text)
        if new != text:
            open(p, "w", encoding="utf-8").write(new)


if __name__ == "__main__":
    main()
