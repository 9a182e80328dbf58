#!/usr/bin/env python3
"""Makes the lower part of docs/promises.md from the src/ of the crates: each public call, and the names of its clauses.

usage: tools/make_promises.py            writes what stands below the mark in docs/promises.md
       tools/make_promises.py --check    ends with 1 where it isn't what would be written

A call is public where src/lib.rt names it, its type or its trait. Its row has the first sentence of its comment; what it asks of
its caller; and the names of its clauses, `it` for one that has no name.
"""
import os, re, sys

sys.dont_write_bytecode = True
from make_definitions import TOP, crates

PAGE = os.path.join(TOP, "docs", "promises.md")
MARK = "<!-- What follows is made by tools/make_promises.py. -->\n"
FN = re.compile(r"^( *)(pub )?fn ([a-z_0-9]+)")
CLAUSE = re.compile(r"^ *(requires|ensures) ([a-z_0-9]+ )?\{")
BLOCK = re.compile(r"^(?:pub )?(?:impl(?:<[^{]*?>)?|trait) (?:(?P<trait>[A-Z]\w*)(?:<[^{]*>)? for )?(?P<name>[A-Z]\w*)")


def exported(folder):
    text = open(os.path.join(folder, "lib.rt"), encoding="utf-8").read()
    names = set(re.findall(r"^pub fn (\w+)", text, re.M))
    for module in re.findall(r"^pub mod (\w+);", text, re.M):
        names |= set(re.findall(r"^pub fn (\w+)", open(os.path.join(folder, module + ".rt"), encoding="utf-8").read(), re.M))
    for group in re.findall(r"pub use [a-z_:]+::(\{[^}]*\}|\w+);", text):
        names |= set(re.findall(r"\w+", group))
    return names


def sentence(comment):
    text = " ".join(comment)
    found = re.match(r"(.*?\.)(?: |$)", text)
    text = found.group(1) if found else text
    return re.sub(r"\[(`[^`\]]*`)\](?:\([^)]*\))?", r"\1", text).replace("|", "\\|")


def calls(path, names):
    block, kind, comment, row = None, None, [], None
    for line in open(path, encoding="utf-8"):
        line = line.rstrip("\n")
        found = BLOCK.match(line)
        if found:
            block, kind = found.group("name"), "trait" if found.group("trait") else ("of" if "trait " in line.split("{")[0] else "impl")
        elif line == "}":
            block = None
        text = line.strip()
        if text.startswith("///"):
            comment.append(text[3:].strip())
            continue
        found = FN.match(line)
        if found:
            inside = len(found.group(1)) > 0
            public = bool(found.group(2)) or (inside and kind == "of")
            shown = public and ((inside and block in names and kind != "trait") or (not inside and found.group(3) in names))
            row = [f"{block}::{found.group(3)}" if inside else found.group(3), sentence(comment), [], []] if shown else None
            if row:
                yield row
        elif row is not None:
            found = CLAUSE.match(line)
            if found:
                row[2 if found.group(1) == "requires" else 3].append((found.group(2) or "it").strip())
            if text in ("{", "{}", "}"):
                row = None
        if text and not text.startswith("#["):
            comment = []


def page():
    out = []
    for crate in crates():
        folder = os.path.join(TOP, "crates", crate, "src")
        if not os.path.exists(os.path.join(folder, "lib.rt")):
            continue
        names, rows = exported(folder), []
        for name in sorted(os.listdir(folder)):
            if name.endswith(".rt") and name != "tests.rt":
                rows += list(calls(os.path.join(folder, name), names))
        if not rows:
            continue
        out.append(f"### {crate}\n\n| call | what it gives | asks | clauses |\n|---|---|---|---|")
        for name, what, asks, clauses in rows:
            shown = lambda names: ", ".join(f"`{n}`" if n != "it" else "it" for n in names)
            out.append(f"| `{name}` | {what} | {shown(asks)} | {shown(clauses)} |")
        out.append("")
    return "\n".join(out)


def main():
    text = open(PAGE, encoding="utf-8").read()
    upper, _, lower = text.partition(MARK)
    made = "\n" + page()
    if "--check" in sys.argv:
        print("docs/promises.md is as it would be made" if lower == made else "docs/promises.md: make it again")
        sys.exit(0 if lower == made else 1)
    open(PAGE, "w", encoding="utf-8").write(upper + MARK + made)


main()
