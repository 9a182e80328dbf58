#!/usr/bin/env python3
"""Makes docs/definitions.md from the specs/ of the crates: each definition's name and the sentence above it.

usage: tools/make_definitions.py            writes docs/definitions.md
       tools/make_definitions.py --check    ends with 1, and names what is missing, where the file isn't what would be written

The first lines of a crate's specs/Lib.antt say where its definitions come from; the first lines of a file say what it holds.
"""
import os, re, sys

TOP = os.path.dirname(os.path.dirname(os.path.abspath(__file__)))
HEAD = """# Definitions

The definitions in `specs/`, by crate and file, each with its sentence as it stands there. This page is made from them by
`tools/make_definitions.py`. Behind a crate's name stands the public source of its definitions.
"""
DEFINED = re.compile(r"^(?:abbrev pub|unfoldable pub|pub record|pub data|pub|abbrev|unfoldable|infixl? \d+) ?([^\s:(]+)")


def crates():
    for line in open(os.path.join(TOP, "crates.txt"), encoding="utf-8"):
        line = line.split("#")[0]
        if ":" in line:
            yield line.split(":")[0].split()[0]


def comment_of(lines, end):
    start = end
    while start > 0 and lines[start - 1].startswith("-- "):
        start -= 1
    return " ".join(line[3:].strip() for line in lines[start:end])


def head_of(lines):
    end = 0
    while end < len(lines) and lines[end].startswith("-- "):
        end += 1
    return comment_of(lines, end)


def rows_of(lines):
    for number, line in enumerate(lines):
        found = DEFINED.match(line)
        if not found or line.startswith("pub mod") or line.startswith("infix"):
            continue
        yield found.group(1), comment_of(lines, number) if number > 0 else ""


def page():
    out, bare = [HEAD], []
    for crate in crates():
        folder = os.path.join(TOP, "crates", crate, "specs")
        if not os.path.isdir(folder):
            continue
        names = [name for name in sorted(os.listdir(folder)) if name.endswith(".antt") and name != "Lib.antt"]
        if not names:
            continue
        source = head_of(open(os.path.join(folder, "Lib.antt"), encoding="utf-8").read().split("\n"))
        out.append(f"## {crate}" + (f" ({source.rstrip('.')})" if source else "") + "\n")
        for name in names:
            lines = open(os.path.join(folder, name), encoding="utf-8").read().split("\n")
            rows = list(rows_of(lines))
            if not rows:
                continue
            out.append(f"**{name}**\n")
            if head_of(lines):
                out.append(head_of(lines) + "\n")
            out.append("| name | sentence |\n|---|---|")
            for word, sentence in rows:
                if not sentence:
                    bare.append(f"{crate}/specs/{name}: {word}")
                out.append(f"| `{word}` | {sentence.replace('|', chr(92) + '|')} |")
            out.append("")
    return "\n".join(out), bare


def main():
    text, bare = page()
    path = os.path.join(TOP, "docs", "definitions.md")
    for row in bare:
        print("no sentence:", row, file=sys.stderr)
    if "--check" in sys.argv[1:]:
        same = os.path.exists(path) and open(path, encoding="utf-8").read() == text
        print("docs/definitions.md is as it would be made" if same else "docs/definitions.md differs from what would be made")
        sys.exit(0 if same and not bare else 1)
    with open(path, "w", encoding="utf-8") as out:
        out.write(text)
    sys.exit(1 if bare else 0)


if __name__ == "__main__":
    main()
