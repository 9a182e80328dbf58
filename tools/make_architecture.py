#!/usr/bin/env python3
"""Makes the table of docs/architecture.md from crates.txt and the first lines of each crate's lib.rt or main.rt.

usage: tools/make_architecture.py            writes what stands below the mark in docs/architecture.md
       tools/make_architecture.py --check    ends with 1 where it isn't what would be written

A crate is said to stand on those that its line in crates.txt names, without those that these stand on already.
"""
import os, re, sys

TOP = os.path.dirname(os.path.dirname(os.path.abspath(__file__)))
PAGE = os.path.join(TOP, "docs", "architecture.md")
MARK = "<!-- What follows is made by tools/make_architecture.py. -->\n"


def listed():
    """The crates from the lowest on, each with those that its line names."""
    crates = {}
    with open(os.path.join(TOP, "crates.txt"), encoding="utf-8") as file:
        for line in file:
            name, colon, below = line.split("#")[0].partition(":")
            if colon:
                crates[name.strip()] = below.split()
    return crates


def sentence(crate):
    """What the crate says of itself in its first sentence."""
    for name in ("lib.rt", "main.rt"):
        path = os.path.join(TOP, "crates", crate, "src", name)
        if os.path.exists(path):
            with open(path, encoding="utf-8") as file:
                lines = [line[3:].strip() for line in file if line.startswith("//!")]
            said = " ".join(lines).strip() if "" not in lines else " ".join(lines[: lines.index("")])
            said = re.sub(r"\[(`[^`]*`)\](\([^)]*\))?", r"\1", said)
            return re.split(r"(?<=[.`]) (?=[A-Z])", said)[0].replace("|", "\\|")
    sys.exit(f"{crate} has neither a lib.rt nor a main.rt")


def made():
    crates = listed()
    below = {}

    def reached(crate):
        if crate not in below:
            below[crate] = set(crates.get(crate, ())).union(*[reached(it) for it in crates.get(crate, ())])
        return below[crate]

    rows = ["\n| crate | stands on | what it is |\n|---|---|---|\n"]
    for crate, named in crates.items():
        least = [it for it in named if not any(it in reached(other) for other in named if other != it)]
        rows.append(f"| `{crate}` | {', '.join(least)} | {sentence(crate)} |\n")
    return "".join(rows)


def main():
    with open(PAGE, encoding="utf-8") as file:
        upper, mark, lower = file.read().partition(MARK)
    if not mark:
        sys.exit(f"{PAGE} has no mark")
    if sys.argv[1:] == ["--check"]:
        print("docs/architecture.md is as it would be made" if lower == made() else "docs/architecture.md: make it again")
        sys.exit(lower != made())
    with open(PAGE, "w", encoding="utf-8") as file:
        file.write(upper + mark + made())


main()
