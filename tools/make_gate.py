#!/usr/bin/env python3
"""Makes the table of docs/gate.md from the crates and from tools/gate_costs.txt: what each crate's own check costs from nothing.

usage: tools/make_gate.py            writes what stands between the two marks in docs/gate.md
       tools/make_gate.py --check    ends with 1 where it isn't what would be written
       tools/make_gate.py --take     takes new costs from the standard input into tools/gate_costs.txt, with today's date

Lines are counted here, without blank ones; a crate's tests count as code. The costs are measured by checking each crate from
nothing, `rt`'s own caches empty. What is taken is a table whose head names at least the columns `crate`, `processor s` and
`peak MB`, each between `|`; crates that it doesn't name keep their costs.
"""
import datetime, os, sys

sys.dont_write_bytecode = True
from make_definitions import TOP, crates

PAGE = os.path.join(TOP, "docs", "gate.md")
COSTS = os.path.join(TOP, "tools", "gate_costs.txt")
MARK = "<!-- What follows is made by tools/make_gate.py. -->\n"
END = "<!-- What follows is written by hand again. -->\n"
COSTS_HEAD = """# What the check of a crate costs, measured by checking each crate from nothing, `rt`'s own caches empty.
# crate, processor s, peak MB of one process, date
"""
HEAD = "| crate | code | definitions | proofs | edits | processor s | peak MB | measured |\n|---|---|---|---|---|---|---|---|"


def lines(folder, ending):
    count = 0
    for root, _, names in os.walk(folder):
        for name in names:
            if name.endswith(ending):
                with open(os.path.join(root, name), encoding="utf-8") as file:
                    count += sum(1 for line in file if line.strip())
    return count


def edits(folder):
    return sum(1 for name in os.listdir(folder) if name.endswith(".edit")) if os.path.isdir(folder) else 0


def costs():
    found = {}
    for line in open(COSTS, encoding="utf-8"):
        words = line.split("#")[0].split()
        if words:
            name, seconds, peak, date = words
            found[name] = (int(seconds), int(peak), date)
    return found


def page():
    measured, out, sums = costs(), [HEAD], [0] * 5
    for crate in crates():
        folder = os.path.join(TOP, "crates", crate)
        counts = [lines(os.path.join(folder, "src"), ".rt"), lines(os.path.join(folder, "specs"), ".antt"),
                  lines(os.path.join(folder, "proofs"), ".antt"), edits(os.path.join(folder, "must-fail"))]
        cost = measured.get(crate)
        sums = [total + more for total, more in zip(sums, counts + [cost[0] if cost else 0])]
        out.append("| " + " | ".join(str(cell) for cell in (crate, *counts, *(cost or ("", "", "")))) + " |")
    out.append("| all | " + " | ".join(str(total) for total in sums) + " | | |")
    return "\n".join(out) + "\n\n"


def cells(line):
    return [cell.strip() for cell in line.strip().strip("|").split("|")]


def take(table):
    found, head = costs(), None
    for line in table:
        row = cells(line)
        if "processor s" in row:
            head = row
        elif head and len(row) == len(head) and not row[0].startswith("-"):
            named = dict(zip(head, row))
            if named["crate"] not in crates():
                sys.exit(f"not taken, no crate of crates.txt: {named['crate']}")
            found[named["crate"]] = (int(named["processor s"]), int(named["peak MB"]), datetime.date.today().isoformat())
    with open(COSTS, "w", encoding="utf-8") as out:
        out.write(COSTS_HEAD)
        for crate in crates():
            if crate in found:
                out.write(" ".join(str(cell) for cell in (crate, *found[crate])) + "\n")


def main():
    if "--take" in sys.argv[1:]:
        take(sys.stdin)
    text = open(PAGE, encoding="utf-8").read()
    upper, _, rest = text.partition(MARK)
    lower, _, end = rest.partition(END)
    made = "\n" + page()
    if "--check" in sys.argv[1:]:
        print("docs/gate.md is as it would be made" if lower == made else "docs/gate.md: make it again")
        sys.exit(0 if lower == made else 1)
    open(PAGE, "w", encoding="utf-8").write(upper + MARK + made + END + end)


main()
