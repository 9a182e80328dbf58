#!/usr/bin/env python3
"""Writes crates/bit_boards/src/tables.rt: the sets of squares that bit_boards looks up.

usage: tools/make_masks.py            writes the file
       tools/make_masks.py --check    ends with 1 where the file isn't what would be written

Nothing rests on this script: each table is proved equal to its plain definition.
"""
import os, sys

TOP = os.path.dirname(os.path.dirname(os.path.abspath(__file__)))
TABLES = os.path.join(TOP, "crates", "bit_boards", "src", "tables.rt")

# The directions in their order, as changes of file and row.
DIRECTIONS = [(0, -1), (-1, -1), (-1, 0), (-1, 1), (0, 1), (1, 1), (1, 0), (1, -1)]
NAMES = ["Up", "UpRight", "Right", "DownRight", "Down", "DownLeft", "Left", "UpLeft"]

# The single steps and jumps of each gait, as changes of file and row, for Black.
SIDES = [(-1, 0), (1, 0)]
FORWARD = [(0, -1), (-1, -1), (1, -1)]
GAITS = [
    ("no steps: lance, bishop and rook", []),
    ("pawn", [(0, -1)]),
    ("knight", [(-1, -2), (1, -2)]),
    ("silver", FORWARD + [(-1, 1), (1, 1)]),
    ("gold, and promoted pawn, lance, knight and silver", FORWARD + SIDES + [(0, 1)]),
    ("king", DIRECTIONS),
    ("promoted bishop", SIDES + [(0, -1), (0, 1)]),
    ("promoted rook", [(-1, -1), (-1, 1), (1, -1), (1, 1)]),
]
# The gaits of the kinds in their order, and of their promoted sides.
GAIT_OF = [[1, 0, 2, 3, 4, 0, 0, 5], [4, 4, 4, 4, 4, 6, 7, 5]]
JUMPS = [(-1, -2), (1, -2), (-1, 2), (1, 2)]


def mask(squares):
    return sum(1 << (9 * file + row) for file, row in squares if 0 <= file < 9 and 0 <= row < 9)


def ray(square, change):
    return mask((square // 9 + k * change[0], square % 9 + k * change[1]) for k in range(1, 9))


def near(square, changes):
    return mask((square // 9 + file, square % 9 + row) for file, row in changes)


def row_of_table(values, indent):
    words = ["%#x," % value for value in values]
    lines, line = [], ""
    for word in words:
        if len(indent) + len(line) + len(word) + 1 > 120:
            lines.append(indent + line.rstrip())
            line = ""
        line += word + " "
    return lines + [indent + line.rstrip()]


def table(doc, name, values):
    return ["// " + doc, "#[rattlefmt::skip]", "pub(crate) static %s: [u128; 81] = [" % name] + row_of_table(values, "    ") + ["];", ""]


def nested(doc, name, groups):
    lines = ["// " + doc, "#[rattlefmt::skip]", "pub(crate) static %s: [[u128; 81]; %d] = [" % (name, len(groups))]
    for title, values in groups:
        lines += ["    // " + title, "    ["] + row_of_table(values, "        ") + ["    ],"]
    return lines + ["];", ""]


def steps(squares):
    lines = [
        "// The squares to which each side's gaits step from each square: Black's, then White's, and the",
        "// gaits in their order.",
        "#[rattlefmt::skip]",
        "pub(crate) static STEPS: [[[u128; 81]; %d]; 2] = [" % len(GAITS),
    ]
    for side, forward in (("Black", 1), ("White", -1)):
        lines.append("    [")
        for title, changes in GAITS:
            lines += ["        // %s: %s" % (side, title), "        ["]
            lines += row_of_table([near(s, [(file, forward * row) for file, row in changes]) for s in squares], "            ")
            lines.append("        ],")
        lines.append("    ],")
    return lines + ["];", ""]


def toward():
    lines = [
        "// The direction from a square to another, by how far the files differ, and then the rows: 8 is not",
        "// at all, 0 is 8 less.",
        "#[rattlefmt::skip]",
        "pub(crate) static TOWARD: [[Option<Direction>; 17]; 17] = [",
    ]
    sign = lambda x: (x > 8) - (x < 8)
    for file in range(17):
        words = []
        for row in range(17):
            on_line = (file, row) != (8, 8) and (file == 8 or row == 8 or abs(file - 8) == abs(row - 8))
            words.append("Some(%s)" % NAMES[DIRECTIONS.index((sign(file), sign(row)))] if on_line else "None")
        lines.append("    [" + ", ".join(words) + "],")
    return lines + ["];", ""]


def slides(promoted, kind, file, ahead):
    if kind == 1:
        return not promoted and file == 0 and ahead > 0
    if kind == 5:
        return file != 0 and abs(file) == abs(ahead)
    return kind == 6 and (file == 0) != (ahead == 0)


def goes(side, promoted, kind, file, row):
    forward = -row if side == 0 else row
    return (file, -forward) in GAITS[GAIT_OF[promoted][kind]][1] or slides(promoted, kind, file, forward)


def going():
    lines = [
        "// Which pieces go from a square to another on an empty board, by how far the files differ, and then",
        "// the rows, as above: bit 16 * side + 8 * promoted + kind, White being 1, promoted 1, and the kinds",
        "// in their order.",
        "#[rattlefmt::skip]",
        "pub(crate) static GOING: [[u32; 17]; 17] = [",
    ]
    for file in range(17):
        words = []
        for row in range(17):
            bits = 0
            for side in range(2):
                for promoted in range(2):
                    for kind in range(8):
                        if goes(side, promoted, kind, file - 8, row - 8):
                            bits |= 1 << (16 * side + 8 * promoted + kind)
            words.append("%#x" % bits)
        lines.append("    [" + ", ".join(words) + "],")
    return lines + ["];", ""]


def written():
    squares = range(81)
    lines = ["// Written by tools/make_masks.py. Do not edit.", ""]
    lines += ["use crate::Direction::{self, Down, DownLeft, DownRight, Left, Right, Up, UpLeft, UpRight};", ""]
    lines += nested("All squares that lie in a direction from each square.", "RAYS", [(name, [ray(s, d) for s in squares]) for name, d in zip(NAMES, DIRECTIONS)])
    lines += toward()
    lines += going()
    lines += steps(squares)
    lines += table("The squares that share a line with each square.", "LINES", [sum(ray(s, d) for d in DIRECTIONS) for s in squares])
    lines += table("The neighbours of each square, and the squares two rows and a file away.", "AROUND", [near(s, DIRECTIONS + JUMPS) for s in squares])
    return "\n".join(lines).rstrip() + "\n"


def main():
    text = written()
    if sys.argv[1:] == ["--check"]:
        if open(TABLES, encoding="utf-8").read() != text:
            sys.exit("crates/bit_boards/src/tables.rt isn't what tools/make_masks.py writes")
    else:
        open(TABLES, "w", encoding="utf-8").write(text)


main()
