#!/usr/bin/env python3
"""Writes a certificate with N entries to standard output, to measure reading and checking.

usage: large_certificate.py N           an escape's, N from 1 to 123120
       large_certificate.py mate N      a mate's, N from 1 to 1683000
       large_certificate.py bound N     a bound behind `none within 1`, N from 1 to 1683000

In the escape the attacker, Black, has no piece, so no position has a check and any list of positions is closed. The defender's king and a
gold stand on all pairs of squares, with 0 to 18 pawns in the defender's hand. In the mate G*1b mates at once. In the bound Black has a
gold in hand, and each check with it has an answer. In both, two lances of the defender stand anywhere on rows d to h, where they
do nothing, and pawns, knights, silvers and golds in his hand make the other differences.
"""
import itertools, sys


def row_text(row, pieces):
    run, text = 0, ""
    for file in range(9, 0, -1):
        piece = pieces.get((file, row))
        if piece is None:
            run += 1
        else:
            text, run = text + (str(run) if run else "") + piece, 0
    return text + (str(run) if run else "")


def board_text(pieces):
    return "/".join(row_text(row, pieces) for row in range(1, 10))


def counted(count, letter):
    return "" if count == 0 else letter if count == 1 else f"{count}{letter}"


SQUARES = [(file, row) for file in range(1, 10) for row in range(1, 10)]


def escapes():
    for pawns in range(19):
        for king, gold in itertools.permutations(SQUARES, 2):
            yield f"{board_text({king: 'k', gold: 'g'})} b {counted(pawns, 'p') or '-'}"


def with_lances(others):
    """Positions of these pieces with two lances and what is in the hands, which begin with Black's gold."""
    for pair in itertools.combinations([square for square in SQUARES if 4 <= square[1] <= 8], 2):
        board = board_text({**others, **{square: "l" for square in pair}})
        for golds, silvers, knights, pawns in itertools.product(range(4), range(5), range(5), range(17)):
            yield f"{board} b G{counted(golds, 'g')}{counted(silvers, 's')}{counted(knights, 'n')}{counted(pawns, 'p')}"


def listed(positions, count):
    found = sorted(itertools.islice(positions, count))
    if len(found) < count:
        sys.exit(f"there are {len(found)} alone")
    return found


kind, count = (["escape"] + sys.argv[1:])[-2], int(sys.argv[-1])
if kind == "escape":
    entries = listed(escapes(), count)
    lines = [f"certificate 1 escape {count}", f"problem {entries[0]}", *entries]
elif kind == "mate":
    entries = listed(with_lances({(1, 1): "k", (1, 3): "P"}), count)
    lines = [f"certificate 1 mate {count}", f"problem {entries[0]}", *(f"1 G*1b {entry}" for entry in entries)]
else:
    entries = listed(with_lances({(5, 1): "k"}), count)
    lines = ["none within 1", f"problem {entries[0]}", f"bound 1 {count}", *(f"1 {entry}" for entry in entries)]
print("\n".join([*lines, "end"]))
