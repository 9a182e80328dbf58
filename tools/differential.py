#!/usr/bin/env python3
"""Asks the solver about many small problems in several ways, and tells where two answers differ.

    tools/differential.py TSUME [COMPARE] [--count N] [--seed N]

TSUME is the built program, COMPARE the built program of crates/compare. The problems are made here, at random but by the seed: few pieces
near a king, either side attacking, with a king of its own or without. Of each, decided by `collection`:

- its certificate is accepted by `check --problem` of the problem in the line, and claims the verdict;
- with 1 and with 3 threads, and with the smallest table, what is told is the same, or one of both gave up;
- with less room and fewer visits it is the same, or it gave up and says so with the number that was given;
- with --rest, it is what is told of the position in which the rest was added by this script;
- COMPARE finds no verdict of the plain search that differs.
"""
import random
import subprocess
import sys

LETTERS = "PLNSGBRK"
FULL = {"P": 18, "L": 4, "N": 4, "S": 4, "G": 4, "B": 2, "R": 2}


def is_placed(kind, is_black, row):
    """Whether a piece of this kind, unpromoted, may stand in this row (0 is the first)."""
    depth = row if is_black else 8 - row
    return depth >= {"P": 1, "L": 1, "N": 2}.get(kind, 0)


def spelled(board, hands, is_black):
    rows = []
    for row in range(9):
        text, empty = "", 0
        for file in range(9):
            piece = board.get((file, row))
            if piece is None:
                empty += 1
                continue
            text += (str(empty) if empty else "") + piece
            empty = 0
        rows.append(text + (str(empty) if empty else ""))
    hand = ""
    for side in (str.upper, str.lower):
        for kind in "RBGSNLP":
            count = hands.get(side(kind), 0)
            if count:
                hand += (str(count) if count > 1 else "") + side(kind)
    return f"{'/'.join(rows)} {'b' if is_black else 'w'} {hand or '-'}"


def problem(chance):
    """A position at random, with its board, hands and side; perhaps no problem, as one whose defender is in check."""
    is_black = chance.random() < 0.5
    board, hands, used = {}, {}, {}
    king = (chance.randrange(9), chance.randrange(3) if is_black else 6 + chance.randrange(3))
    board[king] = "k" if is_black else "K"
    if chance.random() < 0.4:
        own = (chance.randrange(9), 5 + chance.randrange(4) if is_black else chance.randrange(4))
        if own not in board:
            board[own] = "K" if is_black else "k"
    for _ in range(chance.randint(2, 6)):
        kind = chance.choice("PPLNSGGBR")
        if used.get(kind, 0) >= FULL[kind]:
            continue
        used[kind] = used.get(kind, 0) + 1
        owner_is_black = is_black if chance.random() < 0.7 else not is_black
        letter = kind if owner_is_black else kind.lower()
        at = (king[0] + chance.randint(-2, 2), king[1] + chance.randint(-2, 2))
        is_free = 0 <= at[0] < 9 and 0 <= at[1] < 9 and at not in board
        promoted = kind != "G" and chance.random() < 0.25
        is_second_pawn = kind == "P" and any(board.get((at[0], row)) == letter for row in range(9))
        if chance.random() < 0.4 or not is_free or not (promoted or is_placed(kind, owner_is_black, at[1]) and not is_second_pawn):
            hands[letter] = hands.get(letter, 0) + 1
        else:
            board[at] = ("+" if promoted else "") + letter
    return board, hands, is_black


def with_rest(board, hands, is_black):
    count = {}
    for piece in list(board.values()) + [k for k, n in hands.items() for _ in range(n)]:
        kind = piece[-1].upper()
        count[kind] = count.get(kind, 0) + 1
    more = dict(hands)
    for kind, most in FULL.items():
        left = most - count.get(kind, 0)
        letter = kind.lower() if is_black else kind
        if left:
            more[letter] = more.get(letter, 0) + left
    return board, more, is_black


def run(program, words, text):
    done = subprocess.run([program, *words], input=text, capture_output=True, text=True)
    if done.returncode not in (0, 1, 3):
        sys.exit(f"{words}: status {done.returncode}: {done.stderr}")
    return done.stdout


def told(text):
    """What is told of each line, by its number: its ending, and the certificate where one follows."""
    found, number = {}, None
    for line in text.splitlines():
        head = line.split(" ", 1)
        if head[0].isdigit() and number is None:
            found[int(head[0])] = [head[1], ""]
            last = int(head[0])
        elif head[0] == "certificate":
            number = last
        if number is not None:
            found[number][1] += line + "\n"
            if line == "end":
                number = None
    return found


def verdict(ending):
    return ending.split(" ", 1)[0]


def main():
    words = sys.argv[1:]
    count, seed, programs = 2000, 1, []
    while words:
        word = words.pop(0)
        if word == "--count":
            count = int(words.pop(0))
        elif word == "--seed":
            seed = int(words.pop(0))
        else:
            programs.append(word)
    tsume, compare = programs[0], programs[1:] or [None]
    chance = random.Random(seed)
    problems = [problem(chance) for _ in range(count)]
    lines = [spelled(*it) for it in problems]
    text = "".join(it + "\n" for it in lines)
    limits = ["--expansions", "20000"]
    base = told(run(tsume, ["collection", "--certificates", *limits], text))
    faults = []
    kinds = {}
    for number, (ending, certificate) in base.items():
        kind = verdict(ending)
        kinds[kind] = kinds.get(kind, 0) + 1
        if kind in ("mate", "nomate"):
            claim = {"mate": "mate", "nomate": "escape"}[kind]
            done = subprocess.run(
                [tsume, "check", "--problem", lines[number - 1]], input=certificate, capture_output=True, text=True
            )
            if done.returncode or not done.stdout.startswith(f"accepted {claim} "):
                faults.append((number, ending, "check", done.stdout + done.stderr))
    print("told", dict(sorted(kinds.items())))

    def same(name, words, other_text=text):
        other = told(run(tsume, ["collection", *words], other_text))
        gave_up = 0
        for number, (ending, _) in base.items():
            second = other[number][0]
            if "unknown" in (verdict(ending), verdict(second)):
                gave_up += 1
            elif verdict(ending) != verdict(second):
                faults.append((number, ending, name, second))
        print(name, "compared", len(base) - gave_up, "gave up", gave_up)
        return other

    for threads in ("1", "3"):
        other = same(f"{threads} threads", [*limits, "--threads", threads])
        if {n: e[0] for n, e in base.items()} != {n: e[0] for n, e in other.items()}:
            faults.append((0, "", f"{threads} threads", "another text"))
    same("the smallest table", ["--rows", "16", "--shards", "1", *limits])
    for number in (1, 2, 3, 5, 8, 20, 100):
        for option in ("expansions", "room"):
            words = ["--expansions", str(number)] if option == "expansions" else [*limits, "--room", str(number)]
            other = same(f"{option} {number}", words)
            for at, (ending, _) in other.items():
                if verdict(ending) == "unknown" and ending not in (
                    f"unknown {option} {number}", "unknown expansions 20000"
                ):
                    faults.append((at, ending, option, "the cause"))
    more = [spelled(*with_rest(*it)) for it in problems]
    by_option = told(run(tsume, ["collection", "--rest", *limits], text))
    by_hand = told(run(tsume, ["collection", *limits], "".join(it + "\n" for it in more)))
    different = [n for n in by_option if by_option[n][0] != by_hand[n][0]]
    faults += [(n, by_option[n][0], "--rest", by_hand[n][0]) for n in different]
    rest_kinds = {}
    for ending, _ in by_option.values():
        rest_kinds[verdict(ending)] = rest_kinds.get(verdict(ending), 0) + 1
    print("with the rest", dict(sorted(rest_kinds.items())))
    if compare[0]:
        for name, all_lines in (("as they are", lines), ("with the rest", more)):
            print("plain,", name + ":", run(compare[0], [], "".join(it + "\n" for it in all_lines)).strip())
    for it in faults[:20]:
        print("DIFFERS", it, lines[it[0] - 1] if it[0] else "")
    print(len(faults), "differences")
    sys.exit(bool(faults))


if __name__ == "__main__":
    main()
