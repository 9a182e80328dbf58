"use strict";
// The rules of shogi by numbers that many programs agree on: how many sequences of legal moves lead from a position. And some
// single cases of the rules that such numbers seldom reach.
const { loadCore, Tally } = require("./load.js");

const core = loadCore();

function sequences(position, length) {
  const moves = core.legalMoves(position);
  return length === 1 ? moves.length : moves.reduce((sum, move) => sum + sequences(core.after(position, move), length - 1), 0);
}

// A position, and how many sequences of one move, two, and so on there are.
const COUNTS = [
  ["lnsgkgsnl/1r5b1/ppppppppp/9/9/9/PPPPPPPPP/1B5R1/LNSGKGSNL b -", [30, 900, 25470]],
  ["l6nl/5+P1gk/2np1S3/p1p4Pp/3P2Sp1/1PPb2P1P/P5GS1/R8/LN4bKL w GR5pnsg", [207, 28684]],
  ["R8/2K1S1SSk/4B4/9/9/9/9/9/1L1L1L3 b RBGSNLP3g3n17p", [593, 105677]],
];

// A position, a move in it, and whether it is a check.
const CHECKS = [
  ["a pawn's drop mates", "8k/9/6NG1/9/9/9/9/9/9 b P", "P*1b", false],
  ["a pawn that moves may mate", "8k/9/6NGP/9/9/9/9/9/9 b -", "1c1b", true],
  ["a pawn's drop that is captured", "8k/9/7G1/9/9/9/9/9/9 b P", "P*1b", true],
  ["a second pawn on the file", "4k4/9/9/4P4/9/9/9/9/9 b P", "P*5b", false],
  ["a promoted pawn on the file", "4k4/9/9/4+P4/9/9/9/9/9 b P", "P*5b", true],
  ["a pinned rook", "4k4/9/9/9/9/9/9/3r1R1K1/9 b -", "4h5h", true],
  ["a rook that leaves its king in check", "4k4/9/9/9/9/9/9/7RK/8r b -", "2h5h", false],
  ["a discovered check", "4k4/9/4N4/9/4R4/9/9/9/9 b -", "5c4a+", true],
  ["a knight that has to promote", "9/4k4/9/9/5N3/9/9/9/9 b -", "4e3c", false],
  ["a lance on the last row", "1k7/9/L8/9/9/9/9/9/9 b -", "9c9a", false],
  ["a lance that is promoted there", "1k7/9/L8/9/9/9/9/9/9 b -", "9c9a+", true],
  ["White's silver behind the king", "9/9/9/9/9/9/4K4/9/4s4 w -", "5i4h", true],
  ["White's pawn forward", "9/9/9/9/9/9/4p4/9/4K4 w -", "5g5h", true],
  ["both kings side by side", "9/9/4k4/9/4K4/9/9/9/9 b -", "5e5d", false],
];

const tally = new Tally("rules");
for (const [sfen, counts] of COUNTS) {
  const { position, fault } = core.readSfen(sfen);
  counts.forEach((count, index) => tally.expect(`${sfen}, ${index + 1}`, position ? sequences(position, index + 1) : fault, count));
}
for (const [what, sfen, move, wanted] of CHECKS) {
  const { position, fault } = core.readSfen(sfen);
  if (!position) tally.expect(what, fault, "");
  else {
    tally.expect(what, core.isCheck(position, core.readMove(move)), wanted);
    tally.expect(`${what}, in the list`, core.checks(position).map(core.moveName).includes(move), wanted);
  }
}
tally.end();
