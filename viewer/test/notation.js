"use strict";
// Moves in Japanese notation: the words that tell one piece's move from another's, by hand from the federation's rules.
const { loadCore, Tally } = require("./load.js");

const core = loadCore();

// A position, a move in it, what it is called, and perhaps the square of the move before it.
const TABLE = [
  ["9/3G1G3/9/9/9/9/9/9/k8 b -", "6b5a", "▲５一金左"],
  ["9/3G1G3/9/9/9/9/9/9/k8 b -", "4b5a", "▲５一金右"],
  ["9/4GG3/9/9/9/9/9/9/k8 b -", "5b5a", "▲５一金直"],
  ["9/4GG3/9/9/9/9/9/9/k8 b -", "4b5a", "▲５一金右"],
  ["3G5/4G4/9/9/9/9/9/9/k8 b -", "6a5a", "▲５一金寄"],
  ["3G5/4G4/9/9/9/9/9/9/k8 b -", "5b5a", "▲５一金上"],
  ["3G5/3GGG3/9/9/9/9/9/9/k8 b -", "6b5a", "▲５一金左上"],
  ["3G5/3GGG3/9/9/9/9/9/9/k8 b -", "5b5a", "▲５一金直"],
  ["3G5/3GGG3/9/9/9/9/9/9/k8 b -", "4b5a", "▲５一金右"],
  ["3S5/9/3S5/9/9/9/9/9/k8 b -", "6c5b", "▲５二銀上不成"],
  ["3S5/9/3S5/9/9/9/9/9/k8 b -", "6c5b+", "▲５二銀上成"],
  ["3S5/9/3S5/9/9/9/9/9/k8 b -", "6a5b", "▲５二銀引不成"],
  ["3S1S3/9/3S5/9/9/9/9/9/k8 b -", "6a5b", "▲５二銀左引不成"],
  ["9/9/9/9/R7R/9/9/9/1k7 b -", "9e5e", "▲５五飛左"],
  ["9/9/9/9/R7R/9/9/9/1k7 b -", "1e5e", "▲５五飛右"],
  ["9/9/9/9/R7R/9/9/9/1k7 b -", "1e1c+", "▲１三飛成"],
  ["9/9/2+B1+B4/9/9/9/9/9/k8 b -", "7c6b", "▲６二馬左"],
  ["9/9/2+B1+B4/9/9/9/9/9/k8 b -", "5c6b", "▲６二馬右"],
  ["9/9/9/9/9/4N1N2/9/9/k8 b -", "5f4d", "▲４四桂左"],
  ["9/9/9/9/9/4N1N2/9/9/k8 b -", "3f4d", "▲４四桂右"],
  ["8K/9/9/9/9/9/9/3g1g3/k8 w -", "4h5i", "△５九金左"],
  ["8K/9/9/9/9/9/9/3g1g3/k8 w -", "6h5i", "△５九金右"],
  ["k8/9/3+S5/9/9/9/9/9/9 b G", "6c5b", "▲５二成銀"],
  ["k8/9/3+P5/9/9/9/9/9/9 b G", "6c5b", "▲同と", "5b"],
  ["k8/9/3+P5/9/9/9/9/9/9 b G", "G*5b", "▲５二金打"],
  ["k8/9/9/4S4/9/9/9/9/9 b -", "5d5c", "▲５三銀不成"],
  ["k8/9/9/9/4S4/9/9/9/9 b -", "5e5d", "▲５四銀"],
  ["9/9/+R8/9/9/9/9/9/8k b -", "9c9b", "▲９二龍"],
];

const tally = new Tally("Japanese notation");
for (const [sfen, move, wanted, before] of TABLE) {
  const { position, fault } = core.readSfen(sfen);
  const square = before ? core.squareAt(Number(before[0]), "abcdefghi".indexOf(before[1])) : -1;
  tally.expect(`${sfen} ${move}`, position ? core.japaneseName(position, core.readMove(move), square) : fault, wanted);
}
tally.end();
