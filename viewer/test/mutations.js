"use strict";
// 2,000 certificates made from valid ones by a generator of a fixed seed: the page's checker on each, beside the built
// program where there is one (TSUME names it, else crates/tsume/out/tsume), and beside what the page answered before.
//
// usage: mutations.js [HOW MANY]
const { spawnSync } = require("node:child_process");
const crypto = require("node:crypto");
const fs = require("node:fs");
const path = require("node:path");
const { TOP, FORGED, SAMPLES, loadCore, bytesOf, textOf, bytesOfText, firstLine, forgedRows, Tally } = require("./load.js");

const core = loadCore();
const HOW_MANY = Number(process.argv[2] || 2000);
// The digest of the page's 2,000 answers, which were the built program's too: it shows a change where there is no program.
const DIGEST = "967c754d8bebbf367af1c0f454d64e718feb8ebe796c727de841c1b69a9c885b";

// ---------- The generator ----------

let seed = 20260728;

// A number below `limit`.
function draw(limit) {
  seed = Number((48271n * BigInt(seed)) % 2147483647n);
  return seed % limit;
}

const oneOf = (list) => list[draw(list.length)];

// ---------- Certificates, taken apart ----------

function valid() {
  const forged = forgedRows().filter((row) => row.kind === "cert" && row.status === 0).map((row) => path.join(FORGED, row.name));
  const examples = ["two-rooks-mate.cert", "rook-chases-king.cert"].map((name) => path.join(TOP, "examples", name));
  const samples = fs.readdirSync(SAMPLES).sort().map((name) => path.join(SAMPLES, name));
  const texts = [];
  for (const file of [...forged, ...examples, ...samples]) {
    const bytes = bytesOf(file), reports = core.reportsOf(bytes) || [{ from: 0, to: bytes.length }];
    for (const { from, to } of reports.filter((report) => report.to > 0)) texts.push(core.textOf(bytes, from, to));
  }
  return texts;
}

function takenApart(text) {
  const { kind, problem, entries } = core.check(bytesOfText(text)).certificate;
  return { kind, problem, entries: entries.map(({ sfen, rank, move }) => ({ sfen, rank, move: move < 0 ? "" : core.moveName(move) })) };
}

const lineOf = (kind, entry) => (kind === "mate" ? `${entry.rank} ${entry.move} ${entry.sfen}` : entry.sfen);

// The text, with the entries in order and counted, so that the fault is one of sense and not of form.
function putTogether({ kind, problem, entries }) {
  const rising = [...entries].sort((one, other) => (one.sfen < other.sfen ? -1 : one.sfen > other.sfen ? 1 : 0));
  const lines = rising.filter((entry, index) => index === 0 || entry.sfen !== rising[index - 1].sfen).map((entry) => lineOf(kind, entry));
  return [`certificate 1 ${kind} ${lines.length}`, `problem ${problem}`, ...lines, "end", ""].join("\n");
}

// ---------- Changes of sense ----------

// The entry's position; of one that an earlier change made no problem, an empty board with a king, so that all goes on.
const positionOf = (entry) => core.readSfen(entry.sfen).position || core.readSfen("4k4/9/9/9/9/9/9/9/9 b P").position;

function anyMove() {
  const square = () => `${1 + draw(9)}${"abcdefghi"[draw(9)]}`;
  return draw(3) === 0 ? `${"PLNSGBR"[draw(7)]}*${square()}` : square() + square() + (draw(2) ? "+" : "");
}

function otherMove(certificate) {
  const entry = oneOf(certificate.entries), position = positionOf(entry), way = draw(4);
  const moves = (way < 2 ? core.checks(position) : core.legalMoves(position)).map(core.moveName);
  entry.move = way === 3 || moves.length === 0 ? anyMove() : oneOf(moves);
}

function otherRank(certificate) {
  const entry = oneOf(certificate.entries);
  entry.rank = Math.max(1, draw(4) === 0 ? 1 + draw(999999999) : entry.rank + oneOf([-2, -1, 1, 2]));
}

function without(certificate) {
  if (certificate.entries.length > 1) certificate.entries.splice(draw(certificate.entries.length), 1);
}

const otherProblem = (certificate) => { certificate.problem = oneOf(certificate.entries).sfen; };

// One more entry, behind a check of an entry and an evasion to it.
function oneMore(certificate) {
  const entry = oneOf(certificate.entries), position = positionOf(entry), checks = core.checks(position);
  if (checks.length === 0) return;
  const behind = core.after(position, oneOf(checks)), evasions = core.legalMoves(behind);
  if (evasions.length === 0) return;
  const more = { sfen: core.writeSfen(core.after(behind, oneOf(evasions))), rank: 1 + draw(9), move: anyMove() };
  const found = core.checks(positionOf(more));
  if (found.length > 0) more.move = core.moveName(oneOf(found));
  certificate.entries.push(more);
}

// A piece of an entry stands elsewhere, is another one, changes sides, or is taken off; or a hand has one more or one fewer.
function otherPosition(certificate) {
  const entry = oneOf(certificate.entries), position = positionOf(entry), square = draw(81), { board, hands } = position;
  const taken = [...board.keys()].filter((place) => board[place] !== 0), from = oneOf(taken), way = draw(6);
  if (way === 0) [board[square], board[from]] = [board[from], board[square]];
  else if (way === 1) board[from] = (1 + draw(8)) * Math.sign(board[from]);
  else if (way === 2) board[from] = -board[from];
  else if (way === 3) board[square] = (1 + draw(7)) * oneOf([1, -1]);
  else if (way === 4) board[from] = 0;
  else hands[draw(2)][1 + draw(7)] = draw(3);
  const sfen = core.writeSfen(position);
  if (entry.sfen === certificate.problem && draw(2) === 0) certificate.problem = sfen;
  entry.sfen = sfen;
}

function otherKind(certificate) {
  certificate.kind = certificate.kind === "mate" ? "escape" : "mate";
  for (const [index, entry] of certificate.entries.entries()) {
    if (entry.move !== "") continue;
    const checks = core.checks(positionOf(entry));
    Object.assign(entry, { rank: index + 1, move: checks.length > 0 ? core.moveName(oneOf(checks)) : anyMove() });
  }
}

// ---------- The same certificate, seen from the other side or in a mirror ----------

function turnedSquare(square, way) {
  const file = core.fileOf(square), row = core.rowOf(square);
  return core.squareAt(10 - file, way === "sides" ? 8 - row : row);
}

// With `sides` the board is turned round and the colours change; with `mirror` the files are counted from the other end.
function turnedSfen(sfen, way) {
  const position = positionOf({ sfen }), turned = core.copyOf(position), sign = way === "sides" ? -1 : 1;
  position.board.forEach((piece, square) => { turned.board[turnedSquare(square, way)] = piece * sign; });
  if (way === "sides") turned.hands.reverse();
  turned.side = position.side * sign;
  return core.writeSfen(turned);
}

function turnedMove(move, way) {
  const square = (name) => core.squareAt(Number(name[0]), "abcdefghi".indexOf(name[1]));
  return move.replace(/[1-9][a-i]/g, (name) => core.squareName(turnedSquare(square(name), way)));
}

function turn(certificate, way) {
  certificate.problem = turnedSfen(certificate.problem, way);
  for (const entry of certificate.entries) Object.assign(entry, { sfen: turnedSfen(entry.sfen, way), move: turnedMove(entry.move, way) });
}

// ---------- Changes of form ----------

const SIGNS = "0123456789abcdefghi+*/- \n\r\tPLNSGBRKplnsgbrkwxz<>\0\x85\xe9";

function otherBytes(text) {
  const at = draw(text.length), way = draw(4), sign = oneOf(SIGNS);
  if (way === 0) return text.slice(0, at) + sign + text.slice(at + 1);
  if (way === 1) return text.slice(0, at) + text.slice(at + 1);
  if (way === 2) return text.slice(0, at) + sign + text.slice(at);
  return draw(2) ? text.slice(0, at) : text + oneOf(["\n", "end\n", " ", "x"]);
}

function otherLines(text) {
  const lines = text.split("\n"), at = draw(lines.length - 1), way = draw(5), line = lines[at];
  if (way === 0) lines.splice(at, 1);
  else if (way === 1) lines.splice(at, 0, line);
  else if (way === 2) [lines[at], lines[at + 1]] = [lines[at + 1], lines[at]];
  else if (way === 3) lines.unshift(oneOf(["checkmate nomate", `checkmate ${anyMove()} ${anyMove()}`, "checkmate", "checkmate timeout"]));
  else lines[0] = lines[0].replace(/\d+$/, String(draw(20)));
  return lines.join("\n");
}

const OF_SENSE = [
  otherMove, otherMove, otherRank, otherRank, without, without, otherPosition, otherPosition, otherProblem, oneMore, otherKind,
];

function mutated(sources) {
  const certificate = takenApart(oneOf(sources)), ways = draw(4);
  for (const way of ["sides", "mirror"]) if (draw(3) === 0) turn(certificate, way);
  if (ways > 0) for (let times = 1 + draw(2); times > 0; times -= 1) oneOf(OF_SENSE)(certificate);
  const text = putTogether(certificate);
  const changed = ways > 1 ? text : draw(2) ? otherBytes(text) : otherLines(text);
  // A program may read certificates of another version, too: those aren't asked about.
  return /^certificate [02-9]+ /m.test(changed) ? mutated(sources) : changed;
}

// ---------- Beside the program ----------

function findProgram() {
  const found = [process.env.TSUME, path.join(TOP, "crates/tsume/out/tsume")].find((name) => name && fs.existsSync(name));
  return found && spawnSync(found, ["--version"]).status === 0 ? found : "";
}

function ofProgram(program, bytes) {
  const ran = spawnSync(program, ["check"], { input: bytes, encoding: "latin1" });
  return [ran.status, ran.stdout, firstLine(ran.stderr)];
}

const ofPage = (bytes) => { const { status, out, err } = core.check(bytes); return [status, out, firstLine(err)]; };

// A certificate on which the two differ is kept, in viewer/test/out.
function besideProgram(tally, program, number, bytes, answer) {
  const other = JSON.stringify(ofProgram(program, bytes)), file = path.join(__dirname, "out", `mutation-${number}.cert`);
  tally.expect(file, JSON.stringify(answer), other);
  if (JSON.stringify(answer) === other) return;
  fs.mkdirSync(path.dirname(file), { recursive: true });
  fs.writeFileSync(file, bytes);
}

function compare() {
  const tally = new Tally("mutations"), sources = valid(), digest = crypto.createHash("sha256"), kinds = {}, program = findProgram();
  for (let number = 1; number <= HOW_MANY; number += 1) {
    const text = mutated(sources), bytes = bytesOfText(text), answer = ofPage(bytes), words = answer[1] || answer[2];
    digest.update(JSON.stringify(answer));
    const kind = /^refused \d+ (\w+)|^(accepted)|^tsume: ([a-z]+ [a-z]+)/.exec(words).slice(1).find(Boolean);
    kinds[kind] = (kinds[kind] || 0) + 1;
    if (program) besideProgram(tally, program, number, bytes, answer);
  }
  const found = digest.digest("hex");
  if (HOW_MANY === 2000) tally.expect("the digest of all answers", found, DIGEST);
  tally.note(Object.keys(kinds).sort().map((kind) => `${kind} ${kinds[kind]}`).join(", "));
  tally.note(program ? `${HOW_MANY} beside ${program}` : "beside no program: none is built, and TSUME names none");
  tally.end();
}

// A certificate that was only turned round or mirrored is as valid as before.
function compareTurned() {
  const tally = new Tally("turned certificates");
  for (const source of valid()) {
    for (const way of ["sides", "mirror"]) {
      const certificate = takenApart(source);
      turn(certificate, way);
      tally.expect(way, core.check(bytesOfText(putTogether(certificate))).status, 0);
    }
  }
  tally.end();
}

compareTurned();
compare();
