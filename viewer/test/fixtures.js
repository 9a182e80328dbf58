"use strict";
// The page's checker over the forged certificates and texts of tests/forged, and over the vectors beside the repository.
const path = require("node:path");
const fs = require("node:fs");
const { VECTORS, FORGED, SAMPLES, TOP, loadCore, bytesOf, textOf, bytesOfText, firstLine, forgedRows, runsIn, Tally }
  = require("./load.js");

const core = loadCore();

// The status, the whole of standard output and the first line of standard error, as one text.
const told = ({ status, out, err }) => JSON.stringify([status, out, firstLine(err)]);

function forged() {
  const tally = new Tally("tests/forged");
  for (const { name, kind, answer, status, problem } of forgedRows()) {
    const bytes = bytesOf(path.join(FORGED, name));
    if (kind === "cert") {
      const wanted = status === 3 ? { status, out: "", err: `tsume: ${answer}\n` } : { status, out: `${answer}\n`, err: "" };
      tally.expect(name, told(core.check(bytes)), told(wanted));
      continue;
    }
    const { fault = "", position } = core.readSfen(core.textOf(bytes, 0, bytes.length));
    tally.expect(name, fault, status === 3 ? answer : "");
    if (problem) tally.expect(name, position && core.writeSfen(position), problem);
  }
  tally.end();
}

function checks() {
  const tally = new Tally("vectors of check");
  const runs = runsIn("check").concat(runsIn("check2"));
  if (runs.length === 0) return console.log("vectors of check: skipped, ../shared/vectors isn't there");
  for (const run of runs) {
    const words = textOf(path.join(run, "args")).split("\n").filter(Boolean);
    if (words.join(" ") !== "check") continue;
    const [status, out, err] = ["status", "stdout", "stderr"].map((name) => textOf(path.join(run, name)));
    const wanted = { status: Number(status), out, err };
    tally.expect(run, told(core.check(bytesOf(path.join(run, "stdin")))), told(wanted));
  }
  tally.end();
}

// Runs of `check --bound`.
function bounds() {
  const tally = new Tally("vectors of bound"), runs = runsIn("bound");
  if (runs.length === 0) return console.log("vectors of bound: skipped, ../shared/vectors isn't there");
  for (const run of runs) {
    if (!textOf(path.join(run, "args")).split("\n").includes("--bound")) continue;
    const [status, out, err] = ["status", "stdout", "stderr"].map((name) => textOf(path.join(run, name)));
    tally.expect(run, told(core.checkBound(bytesOf(path.join(run, "stdin")))), told({ status: Number(status), out, err }));
  }
  tally.end();
}

// What is valid in version 1 is valid in version 2; a certificate of version 3 is refused by its head.
function versionTwo() {
  const tally = new Tally("version 2");
  for (const name of fs.readdirSync(SAMPLES).filter((one) => !one.startsWith("collection"))) {
    const text = textOf(path.join(SAMPLES, name)), inVersion = (version) => bytesOfText(text.replace("certificate 1 ", `certificate ${version} `));
    tally.expect(name, told(core.check(inVersion(2))), told(core.check(inVersion(1))));
    tally.expect(name, told(core.check(inVersion(3))), told({ status: 3, out: "", err: "tsume: bad head\n" }));
  }
  tally.end();
}

function lineOf(certificate) {
  return core.lineOnward(certificate, core.positionOf(certificate.problem)).map(core.moveName).join(" ");
}

// What a search printed is accepted, and the main line of a mate, as the page follows it, is the printed one.
function answers() {
  const tally = new Tally("printed answers");
  for (const run of runsIn("solve")) {
    const bytes = bytesOf(path.join(run, "stdout")), printed = firstLine(textOf(path.join(run, "stdout")));
    if (printed === "checkmate timeout") continue;
    const { status, certificate } = core.check(bytes);
    tally.expect(run, status, 0);
    if (certificate.kind === "mate") tally.expect(run, `checkmate ${lineOf(certificate)}`, printed);
  }
  for (const run of runsIn("collection").filter((one) => textOf(path.join(one, "args")).includes("--certificates"))) {
    const bytes = bytesOf(path.join(run, "stdout"));
    for (const { words, from, to } of core.reportsOf(bytes)) {
      tally.expect(`${run} ${words}`, to > 0, /^(mate|nomate)/.test(words));
      const { status, certificate } = to > 0 ? core.check(bytes.subarray(from, to)) : { status: 0 };
      tally.expect(`${run} ${words}`, status, 0);
      if (words.startsWith("mate")) tally.expect(run, `mate ${lineOf(certificate)}`, words);
    }
  }
  if (tally.passed + tally.failed === 0) return console.log("printed answers: skipped, ../shared/vectors isn't there");
  tally.end();
}

function large() {
  const folder = path.join(VECTORS, "large");
  if (!fs.existsSync(folder)) return console.log("large certificates: skipped, ../shared/vectors isn't there");
  const tally = new Tally("large certificates");
  for (const [name, wanted] of [["escape.cert", "accepted escape 20581\n"], ["mate.cert", "accepted mate 8313\n"]]) {
    const began = process.hrtime.bigint(), { out, moves } = core.check(bytesOf(path.join(folder, name)));
    tally.expect(name, out, wanted);
    tally.note(`${name} ${moves} moves in ${(Number(process.hrtime.bigint() - began) / 1e9).toFixed(1)} s`);
  }
  tally.end();
}

// The certificates that stand in the repository, one or several in a file.
function samples() {
  const tally = new Tally("samples and examples");
  const files = fs.readdirSync(SAMPLES).map((name) => path.join(SAMPLES, name));
  for (const file of files) {
    const bytes = bytesOf(file), reports = core.reportsOf(bytes) || [{ from: 0, to: bytes.length }];
    for (const { from, to } of reports.filter((report) => report.to > 0)) {
      tally.expect(file, core.check(bytes.subarray(from, to)).status, 0);
    }
  }
  const examples = [["two-rooks-mate", "accepted mate 4"], ["rook-chases-king", "accepted escape 6"], ["equal-ranks", "refused 4 rank 5b4a"]];
  for (const [name, wanted] of examples) {
    tally.expect(name, core.check(bytesOf(path.join(TOP, "examples", `${name}.cert`))).out, `${wanted}\n`);
  }
  tally.end();
}

forged();
checks();
bounds();
versionTwo();
answers();
large();
samples();
