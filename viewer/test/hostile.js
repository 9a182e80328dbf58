"use strict";
// Texts made to do harm, each with what is said of it. The page's own test hands in the same ones, and looks that nothing runs.
const { loadCore, bytesOfText, Tally } = require("./load.js");

const SFEN = "4k4/9/4P4/9/9/9/9/9/9 b G";
const HEAD = `certificate 1 mate 1\nproblem ${SFEN}\n`;
const ENTRY = `1 G*5b ${SFEN}\n`;
const MEGABYTE = 1 << 20;
const SCRIPT = "<img src=x onerror=hostile()><script>hostile()</script><svg onload=hostile()>";
// The same, without a blank.
const TIGHT = "<img/src=x/onerror=hostile()>";

function longLines() {
  const moves = " 1a1b".repeat(MEGABYTE / 5), bad = "tsume: bad head", line = "tsume: bad line 1";
  return [
    ["x".repeat(MEGABYTE), bad], [`${"x".repeat(MEGABYTE)}\n`, bad], [" ".repeat(MEGABYTE), bad], ["\n".repeat(MEGABYTE), bad],
    [`checkmate${moves}\n${HEAD}${ENTRY}end\n`, "accepted mate 1"], [`checkmate${moves} ${SCRIPT}\n${HEAD}${ENTRY}end\n`, bad],
    [`checkmate${" ".repeat(MEGABYTE)}\n${HEAD}${ENTRY}end\n`, bad], [`certificate 1 mate 1${"0".repeat(MEGABYTE)}\n`, bad],
    [`certificate 1 mate 1\nproblem ${"9".repeat(MEGABYTE)} b -\n`, bad], [`certificate 1 mate 1\nproblem ${"<".repeat(MEGABYTE)}\n`, bad],
    [`${HEAD}${"1".repeat(MEGABYTE)}\nend\n`, line], [`${HEAD}1 G*5b ${"/".repeat(MEGABYTE)}\nend\n`, line],
    [`${HEAD}${"\0".repeat(MEGABYTE)}\nend\n`, line], [`${HEAD}${ENTRY}end\n${"x".repeat(MEGABYTE)}`, "tsume: no end"],
    [`${HEAD}${ENTRY}${"e".repeat(MEGABYTE)}`, "tsume: no end"], [`1 mate ${"<b>".repeat(MEGABYTE / 3)}\n`, bad],
  ];
}

// Markup in each place where a remark, a problem or a word might stand.
function markup() {
  const bad = "tsume: bad head", line = "tsume: bad line 1";
  return [
    [SCRIPT, bad], [`# ${SCRIPT}\n${HEAD}${ENTRY}end\n`, bad], [`checkmate ${SCRIPT}\n${HEAD}${ENTRY}end\n`, bad],
    [`checkmate timeout\nunknown ${SCRIPT}\n`, bad], [`certificate 1 ${TIGHT} 1\nproblem ${SFEN}\n`, bad],
    [`certificate ${TIGHT} mate 1\nproblem ${SFEN}\n`, bad], [`certificate 1 mate 1\nproblem ${SCRIPT}\n`, bad],
    [`certificate 1 mate 1\nproblem ${SFEN} ${TIGHT}\n`, bad], [`${HEAD}${SCRIPT}\nend\n`, line], [`${HEAD}1 ${TIGHT} ${SFEN}\nend\n`, line],
    [`${HEAD}${TIGHT} G*5b ${SFEN}\nend\n`, line], [`${HEAD}1 G*5b ${TIGHT}\nend\n`, line],
    [`${HEAD}${ENTRY}end${TIGHT}\n`, "tsume: bad line 2"], [`${HEAD}${ENTRY}end\n${SCRIPT}\n`, "tsume: no end"],
  ];
}

// A right certificate with one byte of markup at each place in turn, whatever is said of it.
function everyPlace() {
  const whole = `checkmate G*5b\n${HEAD}${ENTRY}end\n`;
  return [...whole].map((_, at) => [`${whole.slice(0, at)}<${whole.slice(at + 1)}`, ""]);
}

// Reports of a collection, with markup in their words; the second has a certificate.
const COLLECTION = `1 fault ${SCRIPT}\n2 mate ${SCRIPT}\n${HEAD}${ENTRY}end\n3 mate G*5b\n${HEAD}${SCRIPT}\nend\nproblems ${SCRIPT}\n`;

const texts = () => [...longLines(), ...markup(), ...everyPlace()];

function main() {
  const core = loadCore(), tally = new Tally("hostile texts");
  for (const [text, wanted] of texts()) {
    const { out, err, status } = core.check(bytesOfText(text)), what = JSON.stringify(text.slice(0, 60));
    if (wanted) tally.expect(what, (out || err).trim(), wanted);
    else tally.expect(what, [0, 3, 7].includes(status) && (out + err).split("\n").length, 2);
  }
  tally.expect("a collection", core.reportsOf(bytesOfText(COLLECTION)).filter((report) => report.to > 0).length, 2);
  tally.end();
}

module.exports = { texts, COLLECTION };
if (require.main === module) main();
