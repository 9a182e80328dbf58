"use strict";
// What the tests share: the functions of the page's first script, loaded without a browser, and the folders of fixtures.
const fs = require("node:fs");
const path = require("node:path");

const TOP = path.resolve(__dirname, "../..");
const PAGE = path.join(TOP, "viewer/tsume.html");
// The vectors stand beside the repository, and aren't a part of it.
const VECTORS = path.resolve(TOP, "../shared/vectors");
const FORGED = path.join(TOP, "tests/forged");
const SAMPLES = path.join(__dirname, "samples");

function loadCore() {
  const script = /<script id="core">([\s\S]*?)<\/script>/.exec(fs.readFileSync(PAGE, "utf8"))[1];
  return new Function(`${script}\nreturn core;`)();
}

const bytesOf = (file) => new Uint8Array(fs.readFileSync(file));
const textOf = (file) => (fs.existsSync(file) ? fs.readFileSync(file, "latin1") : "");
const bytesOfText = (text) => new Uint8Array(Buffer.from(text, "latin1"));
const firstLine = (text) => text.split("\n")[0];

// Each row of tests/forged/answers.md: { name, kind, answer, status, problem }.
function forgedRows() {
  const row = /^\| ((\S+)\.(cert|sfen)) \| .*? \| `([^`]*)` \| (\d) \|(.*)\|$/;
  return textOf(path.join(FORGED, "answers.md")).split("\n").map((line) => row.exec(line)).filter(Boolean)
    .map(([, name, , kind, answer, status, rest]) => {
      const problem = /`(.*)`/.exec(rest);
      return { name, kind, answer, status: Number(status), problem: problem ? problem[1] : "" };
    });
}

// The folders of runs in a folder of vectors; empty where that isn't there.
function runsIn(name) {
  const folder = path.join(VECTORS, name);
  if (!fs.existsSync(folder)) return [];
  return fs.readdirSync(folder).sort().map((run) => path.join(folder, run)).filter((run) => fs.existsSync(path.join(run, "args")));
}

// Counts what passed and tells what failed; `end` prints one line and sets the status.
class Tally {
  constructor(title) {
    Object.assign(this, { title, passed: 0, failed: 0, notes: [] });
  }

  expect(what, found, wanted) {
    if (found === wanted) return void (this.passed += 1);
    this.failed += 1;
    if (this.failed <= 10) console.log(`${this.title}: ${what}: ${JSON.stringify(found)} and not ${JSON.stringify(wanted)}`);
  }

  note(words) {
    this.notes.push(words);
  }

  end() {
    console.log(`${this.title}: ${this.passed} passed, ${this.failed} failed${this.notes.map((words) => `; ${words}`).join("")}`);
    if (this.failed > 0) process.exitCode = 1;
  }
}

module.exports = { TOP, PAGE, VECTORS, FORGED, SAMPLES, loadCore, bytesOf, textOf, bytesOfText, firstLine, forgedRows, runsIn, Tally };
