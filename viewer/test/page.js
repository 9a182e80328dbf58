"use strict";
// The page in a headless Chromium: it is opened from disk, fed by file, paste and drop, stepped through, looked at in several
// sizes, and given texts made to do harm. The pictures are left in viewer/test/out.
const fs = require("node:fs");
const os = require("node:os");
const path = require("node:path");
const { TOP, PAGE, VECTORS, SAMPLES, loadCore, bytesOf, bytesOfText, Tally } = require("./load.js");
const { Browser, findChromium, sleep } = require("./chromium.js");
const hostile = require("./hostile.js");

const core = loadCore();
const OUT = path.join(__dirname, "out");
const tally = new Tally("page");
const sample = (name) => path.join(SAMPLES, name);
const example = (name) => path.join(TOP, "examples", name);
const said = (browser) => browser.evaluate("byId('answer').textContent");
// The position of the diagram, as its label spells it.
const shown = (browser) => browser.evaluate("document.querySelector('#diagram svg').getAttribute('aria-label').replace('The position ', '')");

async function choose(browser, file) {
  await browser.evaluate("state.result = null");
  await browser.chooseFile("#file", file);
  await browser.until("state.result !== null");
}

// ---------- Stepping ----------

// Along the line by the arrow keys, to its end and back: each diagram is the position that the moves lead to.
async function alongTheLine(browser, name, certificate) {
  let position = core.positionOf(certificate.problem);
  const moves = core.lineOnward(certificate, position);
  tally.expect(`${name}: the start`, await shown(browser), core.writeSfen(position));
  for (const move of moves) {
    position = core.after(position, move);
    await browser.press("ArrowRight");
    tally.expect(`${name}: ${core.moveName(move)}`, await shown(browser), core.writeSfen(position));
  }
  await browser.press("ArrowRight");
  tally.expect(`${name}: no further`, await shown(browser), core.writeSfen(position));
  await browser.press("ArrowLeft");
  await browser.press("End");
  tally.expect(`${name}: the end`, await shown(browser), core.writeSfen(position));
  await browser.press("Home");
  tally.expect(`${name}: back`, await shown(browser), certificate.problem);
}

// Every evasion that stands in the table of a mate's problem is one click away, and so is the king's move on the board.
async function intoVariations(browser, name, certificate) {
  const problem = core.positionOf(certificate.problem), { move } = core.entryAt(certificate, problem), behind = core.after(problem, move);
  for (const { move: evasion } of core.evasionsOf(certificate, behind)) {
    await browser.press("Home");
    await browser.click(`#choices table button[data-move="${core.moveName(evasion)}"]`);
    tally.expect(`${name}: the variation ${core.moveName(evasion)}`, await shown(browser), core.writeSfen(core.after(behind, evasion)));
  }
  const targets = await browser.evaluate("goTo(1), [...document.querySelectorAll('.target')].map((target) => target.dataset.move)");
  for (const target of targets) {
    await browser.press("Home");
    await browser.press("ArrowRight");
    await browser.click(`.target[data-move="${target}"]`);
    tally.expect(`${name}: the king's ${target}`, await shown(browser), core.writeSfen(core.after(behind, core.readMove(target))));
  }
  await siblings(browser, name, behind);
}

// The keys up and down go through the evasions in their order.
async function siblings(browser, name, behind) {
  const evasions = core.legalMoves(behind);
  if (evasions.length < 2) return;
  await browser.evaluate(`startAt(0), choose(state.moves[0], ${evasions[0]})`);
  await browser.press("ArrowDown");
  tally.expect(`${name}: down`, await shown(browser), core.writeSfen(core.after(behind, evasions[1])));
  await browser.press("ArrowUp");
  tally.expect(`${name}: up`, await shown(browser), core.writeSfen(core.after(behind, evasions[0])));
  await browser.press("Home");
}

// A king's move that leads out of an escape's set is shown, and said to be so.
async function outside(browser) {
  await choose(browser, sample("gold-escape.txt"));
  await browser.evaluate("goTo(1)");
  await browser.click('.target[data-move="9f8f"]');
  tally.expect("out of the set", await browser.evaluate("byId('choices').textContent.includes(\"isn't in the set\")"), true);
  tally.expect("the line ends there", await browser.evaluate("state.moves.length"), 2);
}

// Every check of an escape's problem, and the evasion beside it, are one click away.
async function intoChecks(browser, name, certificate) {
  const problem = core.positionOf(certificate.problem);
  for (const { move, evasions } of core.checksOf(certificate, problem)) {
    const behind = core.after(problem, move), evasion = evasions.find((one) => one.entry).move;
    const row = `#choices tr:has(> td:first-child > button[data-move="${core.moveName(move)}"])`;
    await browser.evaluate("startAt(0)");
    await browser.click(`${row} td:nth-child(1) button`);
    tally.expect(`${name}: the check ${core.moveName(move)}`, await shown(browser), core.writeSfen(behind));
    await browser.click(`#choices button[data-move="${core.moveName(evasion)}"]`);
    tally.expect(`${name}: its evasion`, await shown(browser), core.writeSfen(core.after(behind, evasion)));
    await browser.press("Home");
    await browser.click(`${row} td:nth-child(2) button`);
    tally.expect(`${name}: both at once`, await shown(browser), core.writeSfen(core.after(behind, evasion)));
  }
  await browser.evaluate("startAt(0)");
}

async function stepping(browser) {
  const names = ["two-rooks", "white-attacks", "silver-sacrifice", "promoting-rook", "gold-escape", "bishop-escape"];
  for (const file of [...names.map((name) => sample(`${name}.txt`)), example("rook-chases-king.cert")]) {
    const { out, certificate } = core.check(bytesOf(file)), name = path.basename(file);
    await choose(browser, file);
    tally.expect(name, await said(browser), out.trim());
    await alongTheLine(browser, name, certificate);
    await (certificate.kind === "mate" ? intoVariations : intoChecks)(browser, name, certificate);
  }
}

async function refused(browser) {
  await choose(browser, example("equal-ranks.cert"));
  tally.expect("a refusal", await said(browser), "refused 4 rank 5b4a");
  await browser.click("#told button[data-entry=\"4\"]");
  tally.expect("the entry refused", await shown(browser), "9/4k4/8R/9/9/9/9/9/9 b R");
  await browser.picture(path.join(OUT, "refused.png"));
  await browser.click("#told button[data-entry=\"0\"]");
  tally.expect("the problem again", await browser.evaluate("byId('line').firstChild.textContent"), "Problem");
}

async function collection(browser) {
  const bytes = bytesOf(sample("collection.txt")), reports = core.reportsOf(bytes);
  await choose(browser, sample("collection.txt"));
  tally.expect("the list", await browser.evaluate("document.querySelectorAll('#reports li').length"), reports.length);
  for (const [index, { from, to }] of reports.entries()) {
    if (to === 0) continue;
    await browser.evaluate("state.result = null");
    await browser.click(`#reports li:nth-child(${index + 1}) button`);
    await browser.until("state.result !== null");
    tally.expect(`report ${index + 1}`, await said(browser), core.check(bytes.subarray(from, to)).out.trim());
  }
  await browser.picture(path.join(OUT, "collection.png"));
}

// ---------- Other ways in ----------

async function pasteAndDrop(browser) {
  const text = JSON.stringify(fs.readFileSync(sample("two-rooks.txt"), "latin1").trimEnd().replace(/\n/g, "\r\n"));
  const send = async (fill, event) => {
    await browser.evaluate(`{ const data = new DataTransfer(); ${fill}; state.result = null; document.body.dispatchEvent(${event}); }`);
    await browser.until("state.result !== null");
  };
  await send(`data.setData("text/plain", ${text})`, 'new ClipboardEvent("paste", { clipboardData: data, bubbles: true })');
  tally.expect("a paste", await said(browser), "accepted mate 4");
  const drop = 'new DragEvent("drop", { dataTransfer: data, bubbles: true, cancelable: true })';
  await send(`data.items.add(new File([${text}], "crlf.txt"))`, drop);
  tally.expect("a file with CR LF, dropped", await said(browser), "tsume: bad head");
  await browser.click("#paste");
  await browser.evaluate(`byId("pasted").value = ${text}; state.result = null`);
  await browser.click("#read");
  await browser.until("state.result !== null");
  tally.expect("the box", await said(browser), "accepted mate 4");
  tally.expect("its moves", await browser.evaluate("byId('told').textContent.includes('main line')"), false);
  await browser.evaluate("byId('pasted').value = byId('pasted').value.replace('5b4a', '5b6a'), state.result = null");
  await browser.click("#read");
  await browser.until("state.result !== null");
  tally.expect("other moves before it", await browser.evaluate("byId('told').textContent.includes('main line')"), true);
  await browser.click("#paste");
}

// ---------- How it looks ----------

// What overlaps in the hands, what stands out of the diagram, and how far the page is wider than the window.
const LAYOUT = `(() => {
  const box = (node) => node.getBoundingClientRect(), faults = [];
  const over = (one, other) => Math.min(one.right, other.right) - Math.max(one.left, other.left) > 1.5
    && Math.min(one.bottom, other.bottom) - Math.max(one.top, other.top) > 1.5;
  const svg = document.querySelector("#diagram svg"), frame = box(svg);
  for (const hand of svg.querySelectorAll(".hand")) {
    const parts = [...hand.querySelectorAll(":scope > text, :scope > .piece")];
    for (const [index, part] of parts.entries()) {
      if (box(part).right > frame.right || box(part).left < frame.left) faults.push("out of the diagram: " + part.textContent);
      for (const other of parts.slice(index + 1)) {
        // The lines of the label stand close to each other.
        if (part.matches(".label") && other.matches(".label")) continue;
        if (over(box(part), box(other))) faults.push("overlap: " + part.textContent + " and " + other.textContent);
      }
    }
  }
  const wide = document.scrollingElement.scrollWidth - innerWidth;
  if (wide > 0) faults.push("wider than the window by " + wide);
  const toMove = [...svg.querySelectorAll(".hand")].filter((hand) => hand.textContent.includes("to move"));
  if (toMove.length !== 1) faults.push("who is to move");
  return faults.join("; ");
})()`;

const VIEWS = [["wide", { width: 1100 }], ["phone", { width: 390, height: 844 }], ["dark", { width: 390, height: 844, dark: true }]];
// The problems that are looked at: a name, a file, a report of a collection (or -1), and how many moves are made.
const LOOKED_AT = [
  ["two-rooks", sample("two-rooks.txt"), -1, 1], ["rook-chases-king", example("rook-chases-king.cert"), -1, 0],
  ["white-attacks", sample("white-attacks.txt"), -1, 2], ["silver-sacrifice", sample("silver-sacrifice.txt"), -1, 3],
  ["gold-escape", sample("gold-escape.txt"), -1, 0],
  ["long-mate", sample("collection.txt"), 0, 4], ["full-hand", sample("collection-rest.txt"), 1, 1],
];

async function looks(browser) {
  for (const [view, size] of VIEWS) {
    await browser.look(size);
    for (const [name, file, report, moves] of LOOKED_AT) {
      await choose(browser, file);
      if (report >= 0) await browser.evaluate(`state.result = null, chooseReport(${report})`);
      await browser.until("state.result !== null");
      await browser.evaluate(`goTo(${moves})`);
      tally.expect(`${name}, ${view}`, await browser.evaluate(LAYOUT), "");
      await browser.picture(path.join(OUT, `${name}-${view}.png`));
    }
  }
  await onPaper(browser);
  await browser.look({ width: 1100 });
}

async function onPaper(browser) {
  for (const name of ["silver-sacrifice", "gold-escape", "collection"]) {
    await choose(browser, sample(`${name}.txt`));
    await browser.look({ width: 794, height: 900, print: true });
    const visible = "[...document.body.children].filter((node) => node.checkVisibility()).map((node) => node.id).join()";
    tally.expect(`${name} on paper`, await browser.evaluate(visible), "sheet");
    await browser.picture(path.join(OUT, `${name}-paper.png`));
  }
}

// ---------- Large, and hostile ----------

async function large(browser) {
  const file = path.join(VECTORS, "large/escape.cert");
  if (!fs.existsSync(file)) return tally.note("no large certificate: ../shared/vectors isn't there");
  await browser.evaluate(`window.longest = 0; window.lastTime = performance.now(); window.told = new Set();
    window.clock = setInterval(() => { const now = performance.now(); longest = Math.max(longest, now - lastTime); lastTime = now;
      told.add(byId("told").textContent.split(":")[0]); }, 5); state.result = null`);
  await browser.chooseFile("#file", file);
  await browser.until("state.certificate !== null");
  await browser.press("ArrowRight");
  tally.expect("a step while it is checked", await browser.evaluate("state.at === 1 && state.result === null"), true);
  await browser.until("state.result !== null", 60);
  const ask = 'clearInterval(clock), [byId("looked").textContent, Math.round(longest), told.has("Checking")]';
  const [looked, longest, progress] = await browser.evaluate(ask);
  const seconds = Number(/in ([0-9.]+) s/.exec(looked)[1]), share = Math.max(1, os.loadavg()[0] / os.cpus().length);
  tally.expect("20,581 entries", await said(browser), "accepted escape 20581");
  // Where more processes want to run than there are processors, the page gets its share alone.
  tally.expect(`in less than 5 s (${seconds}, load ${share.toFixed(1)})`, seconds < 5 * share, true);
  tally.expect("progress is shown", progress, true);
  tally.expect(`the page answers meanwhile (longest silence ${longest} ms)`, longest < 500 * share, true);
  tally.note(`20,581 entries in ${seconds} s, longest silence ${longest} ms`);
}

async function harmless(browser) {
  await browser.evaluate("window.harmed = 0, window.hostile = () => { window.harmed += 1; }, 0");
  const name = "<img src=x onerror=hostile()>";
  for (const [text] of [...hostile.texts(), [hostile.COLLECTION]]) {
    const { out, err } = core.check(bytesOfText(text)), isList = text === hostile.COLLECTION;
    await browser.evaluate(`{ const text = ${JSON.stringify(text)}; state.result = null;
      openBytes(Uint8Array.from(text, (sign) => sign.charCodeAt(0)), ${JSON.stringify(name)}, text.slice(0, 100)); }`);
    await browser.until("state.result !== null");
    if (!isList) tally.expect(JSON.stringify(text.slice(0, 60)), await said(browser), (out || err).trim());
  }
  await sleep(200);
  tally.expect("what ran", await browser.evaluate("window.harmed"), 0);
  const foreign = "img, iframe, object, embed, b, script:not(#core, #page), [onerror], [onload]";
  tally.expect("what came into the page", await browser.evaluate(`document.querySelectorAll("${foreign}").length`), 0);
}

// Nothing was asked of the network but the page itself, nothing failed in its script, and nothing came on the console.
function noise(browser) {
  const urls = browser.events.filter((event) => event.method === "Network.requestWillBeSent").map((event) => event.params.request.url);
  tally.expect("what was fetched", urls.filter((url) => url !== `file://${PAGE}` && url !== "data:,").join(), "");
  const loud = ["Runtime.exceptionThrown", "Log.entryAdded", "Runtime.consoleAPICalled", "Page.javascriptDialogOpening"];
  const told = browser.events.filter((event) => loud.includes(event.method));
  tally.expect("what was told on the console", told.map((event) => JSON.stringify(event.params)).join(), "");
}

async function main() {
  const program = findChromium();
  if (!program) return console.log("page: skipped, there is no Chromium (CHROMIUM names one)");
  fs.mkdirSync(OUT, { recursive: true });
  const browser = new Browser(program);
  try {
    await browser.open(PAGE);
    await browser.look({ width: 1100 });
    for (const part of [stepping, outside, refused, collection, pasteAndDrop, looks, large, harmless]) await part(browser);
    noise(browser);
  } catch (fault) {
    tally.expect("the test's way", String(fault), "none");
  } finally {
    await browser.close();
  }
  tally.end();
}

main();
