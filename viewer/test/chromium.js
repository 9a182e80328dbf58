"use strict";
// Drives a headless Chromium by its debugging pipe: messages of JSON, each ended by a zero byte, on its descriptors 3 and 4.
const { spawn, spawnSync } = require("node:child_process");
const fs = require("node:fs");
const os = require("node:os");
const path = require("node:path");

const NAMES = ["chromium", "chromium-browser", "google-chrome", "google-chrome-stable", "chrome"];

// The Chromium of this machine: what CHROMIUM names, else the first on the path; empty where there is none.
function findChromium() {
  const asked = process.env.CHROMIUM ? [process.env.CHROMIUM] : NAMES;
  return asked.find((name) => spawnSync(name, ["--version"], { stdio: "ignore" }).status === 0) || "";
}

const sleep = (milliseconds) => new Promise((done) => setTimeout(done, milliseconds));

class Browser {
  constructor(program) {
    this.folder = fs.mkdtempSync(path.join(os.tmpdir(), "tsume-page-"));
    this.asked = new Map();
    this.events = [];
    this.number = 0;
    // The sandbox wants rights that a container mostly lacks; the page under test is our own file.
    this.process = spawn(program, ["--headless=new", "--remote-debugging-pipe", "--no-sandbox", "--disable-gpu", "--hide-scrollbars",
      "--no-first-run", "--disable-dev-shm-usage", "--disable-background-networking", "--disable-component-update",
      `--user-data-dir=${this.folder}`, "about:blank"], { stdio: ["ignore", "ignore", "ignore", "pipe", "pipe"] });
    this.ended = new Promise((done) => this.process.once("exit", done));
    this.listen(this.process.stdio[4]);
    this.process.stdio[3].on("error", () => {});
    this.ended.then(() => { for (const { fail } of this.asked.values()) fail(new Error("Chromium ended")); });
  }

  listen(stream) {
    let rest = Buffer.alloc(0);
    stream.on("data", (data) => {
      rest = Buffer.concat([rest, data]);
      for (let end; (end = rest.indexOf(0)) >= 0; rest = rest.subarray(end + 1)) {
        this.take(JSON.parse(rest.subarray(0, end).toString("utf8")));
      }
    });
  }

  take(message) {
    const waiting = this.asked.get(message.id);
    if (!waiting) return this.events.push(message);
    this.asked.delete(message.id);
    if (message.error) waiting.fail(new Error(`${waiting.method}: ${message.error.message}`));
    else waiting.done(message.result);
  }

  ask(method, params = {}) {
    this.number += 1;
    const id = this.number;
    return new Promise((done, fail) => {
      this.asked.set(id, { done, fail, method });
      this.process.stdio[3].write(`${JSON.stringify({ id, method, params, sessionId: this.session })}\0`);
    });
  }

  // Opens the file in a tab of its own, and begins to note what it asks of the network and what it says on the console.
  async open(file) {
    const { targetId } = await this.ask("Target.createTarget", { url: "about:blank" });
    this.session = (await this.ask("Target.attachToTarget", { targetId, flatten: true })).sessionId;
    for (const domain of ["Page", "Runtime", "Network", "DOM", "Log"]) await this.ask(`${domain}.enable`);
    await this.ask("Page.navigate", { url: `file://${file}` });
    await this.until("document.readyState === 'complete' && typeof core === 'object'");
  }

  async evaluate(expression) {
    const { result, exceptionDetails } = await this.ask("Runtime.evaluate", { expression, returnByValue: true, awaitPromise: true });
    if (exceptionDetails) {
      const { exception, text } = exceptionDetails;
      throw new Error(`${expression.slice(0, 200)}: ${(exception && exception.description) || text}`);
    }
    return result.value;
  }

  async until(expression, seconds = 30) {
    for (const end = Date.now() + seconds * 1000; Date.now() < end; await sleep(20)) if (await this.evaluate(expression)) return;
    throw new Error(`never came: ${expression}`);
  }

  async press(key) {
    const code = { Home: 36, End: 35, ArrowLeft: 37, ArrowUp: 38, ArrowRight: 39, ArrowDown: 40 }[key];
    for (const type of ["keyDown", "keyUp"]) {
      await this.ask("Input.dispatchKeyEvent", { type, key, code: key, windowsVirtualKeyCode: code });
    }
  }

  // Clicks the middle of what the selector names, as a mouse does, so that what lies over it would be hit instead.
  async click(selector) {
    const place = JSON.stringify(selector);
    const [x, y] = await this.evaluate(`(() => {
      const node = document.querySelector(${place});
      if (!node) throw new Error("no " + ${place});
      node.scrollIntoView({ block: "center" });
      const box = node.getBoundingClientRect();
      return [box.x + box.width / 2, box.y + box.height / 2];
    })()`);
    for (const type of ["mousePressed", "mouseReleased"]) {
      await this.ask("Input.dispatchMouseEvent", { type, x, y, button: "left", clickCount: 1 });
    }
  }

  async chooseFile(selector, file) {
    const { root } = await this.ask("DOM.getDocument");
    const { nodeId } = await this.ask("DOM.querySelector", { nodeId: root.nodeId, selector });
    await this.ask("DOM.setFileInputFiles", { nodeId, files: [file] });
  }

  async picture(file, whole = true) {
    const { data } = await this.ask("Page.captureScreenshot", { format: "png", captureBeyondViewport: whole });
    fs.writeFileSync(file, Buffer.from(data, "base64"));
  }

  async look({ width, height = 900, dark = false, print = false, scale = 1 }) {
    await this.ask("Emulation.setDeviceMetricsOverride", { width, height, deviceScaleFactor: scale, mobile: width < 600 });
    const scheme = { name: "prefers-color-scheme", value: dark ? "dark" : "light" };
    await this.ask("Emulation.setEmulatedMedia", { media: print ? "print" : "", features: [scheme] });
  }

  async close() {
    await Promise.race([this.ask("Browser.close").catch(() => {}), sleep(2000)]);
    await Promise.race([this.ended, sleep(3000)]);
    if (this.process.exitCode === null) this.process.kill("SIGKILL");
    fs.rmSync(this.folder, { recursive: true, force: true, maxRetries: 5 });
  }
}

module.exports = { Browser, findChromium, sleep };
