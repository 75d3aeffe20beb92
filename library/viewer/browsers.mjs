// Chromium and Firefox without a window, as tests of pages want them: a page is opened, looked at, clicked, and its keys are pressed.
//
// CHROMIUM and FIREFOX name the browsers, chromium and firefox-esr if they don't. One that isn't there is left out, which is said.
import { spawn, spawnSync } from "node:child_process";
import fs from "node:fs";
import net from "node:net";
import os from "node:os";
import path from "node:path";

// milliseconds in which a page has to come to what is expected
const PATIENCE = 10_000;
const KEYS = {
  ArrowLeft: [37, "\uE012"], ArrowUp: [38, "\uE013"], ArrowRight: [39, "\uE014"], ArrowDown: [40, "\uE015"], Home: [36, "\uE011"], End: [35, "\uE010"],
  PageUp: [33, "\uE00E"], PageDown: [34, "\uE00F"], Enter: [13, "\uE007"], Escape: [27, "\uE00C"], Tab: [9, "\uE004"], " ": [32, " "],
};
const FLAGS = ["--headless=new", "--no-sandbox", "--disable-gpu", "--no-first-run", "--remote-debugging-pipe", "--window-size=1280,900"];
const PREFERENCES = {
  "browser.shell.checkDefaultBrowser": false, "datareporting.policy.dataSubmissionEnabled": false, "toolkit.telemetry.enabled": false, "app.update.enabled": false,
  "browser.startup.page": 0, "browser.aboutwelcome.enabled": false, "extensions.update.enabled": false, "network.captive-portal-service.enabled": false,
  "network.connectivity-service.enabled": false, "services.settings.server": "", "browser.safebrowsing.downloads.remote.enabled": false,
};
const wait = (time) => new Promise((done) => setTimeout(done, time));

/** What both browsers do alike: `run` tells the value of an expression in the page. */
class Browser {
  constructor(command, words, pipes) {
    this.profile = fs.mkdtempSync(path.join(os.tmpdir(), "page-browser-"));
    this.process = spawn(command, [...words(this.profile)], { stdio: pipes });
    this.waiting = new Map();
    this.last = 0;
  }

  answer(id, error, result) {
    const { done, fail } = this.waiting.get(id);
    this.waiting.delete(id);
    if (error) fail(new Error(error));
    else done(result);
  }

  asked(id) {
    return new Promise((done, fail) => this.waiting.set(id, { done, fail }));
  }

  /** Whether an expression becomes true; one that fails isn't so yet. */
  async until(expression, patience = PATIENCE) {
    for (const end = Date.now() + patience; Date.now() < end; await wait(20)) if (await this.run(expression).catch(() => false)) return true;
    return false;
  }

  /** The pointer is pressed in the midst of an element, which is brought into sight, or so far from its corner. What comes into sight with
   *  it may be laid out only then, and move it: so it has to stand still for two frames. */
  async click(selector, right, down) {
    const { x, y } = await this.run(`(async () => { const it = document.querySelector(${JSON.stringify(selector)});
      const frame = () => new Promise((done) => requestAnimationFrame(() => setTimeout(done)));
      for (let still = 0, tries = 0, before = NaN; still < 2 && tries < 60; tries++) {
        it.scrollIntoView({ block: "center" });
        await frame();
        const { top } = it.getBoundingClientRect();
        still = top === before ? still + 1 : 0;
        before = top;
      }
      const { x, y, width, height } = it.getBoundingClientRect(); return { x: x + (${right ?? "width / 2"}), y: y + (${down ?? "height / 2"}) }; })()`);
    await this.clickAt(x, y);
  }

  async end() {
    const ended = new Promise((done) => this.process.once("exit", done));
    this.process.kill();
    await ended;
    // (what the browser began may write for a moment more)
    for (let tries = 0; tries < 50 && fs.existsSync(this.profile); tries++) {
      try {
        fs.rmSync(this.profile, { recursive: true, force: true });
      } catch {
        await wait(100);
      }
    }
  }
}

/** It is spoken to over a pipe, in messages of JSON that end with a byte 0. */
export class Chromium extends Browser {
  static command = process.env.CHROMIUM ?? "chromium";
  static narrow = 400;

  constructor() {
    super(Chromium.command, (profile) => [...FLAGS, `--user-data-dir=${profile}`, "about:blank"], ["ignore", "ignore", "ignore", "pipe", "pipe"]);
    this.seen = [];
    let rest = "";
    this.process.stdio[4].setEncoding("utf8").on("data", (text) => {
      const parts = (rest + text).split("\0");
      rest = parts.pop();
      for (const message of parts.map((it) => JSON.parse(it))) {
        if (this.waiting.has(message.id)) this.answer(message.id, message.error?.message, message.result);
        else this.seen.push(message);
      }
    });
  }

  send(method, params = {}) {
    const id = ++this.last;
    this.process.stdio[3].write(`${JSON.stringify({ id, method, params, sessionId: this.session })}\0`);
    return this.asked(id);
  }

  async start() {
    const { targetInfos } = await this.send("Target.getTargets");
    const { targetId } = targetInfos.find((it) => it.type === "page");
    this.session = (await this.send("Target.attachToTarget", { targetId, flatten: true })).sessionId;
    for (const it of ["Page", "Runtime", "Network", "Log"]) await this.send(`${it}.enable`);
    this.name = (await this.send("Browser.getVersion")).product;
  }

  async run(expression) {
    const { result, exceptionDetails } = await this.send("Runtime.evaluate", { expression, awaitPromise: true, returnByValue: true });
    if (exceptionDetails) throw new Error(exceptionDetails.exception?.description ?? exceptionDetails.text);
    return result.value;
  }

  async go(address) {
    await this.send("Page.navigate", { url: "about:blank" });
    await this.send("Page.navigate", { url: address });
    await this.until("document.readyState === 'complete'");
  }

  async clickAt(x, y) {
    const at = { x, y, button: "left", clickCount: 1 };
    for (const type of ["mousePressed", "mouseReleased"]) await this.send("Input.dispatchMouseEvent", { type, ...at });
  }

  async press(key, { ctrl = false, shift = false } = {}) {
    const modifiers = (ctrl ? 2 : 0) + (shift ? 8 : 0);
    const code = KEYS[key]?.[0] ?? key.toUpperCase().charCodeAt(0);
    const text = key.length === 1 && !ctrl ? { text: key } : key === "Enter" ? { text: "\r" } : {};
    for (const type of ["keyDown", "keyUp"]) {
      await this.send("Input.dispatchKeyEvent", { type, key, code: key, windowsVirtualKeyCode: code, modifiers, ...(type === "keyDown" ? text : {}) });
    }
  }

  async size(width, height) {
    await this.send("Emulation.setDeviceMetricsOverride", { width, height, deviceScaleFactor: 1, mobile: false });
  }

  async light(value) {
    await this.send("Emulation.setEmulatedMedia", { features: [{ name: "prefers-color-scheme", value }] });
  }

  async picture() {
    return Buffer.from((await this.send("Page.captureScreenshot", {})).data, "base64");
  }

  /** What was asked of the network, and what went wrong. */
  async complaints(address) {
    const requests = this.seen.filter((it) => it.method === "Network.requestWillBeSent").map((it) => it.params.request.url);
    const errors = this.seen.filter((it) => it.method === "Runtime.exceptionThrown" || (it.method === "Log.entryAdded" && it.params.entry.level === "error"));
    return [...requests.filter((it) => !it.startsWith(address) && !it.startsWith("about:") && !it.startsWith("blob:")), ...errors.map((it) => JSON.stringify(it.params))];
  }
}

const freePort = () => new Promise((done) => {
  const server = net.createServer().listen(0, "127.0.0.1", () => {
    const { port } = server.address();
    server.close(() => done(port));
  });
});

/** It is spoken to by its own protocol, in messages of JSON behind their lengths. */
export class Firefox extends Browser {
  static command = process.env.FIREFOX ?? "firefox-esr";
  // (a window of it can't be narrower)
  static narrow = 500;

  constructor() {
    super(Firefox.command, (profile) => Firefox.words(profile), "ignore");
  }

  /** (the profile is written first, and its port is in it) */
  static words(profile) {
    const lines = Object.entries({ ...PREFERENCES, "marionette.port": Firefox.port }).map(([name, value]) => `user_pref("${name}", ${JSON.stringify(value)});\n`);
    fs.writeFileSync(path.join(profile, "user.js"), lines.join(""));
    return ["--headless", "--marionette", "--remote-allow-system-access", "--no-remote", "--profile", profile, "about:blank"];
  }

  async connect() {
    for (const end = Date.now() + 6 * PATIENCE; Date.now() < end; await wait(100)) {
      const socket = net.connect(Firefox.port, "127.0.0.1");
      const isThere = await new Promise((done) => socket.once("connect", () => done(true)).once("error", () => done(false)));
      if (isThere) return socket;
    }
    throw new Error("Firefox doesn't answer");
  }

  async start() {
    this.socket = await this.connect();
    let rest = Buffer.alloc(0);
    this.socket.on("error", () => {}).on("data", (bytes) => {
      rest = Buffer.concat([rest, bytes]);
      for (let colon = rest.indexOf(58); colon > 0; colon = rest.indexOf(58)) {
        const end = colon + 1 + Number(rest.subarray(0, colon));
        if (rest.length < end) return;
        const message = JSON.parse(rest.subarray(colon + 1, end));
        rest = rest.subarray(end);
        if (Array.isArray(message)) this.answer(message[1], message[2]?.message, message[3]);
      }
    });
    const { capabilities } = await this.send("WebDriver:NewSession", { capabilities: { alwaysMatch: { timeouts: { script: 60_000, pageLoad: 60_000, implicit: 0 } } } });
    this.name = `Firefox ${capabilities.browserVersion}`;
    await this.size(1280, 900);
  }

  send(method, params = {}) {
    const id = ++this.last;
    const text = JSON.stringify([0, id, method, params]);
    this.socket.write(`${Buffer.byteLength(text)}:${text}`);
    return this.asked(id);
  }

  async run(expression) {
    const script = `const done = arguments[0]; (async () => (${expression}))().then((value) => done([value]), (error) => done([null, String(error)]));`;
    const { value: [value, error] } = await this.send("WebDriver:ExecuteAsyncScript", { script, args: [] });
    if (error) throw new Error(error);
    return value;
  }

  async inChrome(script, args = []) {
    await this.send("Marionette:SetContext", { value: "chrome" });
    const { value } = await this.send("WebDriver:ExecuteScript", { script, args });
    await this.send("Marionette:SetContext", { value: "content" });
    return value;
  }

  async go(address) {
    await this.send("WebDriver:Navigate", { url: "about:blank" });
    await this.send("WebDriver:Navigate", { url: address });
  }

  async clickAt(x, y) {
    const actions = [
      { type: "pointerMove", duration: 0, x: Math.round(x), y: Math.round(y), origin: "viewport" }, { type: "pointerDown", button: 0 }, { type: "pointerUp", button: 0 },
    ];
    await this.send("WebDriver:PerformActions", { actions: [{ type: "pointer", id: "mouse", parameters: { pointerType: "mouse" }, actions }] });
  }

  async press(key, { ctrl = false, shift = false } = {}) {
    const held = [...(ctrl ? ["\uE009"] : []), ...(shift ? ["\uE008"] : [])];
    const value = KEYS[key]?.[1] ?? key;
    const down = [...held, value].map((it) => ({ type: "keyDown", value: it }));
    const up = [value, ...held.reverse()].map((it) => ({ type: "keyUp", value: it }));
    await this.send("WebDriver:PerformActions", { actions: [{ type: "key", id: "keyboard", actions: [...down, ...up] }] });
  }

  /** The window is as much larger as what is round the page. */
  async size(width, height) {
    const round = { width: 0, height: 0 };
    for (let tries = 0; tries < 3; tries++) {
      await this.send("WebDriver:SetWindowRect", { width: width + round.width, height: height + round.height });
      const [wide, tall] = await this.run("[innerWidth, innerHeight]");
      if (wide === width && tall === height) return;
      round.width += width - wide;
      round.height += height - tall;
    }
  }

  async light(value) {
    await this.inChrome("Services.prefs.setIntPref('layout.css.prefers-color-scheme.content-override', arguments[0])", [value === "dark" ? 0 : 1]);
  }

  async picture() {
    return Buffer.from((await this.send("WebDriver:TakeScreenshot", { full: false, hash: false })).value, "base64");
  }

  async complaints(address) {
    return this.inChrome(`return Services.console.getMessageArray().filter((it) => it instanceof Ci.nsIScriptError && it.sourceName.startsWith(arguments[0])
      && (it.flags & 1) === 0).map((it) => it.errorMessage)`, [address]);
  }

  async end() {
    this.socket?.destroy();
    await super.end();
  }
}

/** Whether a browser is there; where it isn't, that is said. */
function isThere({ command, name }) {
  const found = spawnSync("sh", ["-c", `command -v "$1"`, "sh", command]).status === 0;
  if (!found) console.log(`left out: clicks in ${name}, since '${command}' is missing (package: ${command})`);
  return found;
}

/** Calls `tries` with each browser that is there, begun. */
export async function inBrowsers(tries) {
  for (const kind of [Chromium, Firefox].filter(isThere)) {
    Firefox.port = await freePort();
    const browser = new kind();
    try {
      await browser.start();
      await tries(browser, kind);
    } finally {
      await browser.end();
    }
  }
}
