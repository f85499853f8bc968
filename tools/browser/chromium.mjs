// A headless Chromium, driven over its pipe (`--remote-debugging-pipe`): pages, real mouse and key events, pictures.
import { spawn } from "node:child_process";
import { mkdtempSync, rmSync, writeFileSync } from "node:fs";
import { tmpdir } from "node:os";
import { join } from "node:path";

const WORDS = [
  "--headless=new", "--no-sandbox", "--disable-gpu", "--no-first-run", "--disable-extensions", "--mute-audio",
  "--disable-background-networking", "--disable-component-update", "--ignore-certificate-errors",
  "--remote-debugging-pipe", "--window-size=900,900", "--host-resolver-rules=MAP * ~NOTFOUND, EXCLUDE 127.0.0.1",
];

export const pause = (milliseconds) => new Promise((resolve) => setTimeout(resolve, milliseconds));

// What `look` gives, once it gives something true.
export async function until(look, what, seconds = 30) {
  const end = Date.now() + seconds * 1000;
  for (;;) {
    const found = await look();
    if (found) { return found; }
    if (Date.now() > end) { throw new Error(`waited in vain for ${what}`); }
    await pause(20);
  }
}

// An element, the place of its middle in the window, and what the notice says, as expressions in a page.
export const withId = (id) => `document.getElementById(${JSON.stringify(id)})`;
export const centerOf = (element) => `(() => {
  const element = ${element};
  element.scrollIntoView({ block: "center", behavior: "instant" });
  const box = element.getBoundingClientRect();
  return { x: box.x + box.width / 2, y: box.y + box.height / 2 };
})()`;
export const noticeOf = `(() => {
  const panel = document.querySelector("html > [role=alert]")?.shadowRoot.firstChild ?? null;
  return panel === null ? null : panel.firstChild.data + panel.querySelector("small").textContent;
})()`;

export class Browser {
  #process;
  #home = mkdtempSync(join(tmpdir(), "ripley-browser-"));
  #asked = new Map();
  #heard = new Map();
  #last = 0;
  #unread = "";

  constructor() {
    const words = ["-n", "5", "chromium", ...WORDS, `--user-data-dir=${this.#home}`];
    this.#process = spawn("nice", words, { stdio: ["ignore", "ignore", "ignore", "pipe", "pipe"] });
    process.once("exit", () => this.#process.kill());
    this.#process.stdio[4].setEncoding("utf8").on("data", (data) => this.#read(data));
  }

  #read(data) {
    const texts = (this.#unread + data).split("\0");
    this.#unread = texts.pop();
    for (const text of texts) { this.#take(JSON.parse(text)); }
  }

  #take({ id, sessionId, method, params, result, error }) {
    if (method) {
      for (const hear of this.#heard.get(sessionId) ?? []) { hear(method, params); }
      return;
    }
    const { resolve, reject } = this.#asked.get(id);
    this.#asked.delete(id);
    if (error) { reject(new Error(error.message)); } else { resolve(result); }
  }

  ask(method, params = {}, sessionId = undefined) {
    const id = ++this.#last;
    this.#process.stdio[3].write(`${JSON.stringify({ id, method, params, sessionId })}\0`);
    return new Promise((resolve, reject) => this.#asked.set(id, { resolve, reject }));
  }

  hear(sessionId, hear) { this.#heard.set(sessionId, [...(this.#heard.get(sessionId) ?? []), hear]); }

  // A page with storage and cache of its own.
  async page() {
    const { browserContextId } = await this.ask("Target.createBrowserContext");
    const { targetId } = await this.ask("Target.createTarget", { url: "about:blank", browserContextId });
    const { sessionId } = await this.ask("Target.attachToTarget", { targetId, flatten: true });
    const page = new Page(this, sessionId, targetId);
    await page.begin();
    return page;
  }

  async version() { return (await this.ask("Browser.getVersion")).product; }

  async close() {
    const isGone = new Promise((resolve) => this.#process.once("exit", resolve));
    await this.ask("Browser.close");
    await isGone;
    rmSync(this.#home, { recursive: true, force: true });
  }
}

const KEYS = { Tab: 9, Enter: 13, Backspace: 8, ArrowDown: 40, ArrowUp: 38, End: 35, Home: 36, " ": 32 };
const TEXTS = { Enter: "\r", " ": " " };

export class Page {
  errors = [];
  isPhone = false;
  #browser;
  #session;
  #target;

  constructor(browser, session, target) {
    this.#browser = browser;
    this.#session = session;
    this.#target = target;
  }

  ask(method, params) { return this.#browser.ask(method, params, this.#session); }

  hear(hear) { this.#browser.hear(this.#session, hear); }

  async begin() {
    this.hear((method, params) => {
      if (method === "Runtime.exceptionThrown") { this.errors.push(params.exceptionDetails.exception?.description); }
      if (method === "Log.entryAdded" && params.entry.source !== "network") { this.errors.push(params.entry.text); }
    });
    for (const name of ["Page", "Runtime", "Log", "Network"]) { await this.ask(`${name}.enable`); }
  }

  // From now on the page is in a window of the size of a phone's, and is touched.
  async bePhone() {
    this.isPhone = true;
    const size = { width: 390, height: 844, deviceScaleFactor: 2, mobile: true };
    await this.ask("Emulation.setDeviceMetricsOverride", size);
    await this.ask("Emulation.setTouchEmulationEnabled", { enabled: true, maxTouchPoints: 1 });
  }

  go(url) { return this.ask("Page.navigate", { url }); }

  // Whether the page stands with its script run: the title is the page's own.
  async open(url, title) {
    await this.go(url);
    const isThere = `document.title === ${JSON.stringify(title)} && "ripley" in window`;
    await until(() => this.run(isThere), `the page ${title}`);
  }

  // The value of an expression in the page.
  async run(expression) {
    const asked = { expression, returnByValue: true, awaitPromise: true };
    const { result, exceptionDetails } = await this.ask("Runtime.evaluate", asked);
    if (exceptionDetails) { throw new Error(exceptionDetails.exception?.description ?? exceptionDetails.text); }
    return result.value;
  }

  text(id) { return this.run(`document.getElementById(${JSON.stringify(id)}).textContent`); }

  notice() { return this.run(noticeOf); }

  click(id) { return this.clickOn(withId(id)); }

  // A click of the mouse, or a touch, in the middle of an element.
  async clickOn(element) {
    const { x, y } = await this.run(centerOf(element));
    if (this.isPhone) {
      await this.ask("Input.dispatchTouchEvent", { type: "touchStart", touchPoints: [{ x, y }] });
      await this.ask("Input.dispatchTouchEvent", { type: "touchEnd", touchPoints: [] });
      return;
    }
    await this.ask("Input.dispatchMouseEvent", { type: "mouseMoved", x, y });
    for (const type of ["mousePressed", "mouseReleased"]) {
      await this.ask("Input.dispatchMouseEvent", { type, x, y, button: "left", clickCount: 1 });
    }
  }

  async key(name, modifiers = 0) {
    const code = KEYS[name] ?? (/^[a-z0-9]$/i.test(name) ? name.toUpperCase().charCodeAt(0) : 0);
    const text = modifiers ? undefined : TEXTS[name] ?? (name.length === 1 ? name : undefined);
    const key = { key: name, code: name.length > 1 ? name : undefined, windowsVirtualKeyCode: code, modifiers };
    await this.ask("Input.dispatchKeyEvent", { ...key, type: text ? "keyDown" : "rawKeyDown", text });
    await this.ask("Input.dispatchKeyEvent", { ...key, type: "keyUp" });
  }

  // Holds a key for so many repeats, thirty a second, whether the page is done with the one before or not.
  async hold(name, count) {
    const key = { key: name, code: name, windowsVirtualKeyCode: KEYS[name] };
    const begin = Date.now();
    const presses = [];
    for (let at = 0; at < count; at++) {
      presses.push(this.ask("Input.dispatchKeyEvent", { ...key, type: "rawKeyDown", autoRepeat: at > 0 }));
      await pause(begin + (at + 1) * 33 - Date.now());
    }
    await Promise.all(presses);
    await this.ask("Input.dispatchKeyEvent", { ...key, type: "keyUp" });
  }

  // Keys into an element, in the place of what stands there.
  async type(id, text) {
    await this.click(id);
    const all = { key: "a", windowsVirtualKeyCode: 65, modifiers: 2 };
    await this.ask("Input.dispatchKeyEvent", { ...all, type: "rawKeyDown", commands: ["selectAll"] });
    await this.ask("Input.dispatchKeyEvent", { ...all, type: "keyUp" });
    await this.key("Backspace");
    for (const unit of text) { await this.key(unit === "\n" ? "Enter" : unit); }
  }

  async picture(path) {
    const { data } = await this.ask("Page.captureScreenshot", { format: "png" });
    writeFileSync(path, Buffer.from(data, "base64"));
  }

  // Leaves the page, as a visitor does who goes elsewhere, and closes it.
  async close() {
    await this.go("about:blank");
    await until(() => this.run(`location.href === "about:blank"`), "the page to be left");
    await this.#browser.ask("Target.closeTarget", { targetId: this.#target });
  }
}
