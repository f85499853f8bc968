// A headless Firefox, driven over Marionette: the pages, keys and clicks of chromium.mjs, in a second engine.
import { spawn } from "node:child_process";
import { existsSync, mkdtempSync, readFileSync, rmSync, writeFileSync } from "node:fs";
import { connect } from "node:net";
import { tmpdir } from "node:os";
import { join } from "node:path";
import { centerOf, noticeOf, until, withId } from "./chromium.mjs";

// Nothing but loopback is asked: all else goes to a proxy that is not there.
const PREFERENCES = {
  "marionette.port": 0, "network.proxy.type": 1, "network.proxy.http": "127.0.0.1", "network.proxy.http_port": 9,
  "network.proxy.ssl": "127.0.0.1", "network.proxy.ssl_port": 9, "network.proxy.allow_hijacking_localhost": false,
  "network.captive-portal-service.enabled": false, "network.connectivity-service.enabled": false,
  "app.update.auto": false, "app.normandy.enabled": false, "browser.safebrowsing.update.enabled": false,
  "datareporting.policy.dataSubmissionEnabled": false, "toolkit.telemetry.server": "data:,",
  "services.settings.server": "data:,", "browser.shell.checkDefaultBrowser": false, "browser.aboutwelcome.enabled": false,
};

const KEYS = {
  Tab: "\uE004", Enter: "\uE006", Backspace: "\uE003", ArrowDown: "\uE015", ArrowUp: "\uE013", End: "\uE010", Home: "\uE011",
};
const CONTROL = "\uE009";

export class Firefox {
  #process;
  #home = mkdtempSync(join(tmpdir(), "ripley-firefox-"));
  #socket;
  #unread = Buffer.alloc(0);
  #asked = new Map();
  #last = 0;
  #turn = Promise.resolve();
  #window = null;
  #first = null;
  #version;

  async start() {
    const lines = Object.entries(PREFERENCES).map(([name, value]) => `user_pref("${name}", ${JSON.stringify(value)});`);
    writeFileSync(join(this.#home, "user.js"), lines.join("\n"));
    const words = ["-n", "5", "firefox-esr", "--headless", "--marionette", "--no-remote", "--profile", this.#home];
    this.#process = spawn("nice", words, { stdio: "ignore", env: { ...process.env, HOME: this.#home } });
    process.once("exit", () => this.#process.kill());
    const told = join(this.#home, "MarionetteActivePort");
    const port = await until(() => existsSync(told) && Number(readFileSync(told, "utf8")), "Marionette's port", 60);
    this.#socket = connect(port, "127.0.0.1").on("data", (data) => this.#read(data));
    const session = await this.ask("WebDriver:NewSession", { acceptInsecureCerts: true, pageLoadStrategy: "none" });
    this.#version = session.capabilities.browserVersion;
    this.#first = this.#window = (await this.ask("WebDriver:GetWindowHandle", {})).value;
    return this;
  }

  // A packet is the length of its bytes, a colon, and JSON.
  #read(data) {
    this.#unread = Buffer.concat([this.#unread, data]);
    for (;;) {
      const colon = this.#unread.indexOf(":");
      if (colon < 0) { return; }
      const end = colon + 1 + Number(this.#unread.subarray(0, colon).toString());
      if (this.#unread.length < end) { return; }
      const packet = JSON.parse(this.#unread.subarray(colon + 1, end).toString());
      this.#unread = this.#unread.subarray(end);
      if (Array.isArray(packet)) { this.#take(packet); }
    }
  }

  #take([, id, error, result]) {
    const { name, resolve, reject } = this.#asked.get(id);
    this.#asked.delete(id);
    if (error) { reject(new Error(`${name}: ${error.error} ${error.message}`)); } else { resolve(result); }
  }

  ask(name, params = {}) {
    const id = ++this.#last;
    const text = JSON.stringify([0, id, name, params]);
    this.#socket.write(`${Buffer.byteLength(text)}:${text}`);
    return new Promise((resolve, reject) => this.#asked.set(id, { name, resolve, reject }));
  }

  // Asks in a window, one at a time.
  in(window, name, params) {
    const turn = this.#turn.then(async () => {
      if (this.#window !== window) {
        await this.ask("WebDriver:SwitchToWindow", { handle: window, focus: true });
        this.#window = window;
      }
      return this.ask(name, params);
    });
    this.#turn = turn.catch(() => {});
    return turn;
  }

  async page() {
    const { handle } = await this.in(this.#first, "WebDriver:NewWindow", { type: "tab", focus: true });
    return new Page(this, handle);
  }

  async version() { return `Firefox/${this.#version}`; }

  async close() {
    const isGone = new Promise((resolve) => this.#process.once("exit", resolve));
    await this.ask("Marionette:Quit", { flags: ["eForceQuit"] }).catch(() => {});
    await isGone;
    rmSync(this.#home, { recursive: true, force: true });
  }
}

const key = (value) => [{ type: "keyDown", value }, { type: "keyUp", value }];

class Page {
  errors = [];
  #browser;
  #window;

  constructor(browser, window) {
    this.#browser = browser;
    this.#window = window;
  }

  ask(name, params) { return this.#browser.in(this.#window, name, params); }

  go(url) { return this.ask("WebDriver:Navigate", { url }); }

  async open(url, title) {
    await this.go(url);
    const isThere = `document.title === ${JSON.stringify(title)} && "ripley" in window`;
    await until(() => this.run(isThere).catch(() => false), `the page ${title}`);
  }

  async run(expression) {
    const { value } = await this.ask("WebDriver:ExecuteScript", { script: `return (${expression});`, args: [] });
    return value;
  }

  text(id) { return this.run(`document.getElementById(${JSON.stringify(id)}).textContent`); }

  notice() { return this.run(noticeOf); }

  #act(id, type, actions, parameters) {
    return this.ask("WebDriver:PerformActions", { actions: [{ id, type, parameters, actions }] });
  }

  click(id) { return this.clickOn(withId(id)); }

  async clickOn(element) {
    const { x, y } = await this.run(centerOf(element));
    const move = { type: "pointerMove", x: Math.round(x), y: Math.round(y), origin: "viewport", duration: 0 };
    const press = ["pointerDown", "pointerUp"].map((type) => ({ type, button: 0 }));
    await this.#act("mouse", "pointer", [move, ...press], { pointerType: "mouse" });
  }

  key(name) { return this.#act("keys", "key", key(KEYS[name] ?? name)); }

  // Holds a key for so many repeats, thirty a second.
  async hold(name, count) {
    const value = KEYS[name] ?? name;
    const step = [{ type: "keyDown", value }, { type: "pause", duration: 33 }];
    for (let at = 0; at < count; at += 300) {
      await this.#act("keys", "key", Array(Math.min(300, count - at)).fill(step).flat());
    }
    await this.#act("keys", "key", [{ type: "keyUp", value }]);
  }

  async type(id, text) {
    await this.click(id);
    const all = [{ type: "keyDown", value: CONTROL }, ...key("a"), { type: "keyUp", value: CONTROL }];
    await this.#act("keys", "key", [...all, ...key(KEYS.Backspace), ...[...text].flatMap((unit) => key(unit === "\n" ? KEYS.Enter : unit))]);
  }

  async picture(path) {
    const { value } = await this.ask("WebDriver:TakeScreenshot", { full: false });
    writeFileSync(path, Buffer.from(value, "base64"));
  }

  async close() {
    await this.go("about:blank");
    await until(() => this.run(`location.href === "about:blank"`).catch(() => false), "the page to be left");
    await this.ask("WebDriver:CloseWindow", {});
  }
}
