// The servers of a try, on loopback: `ripley serve`, one or two with HAProxy before them, and nginx before all, each by
// its file of deploy/ with ports and paths of the try.
import { execFileSync, spawn } from "node:child_process";
import { closeSync, cpSync, mkdirSync, openSync, readFileSync, renameSync, writeFileSync } from "node:fs";
import { connect } from "node:net";
import { basename, join } from "node:path";
import { fileURLToPath } from "node:url";
import { pause, until } from "./chromium.mjs";

const ROOT = fileURLToPath(new URL("../..", import.meta.url));
const PORT = Number(process.env.RIPLEY_PORT ?? 18000);
const SITE = PORT + 443;
const FIRST = PORT + 80;
const SECOND = PORT + 82;
const PROXY = PORT + 90;

export const site = `https://127.0.0.1:${SITE}/`;

// Limits for 250 sessions, where a manifest names none.
const LIMITS = { sessions: 250, cells: 200000, units: 2000000, nodes: 50000 };
const MIRROR = readFileSync(join(ROOT, "tools/browser/mirror.js"), "utf8");

// The ports of the two servers and of HAProxy.
export const ports = { first: FIRST, second: SECOND, proxy: PROXY };

function isThere(port) {
  return new Promise((resolve) => {
    const socket = connect(port, "127.0.0.1");
    socket.once("connect", () => { socket.destroy(); resolve(true); });
    socket.once("error", () => resolve(false));
  });
}

const WATCH = `<script type="module" src="/ripley/watch.js"></script>\n<script`;

export class Stack {
  #ripley;
  #home;
  #started = [];
  #runs = 0;

  constructor(ripley, home) {
    this.#ripley = ripley;
    this.#home = home;
    mkdirSync(join(home, "log"), { recursive: true });
  }

  async #start(name, words, output, port) {
    if (await isThere(port)) { throw new Error(`port ${port} is in use`); }
    const into = openSync(output, "w");
    const started = spawn(name, words, { stdio: ["ignore", into, "inherit"] });
    closeSync(into);
    this.#started.push(started);
    process.once("exit", () => started.kill());
    await until(() => isThere(port), `${name} on port ${port}`);
    return started;
  }

  // The page and the manifest of a folder, for a try: with limits that last, and with a button at which the page tells
  // what it sees, unless it does so itself.
  prepare({ folder, limits, isPlain }) {
    const home = join(this.#home, "pages", basename(folder));
    mkdirSync(home, { recursive: true });
    let page = readFileSync(join(ROOT, folder, "page.html"), "utf8");
    if (!isPlain) {
      page = page.replace("<script>", `<p><button id="mirror" tabindex="-1">Mirror</button></p>\n<script>`);
      page = page.replace(/\s*<\/body>/, () => `<script>${MIRROR}</script></body>`);
    }
    const manifest = JSON.parse(readFileSync(join(ROOT, folder, "app.json"), "utf8"));
    manifest.limits = limits ?? (manifest.limits.cells ? manifest.limits : LIMITS);
    writeFileSync(join(home, "page.html"), page);
    writeFileSync(join(home, "app.json"), JSON.stringify(manifest));
    return home;
  }

  // A server over the page and the manifest of a prepared folder: its log.
  async serve(home, port = FIRST) {
    this.#runs += 1;
    const log = new Log(join(this.#home, `${basename(home)}-${port}-${this.#runs}.log`));
    const words = ["serve", join(home, "page.html"), join(home, "app.json"), `127.0.0.1:${port}`];
    log.process = await this.#start(this.#ripley, words, log.path, port);
    return log;
  }

  #file(name, changes) {
    let text = readFileSync(join(ROOT, "deploy", name), "utf8");
    for (const [from, to] of changes) {
      if (!text.includes(from)) { throw new Error(`${name} has no ${from}`); }
      text = text.replaceAll(from, to);
    }
    const path = join(this.#home, name);
    writeFileSync(path, text);
    return path;
  }

  // The recorder, with what a try sees of it, and with these changes of its files: a name, a text, and what takes its place.
  #recorder(changes) {
    const home = join(this.#home, "browser");
    const watch = join(ROOT, "tools/browser/watch");
    cpSync(join(ROOT, "browser"), home, { recursive: true });
    for (const [name, from, to] of [["index.html", "<script", WATCH], ...changes]) {
      const text = readFileSync(join(home, name), "utf8");
      if (!text.includes(from)) { throw new Error(`${name} has no ${from}`); }
      writeFileSync(join(home, name), text.replace(from, to));
    }
    for (const name of ["wire", "silence"]) { renameSync(join(home, `${name}.js`), join(home, `true${name}.js`)); }
    cpSync(watch, home, { recursive: true });
    return home;
  }

  // nginx with the policy of the prepared page before the server of this port. Here one address opens many sessions.
  async nginx(folder, port = FIRST, changes = []) {
    this.#key();
    const policy = execFileSync(join(ROOT, "deploy/policy.py"), [join(folder, "page.html")]);
    writeFileSync(join(this.#home, "policy.conf"), policy);
    const file = this.#file("nginx.conf", [
      ["user www-data;", process.getuid() === 0 ? "user root;" : ""],
      ["/run/nginx.pid", join(this.#home, "nginx.pid")],
      ["/var/log/nginx", join(this.#home, "log")],
      ["/etc/ripley", this.#home],
      ["/usr/share/ripley/browser", this.#recorder(changes)],
      ["127.0.0.1:8080", `127.0.0.1:${port}`],
      ["listen 80;", `listen 127.0.0.1:${PORT + 81};`],
      ["listen [::]:80;", ""],
      ["listen 443", `listen 127.0.0.1:${SITE}`],
      ["listen [::]:443 ssl http2;", ""],
      ["/run/ripley/8080/openings", join(this.#home, "openings")],
      ["rate=60r/m", "rate=100r/s"],
      ["rate=30r/m", "rate=100r/s"],
      ["rate=20r/s", "rate=1000r/s"],
      ["rate=50r/s", "rate=1000r/s"],
      ["limit_conn at_work 4;", "limit_conn at_work 40;"],
    ]);
    const words = ["-c", file, "-e", join(this.#home, "log/error.log"), "-g", "daemon off;"];
    return this.#start("nginx", words, join(this.#home, "nginx.out"), SITE);
  }

  #key() {
    const words = ["req", "-x509", "-newkey", "ec", "-pkeyopt", "ec_paramgen_curve:P-256", "-nodes", "-days", "2"];
    const files = ["-keyout", join(this.#home, "key.pem"), "-out", join(this.#home, "certificate.pem")];
    execFileSync("openssl", [...words, ...files, "-subj", "/CN=127.0.0.1"], { stdio: "ignore" });
  }

  // HAProxy before the two servers.
  async haproxy() {
    const file = this.#file("haproxy.cfg", [
      ["127.0.0.1:8090", `127.0.0.1:${PROXY}`],
      ["127.0.0.1:8080", `127.0.0.1:${FIRST}`],
      ["127.0.0.1:8082", `127.0.0.1:${SECOND}`],
      ["127.0.0.1:8091", `127.0.0.1:${PORT + 91}`],
      ["/run/haproxy/ripley.sock", join(this.#home, "haproxy.sock")],
    ]);
    return this.#start("haproxy", ["-f", file], join(this.#home, "haproxy.out"), PROXY);
  }

  // A new HAProxy takes the place of an old one, as a reload does.
  async reload(old) {
    const isGone = new Promise((resolve) => old.once("exit", resolve));
    const words = ["-f", join(this.#home, "haproxy.cfg"), "-sf", String(old.pid)];
    this.#started.push(spawn("haproxy", words, { stdio: ["ignore", "ignore", "inherit"] }));
    await isGone;
  }

  async stop(started) {
    if (started.exitCode !== null || started.signalCode !== null) { return; }
    const isGone = new Promise((resolve) => started.once("exit", resolve));
    started.kill("SIGTERM");
    await isGone;
  }

  async close() {
    for (const started of this.#started.reverse()) { await this.stop(started); }
    this.#started = [];
    await pause(50);
  }
}

// The log that a server writes, by session.
export class Log {
  constructor(path) { this.path = path; }

  lines() { return readFileSync(this.path, "utf8").split("\n").slice(0, -1); }

  // The lines of the session of this identifier.
  of(session) {
    const lines = this.lines();
    const opened = lines.find((line) => line.startsWith("open ") && line.split(" ")[3] === session);
    if (!opened) { return null; }
    const ordinal = opened.split(" ")[2];
    return lines.filter((line) => line.split(" ")[2] === ordinal && !line.startsWith("end "));
  }
}

// The items that a session's lines say were reported, and the calls that were served.
export function itemsOf(lines) {
  const batches = lines.filter((line) => line.startsWith("batch "));
  return batches.flatMap((line) => JSON.parse(line.split(" ").slice(4).join(" ")));
}

export function isEnded(lines) {
  return lines.some((line) => line.startsWith("close ") || (line.startsWith("done ") && !line.endsWith(" ok")));
}

export function servedOf(lines) {
  return lines.filter((line) => line.startsWith("serve ")).map((line) => {
    const [, number, name, list, , reply] = /^serve \d+ \d+ \d+ (\d+) ("[^"]*") (.*) (\d+) (\S.*)$/.exec(line);
    return { number: Number(number), name: JSON.parse(name), list: JSON.parse(list), reply: JSON.parse(reply) };
  });
}
