// The visits of the examples: gestures of a visitor.
import { isEnded, servedOf } from "./stack.mjs";
import { pause, until } from "./chromium.mjs";

// Numbers from a seed: those of seeds that are near each other have nothing in common.
export class Draw {
  #state;

  constructor(seed) {
    const mixed = Math.imul(seed ^ (seed >>> 16), 0x85ebca6b);
    this.#state = Math.imul(mixed ^ (mixed >>> 13), 0xc2b2ae35) >>> 0;
  }

  below(count) {
    this.#state = (Math.imul(1664525, this.#state) + 1013904223) >>> 0;
    return Number((BigInt(this.#state) * BigInt(count)) >> 32n);
  }

  of(list) { return list[this.below(list.length)]; }
}

// A visit: a page, the session that it opened, and the log of its server.
export class Visit {
  session = null;
  numbers = {};
  // What the try saw of the recorder, where nothing was wrong.
  told = null;

  constructor(page, log, kind) {
    this.page = page;
    this.log = log;
    this.kind = kind;
  }

  // Opens the page, or takes up the session of a page that has opened itself again, where no address is given.
  async open(url) {
    if (url !== null) { await this.page.open(url, this.kind.title); }
    ({ session: this.session, numbers: this.numbers } = await this.seen());
    await until(() => this.lines(), "the line of the opening");
  }

  // What the try sees of the recorder.
  seen() { return this.page.run("window.ripleyTry"); }

  lines() { return this.log.of(this.session); }

  // Waits until no report has been under way for a while, in which no input waits either.
  async rest() {
    for (let still = 0; still < 6; still++) {
      if (await this.page.run("window.ripleyTry.underWay > 0")) { still = 0; }
      await pause(25);
    }
  }

  // Has the page tell its document and its controls, which the server compares with its own: what is wrong, after which
  // nothing was reported.
  async compare() {
    await this.rest();
    if (!this.kind.isPlain) { await this.page.click("mirror"); }
    await this.rest();
    const seen = await this.seen();
    const wrong = [];
    const notice = await this.page.notice();
    if (notice !== null) { wrong.push(`the page says: ${notice}`); }
    if (isEnded(this.lines())) { wrong.push(`the session has ended: ${this.lines().at(-1)}`); }
    if (!this.kind.isPlain && !servedOf(this.lines()).some(({ name }) => name === "mirror")) { wrong.push("no mirror"); }
    if (!this.kind.isLoud) { wrong.push(...this.page.errors, ...seen.errors); }
    if (wrong.length === 0) { this.told = seen; }
    return wrong;
  }

  // Leaves the page: the log has the line of the closing.
  async leave() {
    await this.page.close();
    await until(() => this.lines().some((line) => line.startsWith("close ")), "the line of the closing");
  }
}

const TEXTS = ["0", "1", "2", "3", "7", "12", "20", "21", "", "-4", "1.5", "1e1", "007", "e", "99999"];
const NAMES = [
  "Ann", "J\u00e9r\u00f4me O'Neil", "\"quoted\" \\ <b>&amp;</b>", "\u{1F375} tea",
  "a long name that goes on and on past forty units",
];

export const shop = {
  name: "shop",
  folder: "examples/shop",
  title: "Tea and cups",

  async play({ page }) {
    await page.type("tea", "2");
    await page.type("pot", "1");
    await page.type("name", "Ann");
    await page.click("buy");
    await until(async () => /\d/.test(await page.text("message")), "the order's number");
    await page.type("cup", "3");
    await page.key("Tab");
    await page.key("Tab");
    await page.key("ArrowDown");
    await page.click("buy");
  },

  async gesture(page, draw) {
    switch (draw.below(12)) {
      case 0: case 1: return page.type(draw.of(["tea", "cup", "pot"]), draw.of(TEXTS));
      case 2: return page.type("name", draw.of(NAMES));
      case 3: await page.click("pot"); await page.key("Tab"); return page.key(draw.of(["ArrowDown", "ArrowUp"]));
      case 4: await page.click(draw.of(["tea", "cup", "pot"])); return page.key(draw.of(["ArrowDown", "ArrowUp"]));
      case 5: await page.click("name"); return page.key("Enter");
      case 6: return page.click(draw.of(["total", "message"]));
      case 7: return page.key("Tab");
      default: return page.click("buy");
    }
  },
};

const SEATS = ["A1", "A2", "A3", "A4", "B1", "B2", "B3", "B4"];

export const booking = {
  name: "booking",
  folder: "examples/booking",
  title: "The small theatre",

  async play({ page }) {
    for (const seat of ["A1", "A2", "B1", "B2"]) {
      await page.click(seat);
      await pause(60);
    }
  },

  async gesture(page, draw) {
    switch (draw.below(5)) {
      case 0: await page.key("Tab"); return page.key(draw.of(["Enter", " "]));
      case 1: return page.click(draw.of(["seats", "message"]));
      default: return page.click(draw.of(SEATS));
    }
  },
};

const FIELDS = ["c0", "c1", "c2", "c3", "c4", "c5", "c6", "c7", "c8"];

export const game = {
  name: "game",
  folder: "examples/game",
  title: "Three in a row",

  async play({ page }) {
    for (const field of ["c4", "c0", "c8", "c2", "c6", "c1", "c3", "c5", "c7"]) {
      await page.click(field);
    }
  },

  async gesture(page, draw) {
    switch (draw.below(5)) {
      case 0: await page.key("Tab"); return page.key(draw.of(["Enter", " "]));
      case 1: return page.click(await page.run(`document.getElementById("again") === null`) ? "state" : "again");
      default: return page.click(draw.of(FIELDS));
    }
  },
};

export const votes = {
  name: "votes",
  folder: "examples/votes",
  title: "Votes",

  async play({ page }) {
    await page.click("vote");
    await until(async () => /\d/.test(await page.text("tea")), "the count");
    await page.click("tea");
    await page.click("vote");
  },

  async gesture(page, draw) {
    switch (draw.below(3)) {
      case 0: await page.key("Tab"); return page.key(draw.of(["Enter", " "]));
      default: return page.click(draw.of(["vote", "vote", "tea"]));
    }
  },
};

// A page in which nobody listens while it is filled in.
export const letter = {
  name: "letter",
  folder: "tools/browser/letter",
  title: "A letter",

  async play({ page }) {
    await page.type("letter", "Dear shop,\nthe tea was good.");
    await page.click("copy");
    await page.key("Tab");
    await page.key("ArrowDown");
    await page.click("send");
    await until(async () => /sent/i.test(await page.text("told")), "the reply");
  },

  async gesture(page, draw) {
    switch (draw.below(8)) {
      case 0: case 1: return page.type("letter", draw.of(NAMES));
      case 2: await page.click("letter"); return page.key(draw.of(["Enter", "Backspace", "x", "Home"]));
      case 3: await page.click("copy"); return page.click("copy");
      case 4: return page.click("copy");
      case 5: await page.click("copy"); await page.key("Tab"); return page.key(draw.of(["ArrowDown", "ArrowUp"]));
      case 6: return page.key(draw.of(["Tab", " "]));
      default: return page.click("send");
    }
  },
};

export const examples = [shop, booking, game, votes, letter];

const PLACES = [
  "text", "long", "number", "check", "kept", "label", "select", "area", "send", "other", "reset", "link", "inlink", "labelled", "span", "off",
  "outer", "inner", "target", "make", "same", "drop", "many", "codes", "body", "throws", "draws", "shape", "made",
  "made1", "in1",
];

// A page that tells the server what it sees of the document, of flows and of controls, where browsers differ.
export const hazards = {
  name: "hazards",
  folder: "tools/browser/hazards",
  title: "Hazards",

  async play({ page }) {
    for (const place of PLACES.filter((place) => place !== "select")) { await page.click(place).catch(() => null); }
    for (const place of ["text", "long", "number", "area", "in1"]) { await page.type(place, "a text of 12"); }
    await page.click("shape");
  },

  async gesture(page, draw) {
    const place = draw.of(PLACES);
    if (!(await page.run(`document.getElementById("${place}") !== null`))) { return page.click("make"); }
    switch (draw.below(6)) {
      case 0: return page.type(draw.of(["text", "long", "number", "area"]), draw.of([...TEXTS, ...NAMES]));
      case 1: await page.key("Tab"); return page.key(draw.of(["Enter", " ", "ArrowDown", "ArrowUp", "Backspace", "x"]));
      case 2: await page.click("area"); return page.key(draw.of(["Tab", "Backspace", "y"]));
      default: return place === "select" ? page.key("Tab") : page.click(place);
    }
  },

  isLoud: true,
  isPlain: true,
};
