// What visitors meet beside plain visits: keys that are held, long texts, calls that can't be told, and the ends of
// sessions. Each case is given a browser and what run.mjs opens visits by.
import { join } from "node:path";
import { pause, until } from "./chromium.mjs";
import { itemsOf, ports, servedOf, site } from "./stack.mjs";
import { Draw, hazards, letter, shop } from "./visits.mjs";

const inputs = (visit) => itemsOf(visit.lines()).filter((item) => item[1] === "input").length;

const notice = (visit) => until(() => visit.page.notice(), "a notice");

const done = (visit) => visit.lines().filter((line) => line.startsWith("done ")).at(-1);

const differs = (what, found, due) => {
  const [a, b] = [found, due].map((each) => JSON.stringify(each));
  return a === b ? [] : [`${what}: ${a}, not ${b}`];
};

// A key is held for two minutes in a number field of which a listener hears each step.
async function held({ browser, begin, withStack, tellWrong }) {
  await withStack(shop, async (stack, log) => {
    const visit = await begin(browser, log, shop);
    await visit.page.click("tea");
    await visit.page.hold("ArrowUp", 3600);
    tellWrong("a key that is held", await visit.compare());
    const value = await visit.page.run(`document.getElementById("tea").value`);
    console.log(`a key held for two minutes: from 0 to ${value} in ${inputs(visit)} inputs`);
    await visit.leave();
  });
}

// A letter of 8,000 characters, typed where nobody listens.
async function written({ browser, begin, withStack, tellWrong }) {
  await withStack(letter, async (stack, log) => {
    const visit = await begin(browser, log, letter);
    const text = "Dear friends of tea, ".repeat(400).slice(0, 8000);
    await visit.page.type("letter", text);
    tellWrong("a letter", await visit.compare());
    await visit.page.click("send");
    await until(() => servedOf(visit.lines()).some(({ name }) => name === "send"), "the letter");
    const sent = servedOf(visit.lines()).find(({ name }) => name === "send");
    tellWrong("a letter", differs("what is sent", sent.list[1].slice(2), [8000, text]));
    console.log(`a letter of 8,000 characters: ${inputs(visit)} inputs`);
    await visit.leave();
  });
}

const refused = { name: "refused", folder: "tools/browser/refused", title: "Refused", isPlain: true };

const REFUSALS = [
  ["long", "bad-argument"], ["deep", "bad-argument"], ["half", "lone-surrogate"], ["none", "bad-argument"],
  ["caught", "bad-argument"], ["zero", "bad-argument"], ["first", "lone-surrogate"],
];

// Calls that can't be told: recorder and server refuse them for the same reason, at the event, and what was called before is
// served.
async function refusing({ browser, begin, withStack, tellWrong }) {
  await withStack(refused, async (stack, log) => {
    for (const [id, reason] of REFUSALS) {
      const visit = await begin(browser, log, refused);
      await visit.page.click("fits");
      await until(() => servedOf(visit.lines()).length === 3, "the calls that fit");
      await visit.page.click(id);
      const told = await notice(visit);
      const wrong = [
        ...differs("the line", done(visit).split(" ").slice(4), [reason, "1"]),
        ...differs("the code", told.endsWith(`(${reason})`), true),
        ...differs("calls", servedOf(visit.lines()).length, 3),
      ];
      tellWrong(`a call refused: ${id}`, wrong);
      console.log(`a call refused: ${id}: ${done(visit)}: '${told}'`);
      await visit.page.close();
    }
  });
}

// A call that only the browser makes, and can't tell: the session is closed at the server.
async function closing({ browser, begin, withStack, tellWrong }) {
  await withStack(refused, async (stack, log) => {
    const visit = await begin(browser, log, refused);
    await visit.page.run(`(() => { try { ripley.call("tell", [undefined], null); } catch { return 1; } })()`);
    const told = await notice(visit);
    await until(() => visit.lines().some((line) => line.startsWith("close ")), "the closing");
    tellWrong("a session given up", differs("the code", told.endsWith("(bad-argument)"), true));
    console.log(`a session that the browser gives up: '${told}', and closed`);
    await visit.page.close();
  });
}

// Ends of which the visitor may go on with what was typed: how each comes about, and its code.
const ENDS = [
  {
    what: "a limit",
    code: "cells",
    limits: { cells: 2000, units: 100000, nodes: 2000 },
    async end({ page }) {
      await page.click("tea");
      await until(async () => { await page.key("ArrowUp"); await pause(110); return page.notice(); }, "the end", 60);
    },
  },
  {
    what: "idleness",
    code: "closed",
    async end({ page, session }) {
      await fetch(`http://127.0.0.1:${ports.first}/q/${session}`, { method: "POST" });
      await page.click("buy");
    },
  },
  {
    what: "a restart",
    code: "session",
    async end({ page }, stack, log, home) {
      await stack.stop(log.process);
      const after = await stack.serve(home);
      await page.click("buy");
      return after;
    },
  },
];

const panel = `document.querySelector("html > [role=alert]").shadowRoot`;

// What a visitor sees of an end, and the new session with what was typed.
async function ending({ browser, begin, withStack, tellWrong, into }) {
  for (const { what, code, limits, end } of ENDS) {
    await withStack({ ...shop, limits }, async (stack, log, nginx, home) => {
      const visit = await begin(browser, log, shop);
      await visit.page.type("name", "J\u00e9r\u00f4me O'Neil");
      await visit.page.type("cup", "3");
      await visit.rest();
      const after = await end(visit, stack, log, home) ?? log;
      const told = await notice(visit);
      const kept = await visit.page.run(`${panel}.querySelector("textarea").value`);
      const wrong = [
        ...differs("the code", told.endsWith(`(${code})`), true),
        ...differs("the body", await visit.page.run("document.body.inert"), true),
        ...differs("what is kept", kept.split("\n").slice(0, 2), ["Your name: J\u00e9r\u00f4me O'Neil", "A cup, 12.00: 3"]),
      ];
      await visit.page.picture(join(into, `ended-${code}.png`));
      await visit.page.clickOn(`${panel}.querySelectorAll("button")[1]`);
      visit.log = after;
      await until(async () => (await visit.seen())?.session !== visit.session && visit.page.run(`"ripley" in window`), "the new page");
      wrong.push(...await again(visit));
      tellWrong(`the end of ${what}`, wrong);
      console.log(`the end of ${what}: '${told}', and again with what was typed`);
      await visit.leave();
    });
  }
}

async function again(visit) {
  await visit.open(null);
  await visit.rest();
  const values = await visit.page.run(`["name", "cup"].map((id) => document.getElementById(id).value)`);
  return [...differs("what is put back", values, ["J\u00e9r\u00f4me O'Neil", "3"]), ...await visit.compare()];
}

// A server that hangs is told after 5 seconds, and a visit goes on behind it.
async function hanging({ browser, begin, withStack, tellWrong }) {
  await withStack(shop, async (stack, log) => {
    const visit = await begin(browser, log, shop);
    log.process.kill("SIGSTOP");
    const begun = Date.now();
    await visit.page.type("tea", "2");
    const told = await notice(visit);
    const seconds = (Date.now() - begun) / 1000;
    log.process.kill("SIGCONT");
    await until(async () => await visit.page.notice() === null, "the end of the notice");
    tellWrong("a server that hangs", [...differs("seconds", seconds > 4.9 && seconds < 7, true), ...await visit.compare()]);
    console.log(`a server that hangs: '${told}' after ${seconds} s`);
    await visit.leave();
  });
}

// A page that is full.
async function filling({ browser, begin, withStack, tellWrong }) {
  await withStack({ ...shop, limits: { sessions: 1 } }, async (stack, log) => {
    const visit = await begin(browser, log, shop);
    const page = await browser.page();
    await page.go(site);
    const told = await until(() => page.notice().catch(() => null), "the notice");
    tellWrong("a full page", differs("the code", told.endsWith("(full)"), true));
    await visit.leave();
    await page.clickOn(`${panel}.querySelectorAll("button")[1]`);
    await until(() => page.run(`"ripley" in window`).catch(() => false), "the page");
    console.log(`a full page: '${told}', and then not`);
    await page.close();
  });
}

// A page that is loaded again by the browser's own means begins as it stands in the file.
async function reloading({ browser, begin, withStack, tellWrong }) {
  await withStack(shop, async (stack, log) => {
    const visit = await begin(browser, log, shop);
    await visit.page.type("name", "Ann");
    await visit.page.type("cup", "3");
    await visit.page.run("void setTimeout(() => location.reload())");
    await until(async () => ![null, undefined, visit.session].includes((await visit.seen())?.session), "the new session");
    await visit.open(null);
    const values = await visit.page.run(`["name", "cup"].map((id) => document.getElementById(id).value)`);
    tellWrong("a page loaded again", [...differs("values", values, ["", "0"]), ...await visit.compare()]);
    console.log("a page loaded again: as it stands in the file");
    await visit.leave();
  });
}

const STRAY = [{ id: "nowhere", number: 0, name: "input", label: "Elsewhere", value: "a text" }];

// What was taken along and finds no control is shown, and the visit goes on.
async function leaving({ browser, begin, withStack, tellWrong }) {
  await withStack(shop, async (stack, log) => {
    const visit = await begin(browser, log, shop);
    await visit.page.run(`sessionStorage.setItem("ripley-typed", ${JSON.stringify(JSON.stringify(STRAY))})`);
    await visit.page.run("void setTimeout(() => location.reload())");
    await until(async () => ![null, undefined, visit.session].includes((await visit.seen())?.session), "the new session");
    await visit.open(null);
    const told = await notice(visit);
    const kept = await visit.page.run(`${panel}.querySelector("textarea").value`);
    await visit.page.clickOn(`${panel}.querySelectorAll("button")[1]`);
    await shop.play(visit);
    tellWrong("what finds no control", [...differs("what is kept", kept, "Elsewhere: a text"), ...await visit.compare()]);
    console.log(`what finds no control: '${told}'`);
    await visit.leave();
  });
}

// What a translation does to a page: each text is put into elements of its own, which no script has made.
const TRANSLATE = `(() => {
  const walker = document.createTreeWalker(document.body, NodeFilter.SHOW_TEXT);
  const texts = [];
  while (walker.nextNode()) { texts.push(walker.currentNode); }
  for (const text of texts) {
    if (text.data.trim() === "" || text.parentNode.closest("script, textarea, font, [translate=no]")) { continue; }
    const place = new DOMParser().parseFromString("<font><font></font></font>", "text/html").querySelector("font");
    place.firstChild.append(text.data.toUpperCase());
    text.replaceWith(place);
  }
})()`;

// A translated page goes on where its script reads no text of the page, and ends where it tells one.
async function translating({ browser, begin, withStack, tellWrong }) {
  for (const [kind, isDue] of [[shop, true], [letter, true], [hazards, false]]) {
    await withStack({ ...kind, isPlain: true }, async (stack, log) => {
      const visit = await begin(browser, log, { ...kind, isPlain: true });
      await visit.page.run(TRANSLATE);
      const again = setInterval(() => visit.page.run(TRANSLATE).catch(() => {}), 100);
      await (isDue ? kind.play(visit) : visit.page.click("shape"));
      await (isDue ? visit.rest() : notice(visit));
      clearInterval(again);
      const line = done(visit);
      tellWrong(`a translated page, ${kind.name}`, differs("the last line", line.endsWith(" ok"), isDue));
      console.log(`a translated page: ${kind.name}: ${line.slice(0, 60)}`);
      await visit.page.close();
    });
  }
}

const QUICK = [["wire.js", "BEAT = 240000", "BEAT = 1000"], ["recorder.js", "LOOK = 30000", "LOOK = 300"]];

// A page that is only looked at says that it is seen.
async function beating({ browser, begin, withStack, tellWrong }) {
  await withStack(shop, async (stack, log) => {
    const visit = await begin(browser, log, shop);
    const empty = () => visit.lines().filter((line) => /^batch \d+ \d+ \d+ \[\]$/.test(line)).length;
    await until(() => empty() > 2, "empty batches");
    await shop.play(visit);
    tellWrong("a page that is looked at", await visit.compare());
    console.log(`a page that is looked at: ${empty()} empty batches`);
    await visit.leave();
  }, QUICK);
}

export const inEach = {
  held, written, refusing, closing, ending, hanging, filling, reloading, leaving, translating, beating,
};

// A phone: the width of the window, and touches.
async function phone({ browser, begin, withStack, tellWrong, into, pages }) {
  for (const kind of pages) {
    await withStack(kind, async (stack, log) => {
      const visit = await begin(browser, log, kind, (page) => page.bePhone());
      await kind.play(visit);
      const draw = new Draw(7);
      for (let at = 0; at < 20; at++) { await kind.gesture(visit.page, draw); }
      const width = await visit.page.run("innerWidth");
      tellWrong(`a phone, ${kind.name}`, [...differs("width", width, 390), ...await visit.compare()]);
      await visit.page.picture(join(into, `phone-${kind.name}.png`));
      console.log(`a phone: ${kind.name}`);
      await visit.leave();
    });
  }
}

// Answers that the recorder does not expect: the session is closed at the server.
async function unexpected({ browser, begin, withStack, tellWrong }) {
  await withStack(shop, async (stack, log) => {
    const visit = await begin(browser, log, shop);
    await visit.page.ask("Fetch.enable", { patterns: [{ urlPattern: "*/e/*" }] });
    visit.page.hear((method, { requestId } = {}) => {
      if (method === "Fetch.requestPaused") { visit.page.ask("Fetch.fulfillRequest", { requestId, responseCode: 413 }); }
    });
    await visit.page.type("tea", "1");
    const told = await notice(visit);
    await until(() => visit.lines().some((line) => line.startsWith("close ")), "the closing");
    tellWrong("an answer that is not due", differs("the code", told.endsWith("(413)"), true));
    console.log(`an answer that is not due: '${told}', and closed`);
    await visit.page.close();
  });
}

// A day of one visitor in each page: 2,500 gestures.
async function day({ browser, begin, withStack, tellWrong, pages }) {
  for (const kind of pages) {
    await withStack(kind, async (stack, log) => {
      const visit = await begin(browser, log, kind);
      const draw = new Draw(11);
      for (let at = 0; at < 2500; at++) {
        await kind.gesture(visit.page, draw);
        if (await visit.page.notice() !== null) { break; }
      }
      const wrong = await visit.compare();
      tellWrong(`a day, ${kind.name}`, wrong);
      console.log(`a day: ${kind.name}, ${itemsOf(visit.lines()).length} items`);
      await (wrong.length === 0 ? visit.leave() : visit.page.close());
    });
  }
}

export const inChromium = { phone, unexpected, day };
