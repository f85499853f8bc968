#!/usr/bin/env node
// The examples in browsers: nginx before `ripley serve` on loopback, and a headless Chromium and a headless Firefox with
// real mouse, key and touch events.
//
//   apt-get install nginx haproxy chromium firefox-esr nodejs openssl
//   tools/browser/run.mjs RIPLEY [--visits=50] [--seed=1] [--engines=chromium,firefox] [--parts=visits,hazards,lies,..]
//                         [--pages=shop,booking,game,votes,letter] [--into=FOLDER]
//
// RIPLEY is the program. The servers' ports are counted from RIPLEY_PORT, or from 18000. Visit N of a page draws its
// gestures from the seed `SEED + N`. Pictures of the pages and the logs of the servers are left in FOLDER. The status
// is 0 only where each case went as due: page and server agreed in each visit, each lie was refused with the due line, and
// no other session ended but by its own closing. It is no part of the gate.
import { mkdtempSync } from "node:fs";
import { tmpdir } from "node:os";
import { join } from "node:path";
import * as cases from "./cases.mjs";
import { Browser, pause, until } from "./chromium.mjs";
import { Firefox } from "./firefox.mjs";
import { lies, refusals, tell } from "./lies.mjs";
import { Stack, itemsOf, ports, servedOf, site } from "./stack.mjs";
import { loudItems, replays } from "./traces.mjs";
import { Draw, Visit, examples, hazards, shop } from "./visits.mjs";

const words = Object.fromEntries(process.argv.slice(3).map((word) => word.slice(2).split("=", 2)));
const ripley = process.argv[2];
const visits = Number(words.visits ?? 50);
const seed = Number(words.seed ?? 1);
const into = words.into ?? mkdtempSync(join(tmpdir(), "ripley-"));
const pages = examples.filter(({ name }) => (words.pages ?? name).split(",").includes(name));
const wrong = [];

function tellWrong(what, differences) {
  for (const each of differences) {
    wrong.push(each);
    console.log(`WRONG ${what}: ${each}`);
  }
}

// Opens a page on the example that a server serves.
async function begin(browser, log, kind, prepare = () => {}) {
  const page = await browser.page();
  await prepare(page);
  const visit = new Visit(page, log, kind);
  await visit.open(site);
  return visit;
}

// The servers over a page, with changes of the recorder's files where there are some.
async function withStack(kind, use, changes = []) {
  const stack = new Stack(ripley, into);
  try {
    const home = stack.prepare(kind);
    const log = await stack.serve(home);
    await use(stack, log, await stack.nginx(home, ports.first, changes), home);
  } finally {
    await stack.close();
  }
}

async function randomVisit(browser, log, kind, number) {
  const visit = await begin(browser, log, kind);
  const draw = new Draw(seed + number);
  const gestures = 5 + draw.below(15);
  for (let at = 0; at < gestures; at++) {
    await kind.gesture(visit.page, draw);
    await pause(draw.below(3) * 20);
  }
  tellWrong(`${kind.name}, visit ${number}, seed ${seed + number}`, await visit.compare());
  await visit.leave();
  return visit;
}

// Each page: its own visit with a picture, and then random ones. Then the log is replayed, as it is and as it would be
// without silence.
async function playAll(browser, kinds) {
  for (const kind of kinds) {
    await withStack(kind, async (stack, log, nginx, home) => {
      const visit = await begin(browser, log, kind);
      await kind.play(visit);
      tellWrong(kind.name, await visit.compare());
      await visit.page.picture(join(into, `${kind.name}.png`));
      await visit.leave();
      const all = [visit];
      for (let number = 1; number <= visits; number++) { all.push(await randomVisit(browser, log, kind, number)); }
      const loud = new Map(all.filter(({ told }) => told !== null).map(({ session, told }) => [session, loudItems(told)]));
      const found = replays(ripley, home, log, loud);
      tellWrong(`${kind.name}, replayed`, found.wrong);
      console.log(`${kind.name}: ${all.length} visits, ${found.calls} calls, ${found.items} items, ${found.loud} without silence`);
    });
  }
}

// What a visitor may try at the shop.
async function playLies(browser) {
  await withStack(shop, async (stack, log) => {
    for (const row of lies) {
      const visit = new Visit(await browser.page(), log, shop);
      const told = await tell(row, visit, () => visit.open(site));
      tellWrong(row.what, told.wrong);
      console.log(`${row.what}: ${told.line}`);
      if (row === lies[0]) { await visit.page.picture(join(into, "ended.png")); }
    }
    for (const { what, refuse } of refusals) {
      const visit = await begin(browser, log, shop);
      await shop.play(visit);
      tellWrong(what, await refuse(visit));
      tellWrong(what, await visit.compare());
      await visit.leave();
      console.log(`${what}: refused, without a line`);
    }
  });
}

// Two browsers at once, at one server.
async function playPair() {
  const pair = [new Browser(), new Browser()];
  for (const kind of pages) {
    await withStack(kind, async (stack, log) => {
      await Promise.all(pair.map(async (browser, number) => {
        for (let at = 0; at < 3; at++) { await randomVisit(browser, log, kind, 1000 + 10 * at + number); }
      }));
      console.log(`${kind.name}: two browsers at once`);
    });
  }
  await Promise.all(pair.map((browser) => browser.close()));
}

// HAProxy before two servers: each session stays with its own.
async function playSpread(browser) {
  const stack = new Stack(ripley, into);
  try {
    const home = stack.prepare(shop);
    const logs = [await stack.serve(home), await stack.serve(home, ports.second)];
    const proxy = await stack.haproxy();
    await stack.nginx(home, ports.proxy);
    const both = { of: (session) => logs.map((log) => log.of(session)).find((lines) => lines !== null) ?? null };
    for (let number = 1; number <= 6; number++) { await randomVisit(browser, both, shop, 2000 + number); }
    const open = await Promise.all([1, 2, 3, 4].map(() => begin(browser, both, shop)));
    await stack.reload(proxy);
    for (const visit of open) {
      await shop.play(visit);
      tellWrong("two servers", await visit.compare());
      await visit.leave();
    }
    const counts = logs.map((log) => log.lines().filter((line) => line.startsWith("open ")).length);
    if (counts.includes(0)) { tellWrong("two servers", [`sessions by server: ${counts}`]); }
    console.log(`two servers behind HAProxy: ${counts.join(" and ")} sessions`);
  } finally {
    await stack.close();
  }
}

// The line is broken until the page says so, which its script doesn't see, and then until it doesn't.
async function playBroken(browser) {
  await withStack(hazards, async (stack, log) => {
    const visit = await begin(browser, log, hazards);
    const { page } = visit;
    const line = { latency: 0, downloadThroughput: -1, uploadThroughput: -1 };
    await page.ask("Network.emulateNetworkConditions", { ...line, offline: true });
    await page.click("shape");
    const notice = await until(() => page.notice(), "the notice of silence");
    for (const place of ["shape", "make", "made1", "in1", "same", "shape"]) { await page.click(place); }
    await page.ask("Network.emulateNetworkConditions", { ...line, offline: false });
    await until(async () => (await page.notice()) === null, "the end of the notice");
    tellWrong("a broken line", await visit.compare());
    await visit.leave();
    console.log(`a broken line: '${notice}', and then no notice`);
  });
}

// Every third answer to a batch is lost on its way, and nginx is reloaded: each batch is done once, and the visit goes
// on.
async function playLost(browser) {
  await withStack(shop, async (stack, log, nginx) => {
    const visit = await begin(browser, log, shop);
    let answers = 0;
    let lost = 0;
    await visit.page.ask("Fetch.enable", { patterns: [{ urlPattern: "*/e/*", requestStage: "Response" }] });
    visit.page.hear(async (method, { requestId } = {}) => {
      if (method !== "Fetch.requestPaused") { return; }
      answers += 1;
      if (answers % 3 === 0) {
        lost += 1;
        await visit.page.ask("Fetch.failRequest", { requestId, errorReason: "ConnectionReset" });
      } else {
        await visit.page.ask("Fetch.continueRequest", { requestId });
      }
    });
    await shop.play(visit);
    nginx.kill("SIGHUP");
    await visit.page.type("cup", "12");
    await pause(2000);
    tellWrong("lost answers", await visit.compare());
    const numbers = visit.lines().filter((line) => line.startsWith("batch ")).map((line) => Number(line.split(" ")[3]));
    if (numbers.some((number, at) => number !== at + 1)) { tellWrong("lost answers", [`batches ${numbers}`]); }
    await visit.leave();
    console.log(`lost answers: ${lost} of ${answers}, ${numbers.length} batches, each done once`);
  });
}

// The server is stopped and started: the page is told, and a new one opens.
async function playRestart(browser) {
  await withStack(shop, async (stack, log, nginx, home) => {
    const visit = await begin(browser, log, shop);
    await visit.page.type("tea", "1");
    await visit.rest();
    await stack.stop(log.process);
    await visit.page.type("cup", "1");
    const silent = await until(() => visit.page.notice(), "the notice of silence");
    const after = await stack.serve(home);
    const ended = await until(async () => {
      const notice = await visit.page.notice();
      return notice !== silent ? notice : null;
    }, "the notice of the end");
    console.log(`restart: '${silent}', then '${ended}'`);
    await visit.page.picture(join(into, "restarted.png"));
    const fresh = await begin(browser, after, shop);
    await shop.play(fresh);
    tellWrong("after the restart", await fresh.compare());
    await fresh.leave();
  });
}

// What is done in each engine, and what needs Chromium's own means.
const parts = {
  visits: (browser) => playAll(browser, pages),
  hazards: (browser) => playAll(browser, [hazards]),
  ...Object.fromEntries(Object.entries(cases.inEach).map(([name, play]) => [name, playCase(play)])),
};
const chromiumParts = {
  lies: playLies,
  pair: playPair,
  spread: playSpread,
  lost: playLost,
  broken: playBroken,
  restart: playRestart,
  ...Object.fromEntries(Object.entries(cases.inChromium).map(([name, play]) => [name, playCase(play)])),
};

// A case of cases.mjs.
function playCase(play) {
  return (browser) => play({ browser, begin, withStack, tellWrong, into, pages });
}

async function playIn(name, browser, known) {
  console.log(`${await browser.version()}, seed ${seed}, into ${into}`);
  for (const part of (words.parts ?? Object.keys(known).join(",")).split(",")) {
    if (!(part in known)) { continue; }
    const begun = Date.now();
    await known[part](browser).catch((error) => tellWrong(part, [error.stack]));
    console.log(`${name} ${part}: ${Math.round((Date.now() - begun) / 1000)} s`);
  }
  await browser.close();
}

// What was started ends with the run, also where it is broken off.
process.setMaxListeners(0);
for (const signal of ["SIGINT", "SIGTERM"]) { process.once(signal, () => process.exit(1)); }

const engines = (words.engines ?? "chromium,firefox").split(",");
if (engines.includes("chromium")) { await playIn("chromium", new Browser(), { ...parts, ...chromiumParts }); }
if (engines.includes("firefox")) { await playIn("firefox", await new Firefox().start(), parts); }
console.log(wrong.length === 0 ? "all as due" : `${wrong.length} wrong`);
process.exit(wrong.length === 0 ? 0 : 1);
