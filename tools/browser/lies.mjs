// What a visitor may try: the page's script rewritten in the browser, and requests of one's own beside the recorder's.
// Each is to be refused, and `due` is the end of the log's line, or null where a refusal leaves no line.
import { randomUUID } from "node:crypto";
import { pause, until } from "./chromium.mjs";
import { servedOf, site } from "./stack.mjs";

// Rewrites the page on its way into the browser, and lets the browser run what is not the page's.
export async function rewrite(page, from, to) {
  await page.ask("Page.setBypassCSP", { enabled: true });
  await page.ask("Fetch.enable", { patterns: [{ urlPattern: site, resourceType: "Fetch", requestStage: "Response" }] });
  page.hear(async (method, { requestId, responseStatusCode, responseHeaders } = {}) => {
    if (method !== "Fetch.requestPaused") { return; }
    const { body } = await page.ask("Fetch.getResponseBody", { requestId });
    const text = Buffer.from(body, "base64").toString();
    if (!text.includes(from)) { throw new Error(`the page has no ${from}`); }
    const changed = Buffer.from(text.replace(from, to)).toString("base64");
    const fields = responseHeaders.filter(({ name }) => name.toLowerCase() !== "content-length");
    const answer = { responseCode: responseStatusCode, responseHeaders: fields, body: changed };
    await page.ask("Fetch.fulfillRequest", { requestId, ...answer });
  });
}

async function order({ page }) {
  await page.type("pot", "1");
  await page.click("buy");
  await until(async () => (await page.notice()) ?? (await page.text("message")), "an end of the order");
}

// Sends a body from within the page, beside the recorder: code and body of the answer.
function post(page, path, body) {
  return page.run(`fetch(${JSON.stringify(path)}, { method: "POST", body: ${JSON.stringify(body)} })
    .then(async (answer) => ({ code: answer.status, body: await answer.text() }))`);
}

const batches = (visit) => visit.lines().filter((line) => line.startsWith("batch ")).length;

function next(visit, items) {
  return post(visit.page, `/e/${visit.session}`, JSON.stringify({ batch: batches(visit) + 1, items }));
}

// A row that reports these items in a batch of its own.
const report = (what, itemsFor, due) => ({
  what,
  due,
  async lie(visit) {
    await visit.rest();
    return next(visit, itemsFor(visit.numbers));
  },
});

const POT = { cup: 0, name: "", pot: 1, tea: 0 };

export const lies = [
  {
    what: "a price rewritten in the page",
    due: /^done \d+ \d+ \d+ mismatch \d+ \d+ \["order",.*"total":539\}\]\] \["order",.*"total":5390\}\]\]$/,
    before: (page) => rewrite(page, "pot: 4900", "pot: 49"),
    lie: order,
  },
  {
    what: "a price set at the console",
    due: /^done \d+ \d+ \d+ mismatch \d+ \d+ \["order",.*"total":1490\}\]\] \["order",.*"total":5390\}\]\]$/,
    async lie(visit) {
      await visit.page.run("void (prices.pot = 1000)");
      return order(visit);
    },
  },
  {
    what: "a call of the script's functions from the console",
    due: /^done \d+ \d+ \d+ mismatch 1 1 \["order",.*\] none$/,
    async lie(visit) {
      await visit.page.run(`void ripley.call("order", ["orders", ${JSON.stringify({ ...POT, total: 1 })}], null)`);
      return until(() => visit.page.notice(), "the end of the session");
    },
  },
  {
    what: "a call reported without its click",
    due: /^done \d+ \d+ \d+ mismatch 1 1 \["order",.*\] none$/,
    lie: (visit) => next(visit, [["call", 1, "order", ["orders", { ...POT, total: 5390 }]]]),
  },
  report("a call out of order", () => [["call", 2, "order", ["orders", POT]]], /^done \d+ \d+ \d+ report 1 number$/),
  report("a reply that is not due", () => [["reply", 1]], /^done \d+ \d+ \d+ report 1 due$/),
  report("an event at no element", () => [["event", "click", 4000]], /^done \d+ \d+ \d+ report 1 node$/),
  report("an input into a button", ({ buy }) => [["event", "input", buy, "x"]], /^done \d+ \d+ \d+ report 1 control$/),
  report("a name too long", ({ name }) => [["event", "input", name, "x".repeat(41)]], /^done \d+ \d+ \d+ report 1 long$/),
  report("an option that is not there", ({ way }) => [["event", "change", way, 2]], /^done \d+ \d+ \d+ report 1 option$/),
];

// A batch that is sent once more is not done once more. The visit goes on.
async function replayed(visit) {
  await visit.rest();
  const count = visit.lines().length;
  const number = batches(visit);
  const { bodies } = await visit.seen();
  const again = await post(visit.page, `/e/${visit.session}`, bodies.at(-1));
  const old = await post(visit.page, `/e/${visit.session}`, bodies[0]);
  const gap = await post(visit.page, `/e/${visit.session}`, JSON.stringify({ batch: number + 2, items: [] }));
  const told = [
    again.code === 200 && JSON.parse(again.body).batch === number && JSON.parse(again.body).ended === null,
    old.code === 409 && old.body === '{"error":"old"}',
    gap.code === 409 && gap.body === '{"error":"gap"}',
    visit.lines().length === count,
  ];
  return told.every(Boolean) ? [] : [`a batch sent again: ${JSON.stringify([again, old, gap])}`];
}

// A session that nobody opened, and no identifier at all.
async function forged(visit) {
  await visit.rest();
  const count = visit.log.lines().length;
  const wrong = [];
  for (const name of [randomUUID(), "x", `${visit.session}0`]) {
    for (const path of [`/e/${name}`, `/q/${name}`]) {
      const { code, body } = await post(visit.page, path, '{"batch":1,"items":[]}');
      if (code !== 404 || body !== '{"error":"session"}') { wrong.push(`${path} was answered ${code} ${body}`); }
    }
  }
  return visit.log.lines().length === count ? wrong : [...wrong, "a forged session has a line"];
}

export const refusals = [
  { what: "a batch sent again, an old one, and one ahead", refuse: replayed },
  { what: "a session that nobody opened", refuse: forged },
];

// The line with which a lie ended its session, and what is wrong with it.
export async function tell({ what, due, before, lie }, visit, open) {
  if (before) { await before(visit.page); }
  await open();
  await lie(visit);
  await until(() => visit.lines().some((line) => line.startsWith("done ") && !line.endsWith(" ok")), what, 10);
  await pause(50);
  const lines = visit.lines();
  const wrong = [];
  if (!due.test(lines.at(-1))) { wrong.push(`${what}: ${lines.at(-1)}`); }
  if (servedOf(lines).some(({ name }) => name === "order")) { wrong.push(`${what}: an order was served`); }
  return { line: lines.at(-1), wrong };
}
