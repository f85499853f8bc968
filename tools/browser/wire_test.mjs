// Tests of browser/wire.js with a server of a few lines in the place of `fetch`.
//
//   node --test tools/browser/wire_test.mjs
import assert from "node:assert/strict";
import { beforeEach, test } from "node:test";

// The wire takes these as they are when it is read, so what the tests change stands behind them.
let asked = null;
let later = null;
let clock = 0;
globalThis.fetch = (...words) => asked(...words);
globalThis.setTimeout = (...words) => later(...words);
globalThis.clearTimeout = (call) => { watches = watches.filter((each) => each !== call); };
globalThis.performance.now = () => clock;
const { BEAT, SILENT, Wire } = await import("../../browser/wire.js");

const none = () => {};
const turns = async (count = 20) => { for (let at = 0; at < count; at++) { await new Promise(setImmediate); } };

let sent;
let beacons;
let answers;
let now;
let watches;

// Waits are over at once, and told in `now`; a wait for the visitor's notice is over when a test says so.
beforeEach(() => {
  [sent, beacons, answers, now, watches] = [[], [], [], [], []];
  globalThis.location = { origin: "https://a" };
  const navigator = { sendBeacon: (url) => beacons.push(url) };
  Object.defineProperty(globalThis, "navigator", { value: navigator, configurable: true });
  later = (call, milliseconds) => {
    if (milliseconds === SILENT) {
      watches.push(call);
      return call;
    }
    now.push(milliseconds);
    return setImmediate(call);
  };
  asked = async (url, { body }) => {
    sent.push({ url, body });
    const answer = answers.shift() ?? (url.includes("/q/") ? closed : ok(body));
    if (answer === "lost") { throw new TypeError("lost"); }
    return { status: answer.status, json: async () => JSON.parse(answer.body) };
  };
});

const closed = { status: 200, body: '{"closed":true}' };

function ok(body) {
  const { batch, items } = JSON.parse(body);
  const served = items.filter((item) => item[0] === "call").map((item) => [item[1], 5, `reply ${item[1]}`]);
  return { status: 200, body: JSON.stringify({ batch, ended: null, served }) };
}

const itemsOf = ({ body }) => JSON.parse(body).items;

// A wire, and what it told.
function wired({ served = none } = {}) {
  const told = { reasons: [], silent: [] };
  const ended = (reason) => told.reasons.push(reason);
  const silent = (isSilent) => told.silent.push(isSilent);
  return { wire: new Wire("S", { served, ended, silent }), told };
}

test("what happens in one task is one batch", async () => {
  const { wire } = wired();
  wire.event(["event", "click", 4]);
  wire.call("f", "[1]", null);
  await turns();
  wire.event(["event", "focus", 5]);
  await turns();
  assert.deepEqual(sent.map(({ url }) => url), ["https://a/e/S", "https://a/e/S"]);
  assert.equal(sent[0].body, '{"batch":1,"items":[["event","click",4],["call",1,"f",[1]]]}');
  assert.equal(sent[1].body, '{"batch":2,"items":[["event","focus",5]]}');
});

test("a batch is sent again, the same, until it is answered", async () => {
  const { wire } = wired();
  const busy = { status: 409, body: '{"error":"busy"}' };
  answers = ["lost", { status: 502, body: "<html>" }, busy, { status: 200, body: '{"batch":1,"en' }];
  wire.event(["event", "click", 4]);
  await turns();
  wire.event(["event", "click", 5]);
  await turns();
  assert.equal(sent.length, 6);
  assert.equal(new Set(sent.slice(0, 5).map(({ body }) => body)).size, 1);
  assert.equal(sent[5].body, '{"batch":2,"items":[["event","click",5]]}');
  assert.deepEqual(now.slice(0, 4), [250, 500, 1000, 2000]);
});

test("the visitor is told where an answer is late, and where it comes", async () => {
  const { wire, told } = wired();
  let answer = null;
  asked = (url, { body }) => new Promise((resolve) => { answer = () => resolve({ status: 200, json: async () => JSON.parse(ok(body).body) }); });
  wire.event(["event", "click", 4]);
  await turns();
  assert.deepEqual(told.silent, []);
  watches[0]();
  assert.deepEqual(told.silent, [true]);
  answer();
  await turns();
  assert.deepEqual(told.silent, [true, false]);
  wire.event(["event", "click", 5]);
  await turns();
  answer();
  await turns();
  assert.deepEqual([told.silent, watches], [[true, false], []]);
});

test("an empty batch where nothing was sent for a while", async () => {
  const { wire } = wired();
  clock += BEAT - 1;
  wire.beat();
  await turns();
  assert.deepEqual(sent, []);
  clock += 1;
  wire.beat();
  await turns();
  wire.beat();
  await turns();
  assert.deepEqual(sent.map(({ body }) => body), ['{"batch":1,"items":[]}']);
});

test("a batch has at most 64 items", async () => {
  const { wire } = wired();
  for (let at = 0; at < 150; at++) { wire.event(["event", "click", at]); }
  await turns();
  assert.deepEqual(sent.map((one) => itemsOf(one).length), [64, 64, 22]);
});

test("the body of a batch has at most 65,536 bytes", async () => {
  const { wire } = wired();
  const room = 65536 - '{"batch":1,"items":[["event","input",4,""],["event","input",4,""]]}'.length;
  const text = "\u{1F375}".repeat(2048);
  wire.event(["event", "input", 4, text]);
  wire.event(["event", "input", 4, "a".repeat(room - 8192)]);
  await turns();
  wire.event(["event", "input", 4, text]);
  wire.event(["event", "input", 4, "a".repeat(room - 8191)]);
  await turns();
  assert.deepEqual(sent.map((one) => itemsOf(one).length), [2, 1, 1]);
  assert.equal(Buffer.byteLength(sent[0].body), 65536);
});

test("calls past 64 undelivered replies are reported behind replies, in their order", async () => {
  const replies = [];
  const { wire } = wired({ served: (number) => replies.push(number) });
  for (let at = 1; at <= 70; at++) { wire.call("f", `[${at}]`, none); }
  wire.call("g", "[]", null);
  wire.event(["event", "click", 4]);
  await turns();
  const first = [...Array(64).keys()].map((at) => at + 1);
  assert.deepEqual(sent.flatMap(itemsOf).map((item) => item[1]), [...first, "click"]);
  assert.deepEqual(replies, first);
  for (const number of [1, 2, 3, 4, 5, 6]) { assert.equal(wire.reply(number), none); }
  await turns();
  const behind = sent.slice(2).flatMap(itemsOf).map(([kind, number]) => `${kind} ${number}`);
  const due = [1, 2, 3, 4, 5, 6].flatMap((number) => [`reply ${number}`, `call ${64 + number}`]);
  assert.deepEqual(behind, [...due, "call 71"]);
});

test("replies without a callback are not told", async () => {
  const replies = [];
  const { wire } = wired({ served: (...told) => replies.push(told) });
  wire.call("f", "[]", null);
  wire.call("f", "[]", none);
  await turns();
  assert.deepEqual(replies, [[2, 5, "reply 2"]]);
});

for (const [answer, reason, isKnown] of [
  [{ status: 200, body: '{"batch":1,"ended":"mismatch","served":[]}' }, "mismatch", true],
  [{ status: 410, body: '{"batch":1,"ended":"fuel","served":[]}' }, "fuel", true],
  [{ status: 404, body: '{"error":"session"}' }, "session", true],
  [{ status: 409, body: '{"error":"gap"}' }, "gap", false],
  [{ status: 400, body: '{"error":"body"}' }, "body", false],
  [{ status: 413, body: "<html>" }, "413", false],
]) {
  test(`the session ends: ${answer.status} ${reason}, ${isKnown ? "known to" : "closed at"} the server`, async () => {
    const { wire, told } = wired();
    answers = [answer, "lost", { status: 409, body: '{"error":"busy"}' }];
    wire.event(["event", "click", 4]);
    await turns();
    wire.event(["event", "click", 5]);
    wire.close();
    await turns();
    assert.deepEqual(told.reasons, [reason]);
    const urls = isKnown ? ["https://a/e/S"] : ["https://a/e/S", ...Array(3).fill("https://a/q/S")];
    assert.deepEqual(sent.map(({ url }) => url), urls);
    assert.deepEqual(beacons, []);
    assert.ok(wire.isOver);
  });
}

test("a page that is left before its session is closed closes it", async () => {
  const { wire } = wired();
  later = none;
  answers = [{ status: 400, body: '{"error":"body"}' }, "lost"];
  wire.event(["event", "click", 4]);
  await turns();
  wire.close();
  assert.deepEqual(beacons, ["https://a/q/S"]);
});

test("behind what is refused the rest is sent, and the session closed", async () => {
  const { wire, told } = wired();
  wire.event(["event", "click", 4]);
  wire.call("f", "[1]", none);
  wire.refuse("bad-argument");
  wire.call("f", "[2]", none);
  wire.event(["event", "click", 5]);
  assert.ok(wire.isOver);
  await turns();
  assert.deepEqual(itemsOf(sent[0]), [["event", "click", 4], ["call", 1, "f", [1]]]);
  assert.deepEqual(sent.map(({ url }) => url), ["https://a/e/S", "https://a/q/S"]);
  assert.deepEqual(told.reasons, ["bad-argument"]);
});

test("behind what is refused the server's reason counts", async () => {
  const { wire, told } = wired();
  answers = [{ status: 200, body: '{"batch":1,"ended":"lone-surrogate","served":[]}' }];
  wire.event(["event", "click", 4]);
  wire.refuse("bad-argument");
  await turns();
  assert.deepEqual([sent.length, told.reasons], [1, ["lone-surrogate"]]);
});

test("a page that is left closes its session, and sends no more", async () => {
  const { wire } = wired();
  wire.close();
  wire.close();
  wire.event(["event", "click", 4]);
  await turns();
  assert.deepEqual(beacons, ["https://a/q/S"]);
  assert.deepEqual(sent, []);
});

test("a page that is left while a batch is under way sends its closing several times", async () => {
  const { wire } = wired();
  wire.event(["event", "click", 4]);
  await Promise.resolve();
  assert.equal(sent.length, 1);
  wire.close();
  assert.deepEqual(beacons, Array(4).fill("https://a/q/S"));
});
