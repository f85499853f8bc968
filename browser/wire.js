// One session's reports: the items that wait to be sent, one batch under way at a time, and its answer.
//
// A batch has at most 64 items and its body at most 65,536 bytes. It is sent again under its number until an answer
// comes; the server gives a batch that it has done the answer that it gave before. No item is one that the server refuses
// unread, so what becomes of a session does not depend on where batches are cut.

// The page's script may have names of its own for these.
const {
  AbortSignal, JSON, Map, Promise, TextEncoder, clearTimeout, fetch, performance, queueMicrotask, setTimeout,
} = globalThis;

const MOST_ITEMS = 64;
const MOST_BYTES = 65536;
const MOST_UNDELIVERED = 64;
const LONGEST_WAIT = 8000;
const PATIENCE = 30000;
const CLOSINGS = 4;

// Behind so many milliseconds without an answer the visitor is told; behind so many without a batch an empty one is sent.
export const SILENT = 5000;
export const BEAT = 240000;

// Answers behind which the same batch is sent again: the batch before is not done, and what stands between page and
// server could not hand the request on, or the server had no memory for it.
const AGAIN = [408, 429, 500, 502, 503, 504];

const size = (text) => new TextEncoder().encode(text).length;
const pause = (tries) => new Promise((resolve) => setTimeout(resolve, Math.min(250 * 2 ** tries, LONGEST_WAIT)));

const closing = (session) => `${location.origin}/q/${session}`;

// Closes a session of which its page wants no more, as often as it takes until the server knows.
export async function shut(session) {
  for (let tries = 0; ; tries++) {
    try {
      const { status } = await fetch(closing(session), { method: "POST", keepalive: true });
      if ([200, 404, 410].includes(status)) { return; }
    } catch { /* The line is broken. */ }
    await pause(tries);
  }
}

export class Wire {
  #session;
  #told;
  #items = [];
  #held = [];
  #undelivered = 0;
  #made = 0;
  #waiting = new Map();
  #number = 0;
  #last = performance.now();
  #isBeat = false;
  #isSending = false;
  // Nothing more is reported; nothing more is sent; the server knows that the session is over.
  #isOver = false;
  #isEnded = false;
  #isShut = false;
  #refused = null;

  // `told` has three functions: `served(number, time, reply)` for a reply that has a callback, in the order of call
  // numbers; `ended(reason)`, once; and `silent(isSilent)` where the server stops and begins to answer.
  constructor(session, told) {
    this.#session = session;
    this.#told = told;
  }

  get isOver() { return this.#isOver; }

  event(item) { this.#report(item); }

  // A call that the script made, with the JSON of what it is called with. A call with a callback waits here while 64
  // replies are undelivered, since the server would end the session; so do the calls behind it.
  call(name, list, callback) {
    if (this.#isOver) { return; }
    this.#made += 1;
    this.#held.push({ text: `["call",${this.#made},${JSON.stringify(name)},${list}]`, isAwaited: callback !== null });
    if (callback !== null) { this.#waiting.set(this.#made, callback); }
    this.#release();
  }

  // A reply is delivered: the callback that is to have it.
  reply(number) {
    const callback = this.#waiting.get(number);
    this.#waiting.delete(number);
    this.#report(["reply", number]);
    this.#undelivered -= 1;
    this.#release();
    return callback;
  }

  // The server would not go on behind what was reported so far. That is still sent, since the reason is the server's, if it
  // has one; else the session is closed.
  refuse(reason) {
    if (this.#isOver) { return; }
    this.#isOver = true;
    this.#refused = reason;
    this.#held = [];
    queueMicrotask(() => this.#send());
  }

  // The page is still seen: where nothing was sent for minutes, an empty batch says so.
  beat() {
    this.#isBeat = performance.now() - this.#last >= BEAT;
    queueMicrotask(() => this.#send());
  }

  #report(item) {
    if (this.#isOver) { return; }
    this.#items.push(`[${item.map((part) => JSON.stringify(part)).join(",")}]`);
    queueMicrotask(() => this.#send());
  }

  #release() {
    while (this.#held.length > 0) {
      const { text, isAwaited } = this.#held[0];
      if (isAwaited && this.#undelivered === MOST_UNDELIVERED) { break; }
      if (isAwaited) { this.#undelivered += 1; }
      this.#items.push(text);
      this.#held.shift();
    }
    queueMicrotask(() => this.#send());
  }

  async #send() {
    if (this.#isSending) { return; }
    this.#isSending = true;
    while ((this.#items.length > 0 || this.#isBeat) && !this.#isEnded) {
      this.#isBeat = false;
      this.#number += 1;
      this.#take(await this.#post(this.#batch()));
      this.#last = performance.now();
    }
    this.#isSending = false;
    if (this.#refused !== null) { this.#end(this.#refused, false); }
  }

  // The body of the next batch, which takes the longest front of the items that it has room for.
  #batch() {
    const head = `{"batch":${this.#number},"items":[`;
    let bytes = size(head) + 2;
    let count = 0;
    while (count < this.#items.length && count < MOST_ITEMS) {
      bytes += size(this.#items[count]) + (count > 0 ? 1 : 0);
      if (bytes > MOST_BYTES && count > 0) { break; }
      count += 1;
    }
    return `${head}${this.#items.splice(0, count).join(",")}]}`;
  }

  // The answer to a batch; where it is late, the visitor is told.
  async #post(body) {
    let isLate = false;
    const late = setTimeout(() => { isLate = true; this.#told.silent(true); }, SILENT);
    let answer = null;
    for (let tries = 0; answer === null && !this.#isEnded; tries++) {
      if (tries > 0) { await pause(tries - 1); }
      answer = await this.#ask(body);
    }
    clearTimeout(late);
    if (isLate) { this.#told.silent(false); }
    return answer;
  }

  // The answer to a batch, or null where the batch is to be sent again.
  async #ask(body) {
    try {
      const answer = await fetch(`${location.origin}/e/${this.#session}`, {
        method: "POST", body, cache: "no-store", signal: AbortSignal.timeout(PATIENCE),
      });
      if (AGAIN.includes(answer.status)) { return null; }
      if (answer.status === 200 || answer.status === 410) { return { ...await answer.json(), isKnown: true }; }
      const { error } = await answer.json().catch(() => ({}));
      return error === "busy" ? null : { ended: error ?? `${answer.status}`, isKnown: error === "session" };
    } catch {
      return null;
    }
  }

  #take(answer) {
    if (answer === null || this.#isEnded) { return; }
    if (answer.ended !== null) {
      this.#end(answer.ended, answer.isKnown);
      return;
    }
    for (const [number, time, reply] of answer.served) {
      if (this.#waiting.has(number)) { this.#told.served(number, time, reply); }
    }
  }

  // The session has ended; where the server does not know, it is closed there.
  #end(reason, isKnown) {
    if (this.#isEnded) { return; }
    this.#isOver = this.#isEnded = true;
    this.#isShut = isKnown;
    if (!isKnown) { shut(this.#session).then(() => { this.#isShut = true; }); }
    this.#told.ended(reason);
  }

  // The page is left, and can't see whether its session was closed. The server closes none that is busy, so while a
  // batch is under way the closing is sent several times; nginx hands them on a second apart.
  close() {
    if (this.#isShut) { return; }
    this.#isOver = this.#isEnded = this.#isShut = true;
    for (let count = this.#isSending ? CLOSINGS : 1; count > 0; count--) { navigator.sendBeacon(closing(this.#session)); }
  }
}
