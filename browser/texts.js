// What a visitor reads: to translate it, translate the texts of `TEXTS`, and title and `noscript` of index.html.

export const TEXTS = {
  // While the page stands.
  waits: "The server does not answer at the moment. What you do is kept, and this page tries again.",
  left: "Not all that you typed could be put back. The rest is kept here for you to copy.",

  // The page could not be opened.
  opens: "The server does not answer yet. This page goes on trying.",
  away: "The server can't be reached at the moment. Try again in a minute.",
  full: "This page is full at the moment. Try again in a minute.",
  busy: "Too many pages were opened from your network. Try again in a minute.",
  broken: "This page has a mistake and can't be shown.",

  // The page has ended.
  old: "This page was open too long and has to be loaded again.",
  work: "This page had too much to do and has to be loaded again.",
  idle: "This page was not used for a while and has to be loaded again.",
  restart: "The server was started anew, and this page has to be loaded again.",
  mistake: "This page has a mistake and can't go on.",
  differs: "What this page did here is not what it does at the server, so it has ended. A translation or an add-on of the "
    + "browser may be the cause: switch it off and load the page again.",
  lost: "This page has lost its place at the server and has to be loaded again.",

  kept: "What you typed is kept for you to copy.",
  copy: "Copy",
  copied: "Copied",
  close: "Close",
  again: "Load again",
  againWith: "Load again, with what you typed",
};

// The text for each reason that a server gives for an end, or for an opening that it refuses.
const KEYS = {
  cells: "old", units: "old", nodes: "old",
  fuel: "work", depth: "work", queue: "work", replies: "work", memory: "work",
  closed: "idle", session: "restart", mismatch: "differs", report: "differs",
  "not-whole": "mistake", infinite: "mistake", "out-of-range": "mistake", hole: "mistake", "not-in-profile": "mistake",
  "object-to-primitive": "mistake", "text-too-long": "mistake", "bad-argument": "mistake", "lone-surrogate": "mistake",
};
const OPENING_KEYS = {
  full: "full", spent: "full", 429: "busy", 500: "broken", 502: "away", 503: "away", 504: "away", clash: "away", memory: "full",
};

// Whether the page may be tried again with what was typed: it ended for a limit, because nobody was there, or because the
// server was started anew.
export const isOffered = (reason) => ["old", "work", "idle", "restart", "lost"].includes(KEYS[reason] ?? "lost");

export const textOfEnd = (reason) => TEXTS[KEYS[reason] ?? "lost"];

export const textOfOpening = (reason) => TEXTS[OPENING_KEYS[reason] ?? "away"];
