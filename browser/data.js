// What a call is made with, as JSON; what the server takes for no data is refused here for the same reason, so that a call
// which it can't be told is never sent.
//
// Null, booleans, whole numbers, texts, arrays, and plain objects by their own properties are data: nested 8 deep at most,
// in at most 16,384 bytes, and without half of a pair of surrogates. The walk is left to right, and the length comes last.

// The page's script may have names of its own for these.
const { Array, JSON, Number, Object, TextEncoder } = globalThis;

const MOST_LEVELS = 8;
const MOST_BYTES = 16384;

export class Refusal {
  constructor(reason) { this.reason = reason; }
}

const bad = () => new Refusal("bad-argument");

// The JSON of a list, or a refusal that is thrown. Objects that look plain here, and are none to the server, are `strange`.
export function written(list, strange) {
  const text = value(list, MOST_LEVELS, strange);
  if (new TextEncoder().encode(text).length > MOST_BYTES) { throw bad(); }
  return text;
}

function value(given, levels, strange) {
  switch (typeof given) {
    case "boolean": return String(given);
    case "number": return whole(given);
    case "string": return quoted(given);
    case "object": return given === null ? "null" : parts(given, levels, strange);
    default: throw bad();
  }
}

function whole(number) {
  if (!Number.isSafeInteger(number)) { throw bad(); }
  return JSON.stringify(number);
}

function quoted(text) {
  if (!text.isWellFormed()) { throw new Refusal("lone-surrogate"); }
  return JSON.stringify(text);
}

function parts(object, levels, strange) {
  if (levels === 0) { throw bad(); }
  if (Array.isArray(object)) {
    const found = [];
    for (let at = 0; at < object.length; at++) { found.push(value(object[at], levels - 1, strange)); }
    return `[${found.join(",")}]`;
  }
  if (strange.has(object) || Object.prototype.toString.call(object) !== "[object Object]") { throw bad(); }
  const members = Object.keys(object).map((name) => `${quoted(name)}:${value(object[name], levels - 1, strange)}`);
  return `{${members.join(",")}}`;
}
