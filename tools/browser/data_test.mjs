// Tests of browser/data.js, browser/silence.js and browser/typed.js.
//
//   node --test tools/browser/data_test.mjs
import assert from "node:assert/strict";
import { test } from "node:test";
import { Refusal, written } from "../../browser/data.js";
import { Silence } from "../../browser/silence.js";

const event = { type: "click" };
const strange = new WeakSet([event]);
const json = (list) => written(list, strange);

function nested(levels) { return levels === 0 ? 1 : [nested(levels - 1)]; }

function Plain() { this.a = 1; }
Plain.prototype.toJSON = () => 5;
Plain.prototype.b = 2;

for (const [list, text] of [
  [[], "[]"],
  [[null, true, false, -0, 9007199254740991], "[null,true,false,0,9007199254740991]"],
  [["\u00e9\"\\\n\u0001\u{1F375}"], '["\u00e9\\"\\\\\\n\\u0001\u{1F375}"]'],
  [[{ b: [1], a: { c: "" } }], '[{"b":[1],"a":{"c":""}}]'],
  [[new Plain()], '[{"a":1}]'],
  [nested(8), "[[[[[[[[1]]]]]]]]"],
  [["x".repeat(16380)], `["${"x".repeat(16380)}"]`],
]) {
  test(`data: ${text.slice(0, 60)}`, () => assert.equal(json(list), text));
}

for (const [what, list, reason] of [
  ["undefined", [undefined], "bad-argument"],
  ["NaN", [NaN], "bad-argument"],
  ["no whole number", [0.5], "bad-argument"],
  ["a number past all", [9007199254740992], "bad-argument"],
  ["a function", [() => 1], "bad-argument"],
  ["an error", [new TypeError("x")], "bad-argument"],
  ["an event", [event], "bad-argument"],
  ["a built-in object", [Math], "bad-argument"],
  ["nine levels", nested(9), "bad-argument"],
  ["16,385 bytes", ["x".repeat(16381)], "bad-argument"],
  ["16,385 bytes of letters of two", ["\u00e9".repeat(8190) + "x"], "bad-argument"],
  ["half of a pair", ["a\ud800"], "lone-surrogate"],
  ["half of a pair in a name", [{ "\udc00": undefined }], "lone-surrogate"],
  ["the first of two, half of a pair", ["\ud800", undefined], "lone-surrogate"],
  ["the first of two, undefined", [undefined, "\ud800"], "bad-argument"],
  ["half of a pair in what is too long", ["x".repeat(20000), "\ud800"], "lone-surrogate"],
]) {
  test(`no data: ${what}`, () => assert.throws(() => json(list), (error) => error instanceof Refusal && error.reason === reason));
}

test("where a page may keep nothing, nothing is taken along", async () => {
  const get = () => { throw new Error("SecurityError"); };
  Object.defineProperty(globalThis, "sessionStorage", { get, configurable: true });
  const { canTake, putIn, textsOf, typedIn } = await import("../../browser/typed.js");
  assert.equal(canTake(), false);
  assert.deepEqual(putIn({}, new WeakMap(), () => true), []);
  const named = { id: "a", localName: "input", value: "Ann", labels: [{ textContent: " Your name: " }] };
  const secret = { id: "b", localName: "input", type: "password", value: "x" };
  const typed = typedIn([named, secret, { localName: "textarea", value: "" }], new WeakMap([[named, 5]]));
  assert.deepEqual(typed, [{ id: "a", number: 5, name: "input", label: "Your name", value: "Ann" }]);
  assert.equal(textsOf(typed), "Your name: Ann");
});

test("of each control the last state is kept, and of a checkbox whether it is turned over", () => {
  const silence = new Silence();
  const [text, first, second, button] = [{}, {}, {}, {}];
  silence.keep(["event", "input", 5, "a"], text, "sets");
  silence.keep(["event", "click", 6], first, "turns");
  silence.keep(["event", "click", 7], second, "turns");
  silence.keep(["event", "click", 8], button, "nothing");
  silence.keep(["event", "input", 5, "ab"], text, "sets");
  silence.keep(["event", "click", 6], first, "turns");
  assert.deepEqual(silence.take(), [["event", "input", 5, "ab"], ["event", "click", 7]]);
  assert.deepEqual(silence.take(), []);
});
