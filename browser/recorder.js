// The recorder of a page: it numbers the nodes, runs the scripts, dispatches the events, and reports to the server
// what happened and which calls the script made.
//
// The server finds the same calls on a document of its own, so what a script can see here is to be what it sees there:
// the events of the flow below, on listeners that are kept here and not by the browser.
import { Refusal, written } from "./data.js";
import { freeze, hide, isNotice, putBack, show, takeAway } from "./notice.js";
import { Silence } from "./silence.js";
import { TEXTS, isOffered, textOfEnd } from "./texts.js";
import { canTake, putIn, take, textsOf, typedIn } from "./typed.js";
import { Wire } from "./wire.js";

// The page's script may have names of its own for these.
const {
  Array, BigInt, Boolean, DOMException, Element, Map, Math, Node, Number, Object, String, TypeError, WeakMap, WeakSet,
  clearTimeout, location, performance, reportError, setInterval, setTimeout,
} = window;

const CONTROLS = ["button", "input", "select", "textarea"];
const TEXT_TYPES = ["text", "password", "search", "tel", "url", "email", "number"];
const LONGEST_REPORT = 8192;

// Inputs of one control that come closer are one, as where a key is held.
const CLOSEST = 100;
// How often it is looked whether the page is seen.
const LOOK = 30000;

// The end of the body, behind which there is only space, comments, and the end of the page.
const BODY_END = /<\/body[\t\n\f\r ]*>(?:[\t\n\f\r ]|<!--(?:(?!-->)[^])*-->)*<\/html[\t\n\f\r ]*>(?:[\t\n\f\r ]|<!--(?:(?!-->)[^])*-->)*$/i;

// Whether an event bubbles, and whether it can be cancelled.
const EVENTS = {
  click: [true, true], submit: [true, true], input: [true, false], change: [true, false],
  focus: [false, false], blur: [false, false], load: [false, false],
};

// The calls of the browser that are replaced for the script, and used here as they were.
const native = {
  createElement: Document.prototype.createElement,
  createTextNode: Document.prototype.createTextNode,
  getAttribute: Element.prototype.getAttribute,
  setAttribute: Element.prototype.setAttribute,
  removeAttribute: Element.prototype.removeAttribute,
  textContent: Object.getOwnPropertyDescriptor(Node.prototype, "textContent"),
  addEventListener: EventTarget.prototype.addEventListener,
};

const numbers = new WeakMap();
const listeners = new WeakMap();
// Objects that look plain and are none to the server.
const strange = new WeakSet();
const silence = new Silence();
// The controls that the visitor changed, with the moment of the last input that was told or kept back, and the one whose
// input waits.
const touched = new Map();
let late = null;
let nodes = 0;
let wire = null;
let moment = 0;
let seed = 0;
let isLoaded = false;
// How many calls into the page's script are under way. What the browser tells meanwhile, as of a focused element that
// the script takes out, is no report.
let inside = 0;

// Shows the page with this text and reports its session, which has an identifier, a seed and a time.
export function start(text, opening) {
  seed = opening.seed;
  moment = opening.time;
  wire = new Wire(opening.session, { served, ended, silent });
  const { root, scripts } = pageOf(text);
  for (const type of ["click", "submit", "input", "change", "focus", "blur"]) {
    native.addEventListener.call(window, type, heard, true);
  }
  native.addEventListener.call(window, "reset", (event) => event.preventDefault(), true);
  native.addEventListener.call(window, "pagehide", () => wire.close());
  native.addEventListener.call(document, "visibilitychange", look);
  setInterval(look, LOOK);
  native.addEventListener.call(window, "pageshow", (event) => { if (event.persisted) { location.reload(); } });
  document.doctype.remove();
  document.documentElement.replaceWith(root);
  replaceCalls();
  for (const script of scripts) { within(() => run(script)); }
  dispatch("load", document.body);
  isLoaded = true;
  setTimeout(putTyped);
}

function look() {
  if (document.visibilityState === "visible") { wire.beat(); }
}

// ---- The page ----

// The elements of a page with their numbers, and its scripts in order. Behind `</body>` there is only space, which a
// browser would put into the body.
function pageOf(text) {
  const end = text.search(BODY_END);
  const parsed = new DOMParser().parseFromString(text.slice(0, end), "text/html");
  const root = parsed.documentElement;
  root.normalize();
  for (const node of [...root.childNodes, ...parsed.head.childNodes]) {
    if (node.nodeType !== Node.ELEMENT_NODE) { node.remove(); }
  }
  give(document);
  giveAll(root);
  return { root, scripts: [...root.querySelectorAll("script")].map(renew) };
}

// A script that was read by a parser of its own never runs. Its place, number and text are given to one that does when
// it is put in under its own type, so that the whole page stands before the first one runs.
function renew(old) {
  const script = native.createElement.call(document, "script");
  for (const { name, value } of old.attributes) { native.setAttribute.call(script, name, value); }
  native.setAttribute.call(script, "type", "waiting");
  script.append(...old.childNodes);
  numbers.set(script, numbers.get(old));
  old.replaceWith(script);
  return { script, type: native.getAttribute.call(old, "type") };
}

// Runs a script, also one that a script before it took out of the page: a copy that has no number runs for it.
function run({ script, type }) {
  if (!script.isConnected) {
    const copy = script.cloneNode(true);
    native.removeAttribute.call(copy, "type");
    if (type !== null) { native.setAttribute.call(copy, "type", type); }
    document.documentElement.append(copy);
    copy.remove();
    return;
  }
  const { parentNode, nextSibling } = script;
  script.remove();
  native.removeAttribute.call(script, "type");
  if (type !== null) { native.setAttribute.call(script, "type", type); }
  parentNode.insertBefore(script, nextSibling);
}

function give(node) {
  numbers.set(node, nodes);
  nodes += 1;
  return node;
}

function giveAll(node) {
  give(node);
  node.childNodes.forEach(giveAll);
}

// ---- What the script is given ----

function replaceCalls() {
  const ripley = Object.freeze({ call, now: () => moment, random });
  strange.add(ripley);
  Object.defineProperty(window, "ripley", { value: ripley });
  Object.assign(Document.prototype, { createElement, createTextNode });
  Object.assign(Element.prototype, { getAttribute, setAttribute, removeAttribute });
  Object.assign(EventTarget.prototype, { addEventListener, removeEventListener });
  for (const { prototype } of [Node, HTMLScriptElement]) {
    Object.defineProperty(prototype, "textContent", { ...native.textContent, set: setText });
  }
  for (const name of ["appendChild", "insertBefore", "replaceChild", "removeChild"]) {
    Node.prototype[name] = withCodes(Node.prototype[name]);
  }
  const { body } = document;
  Object.defineProperty(Document.prototype, "body", { get: () => body });
}

// A call on the tree that throws the codes of level 2, which are objects with a code alone.
function withCodes(change) {
  return function (...nodes) {
    if (nodes.includes(undefined)) { throw new TypeError("not a node"); }
    try {
      return change.apply(this, nodes);
    } catch (error) {
      throw error instanceof DOMException ? { code: error.code } : error;
    }
  };
}

// What is outside the profile ends the session at the server, where the script does the same.
function outside(reason) {
  wire.refuse(reason);
  freeze();
  return new TypeError(reason);
}

function call(name, list, callback) {
  const isCallback = callback === null || callback === undefined || typeof callback === "function";
  const isName = typeof name === "string" && /^[A-Za-z0-9_.]{1,64}$/.test(name);
  if (!isName || !Array.isArray(list) || !isCallback) { throw outside("bad-argument"); }
  wire.call(name, jsonOf(list), callback ?? null);
}

function jsonOf(list) {
  try {
    return written(list, strange);
  } catch (error) {
    throw error instanceof Refusal ? outside(error.reason) : error;
  }
}

function random(count) {
  if (!Number.isInteger(count) || count < 1 || count > 2 ** 31) { throw outside("bad-argument"); }
  seed = (Math.imul(1664525, seed) + 1013904223) >>> 0;
  return Number((BigInt(seed) * BigInt(count)) >> 32n);
}

function createElement(name) {
  judge(name, /^[A-Za-z][A-Za-z0-9-]*$/);
  return give(native.createElement.call(this, name));
}

function createTextNode(text) { return give(native.createTextNode.call(this, text)); }

function judge(name, form) {
  if (!form.test(name)) { throw { code: 5 }; }
}

function judgeAttribute(name) { judge(name, /^[A-Za-z][A-Za-z0-9_:.-]*$/); }

// The document calls of level 2 give the empty text for an attribute that is not there.
function getAttribute(name) { return native.getAttribute.call(this, name) ?? ""; }

function setAttribute(name, value) {
  judgeAttribute(name);
  native.setAttribute.call(this, name, value);
}

function removeAttribute(name) {
  judgeAttribute(name);
  native.removeAttribute.call(this, name);
}

// A browser keeps the text node where the text is the same; here a text that is written is a new node.
function setText(value) {
  if (this.nodeType !== Node.ELEMENT_NODE) {
    native.textContent.set.call(this, value);
    return;
  }
  const text = String(value ?? "");
  this.replaceChildren();
  if (text !== "") { this.append(document.createTextNode(text)); }
}

// ---- Listeners and the flow of events ----

function addEventListener(type, call, isCapturing) {
  if (call === null) { return; }
  const list = listeners.get(this) ?? [];
  const added = { type: String(type), call, isCapturing: Boolean(isCapturing), isThere: true };
  if (!list.some((one) => isSame(one, added))) { listeners.set(this, [...list, added]); }
}

function removeEventListener(type, call, isCapturing) {
  const removed = { type: String(type), call, isCapturing: Boolean(isCapturing) };
  const list = listeners.get(this) ?? [];
  for (const one of list) {
    if (isSame(one, removed)) { one.isThere = false; }
  }
  listeners.set(this, list.filter((one) => one.isThere));
}

function isSame(one, other) {
  return one.type === other.type && one.call === other.call && one.isCapturing === other.isCapturing;
}

// An exception ends the call alone, and is told in the browser's console.
function within(call) {
  inside += 1;
  takeAway();
  try {
    call();
  } catch (error) {
    reportError(error);
  } finally {
    inside -= 1;
    putBack();
  }
}

// The flow of an event, and whether a listener prevented the default. Capturing listeners of the target are not called.
function dispatch(type, target) {
  const [bubbles, cancelable] = EVENTS[type];
  let isStopped = false;
  let isPrevented = false;
  const event = {
    type, target, currentTarget: null, eventPhase: 0, bubbles, cancelable,
    stopPropagation() { isStopped = true; },
    preventDefault() { isPrevented = cancelable; },
  };
  strange.add(event);
  const visit = (node, phase) => {
    if (isStopped) { return; }
    event.currentTarget = node;
    event.eventPhase = phase;
    for (const one of listeners.get(node) ?? []) {
      const isDue = one.isThere && one.type === type && one.isCapturing === (phase === 1);
      if (isDue) { within(() => one.call.call(node, event)); }
    }
  };
  const path = above(target);
  [...path].reverse().forEach((node) => visit(node, 1));
  visit(target, 2);
  if (bubbles) { path.forEach((node) => visit(node, 3)); }
  event.currentTarget = null;
  event.eventPhase = 0;
  return isPrevented;
}

function above(target) {
  const path = [];
  for (let node = target.parentNode; node !== null; node = node.parentNode) { path.push(node); }
  return path;
}

// Whether a listener would be called.
function isHeard(type, target) {
  const [bubbles] = EVENTS[type];
  const has = (isCapturing) => (node) =>
    (listeners.get(node) ?? []).some((one) => one.type === type && one.isCapturing === isCapturing);
  const path = above(target);
  return path.some(has(true)) || has(false)(target) || (bubbles && path.some(has(false)));
}

// ---- Reports ----

// An event of the browser: where it is one that the server can be told, it is reported and flows.
function heard(event) {
  const { type } = event;
  const target = placeOf(event.target);
  if (type === "submit" || isLink(event) || wire.isOver) { event.preventDefault(); }
  if (!isLoaded || inside > 0 || wire.isOver) { return; }
  if (late !== null && !staysLate(type, target)) { tellLate(); }
  if (!isReport(type, target)) {
    // What the input before took from the visitor's reach does not turn over.
    if (type === "click" && target !== null && typeOf(target) === "checkbox") { event.preventDefault(); }
    return;
  }
  if (type === "input") { cut(target); }
  if (!isHeard(type, target)) {
    silence.keep(itemOf(type, target), target, changeOf(type, target));
    note(type, target);
  } else if (isClose(type, target)) {
    wait(target);
  } else if (late !== null) {
    tellLate();
  } else if (tell(type, target)) {
    event.preventDefault();
  }
}

// Where an event happened. What a translation or an add-on put into the page has no number: an event there is one of what
// it stands in, and one at the notice is none of the page.
function placeOf(node) {
  let place = node;
  while (place instanceof Element && !numbers.has(place)) { place = isNotice(place) ? null : place.parentNode; }
  return place;
}

// Reports an event and lets it flow: whether a listener prevented the default.
function tell(type, target) {
  note(type, target);
  tellKept();
  wire.event(itemOf(type, target));
  return dispatch(type, target);
}

function tellKept() {
  for (const item of silence.take()) { wire.event(item); }
}

function note(type, target) {
  if (type === "input") { touched.set(target, performance.now()); }
}

// Whether this is an input of a control that was told of one just now.
function isClose(type, target) {
  return type === "input" && performance.now() - (touched.get(target) ?? -CLOSEST) < CLOSEST;
}

// The input waits until it is no longer close, or another event or a reply comes: then it is told with what stands there.
function wait(control) {
  if (late !== null) { return; }
  const rest = touched.get(control) + CLOSEST - performance.now();
  late = { control, timer: setTimeout(tellLate, rest) };
}

// Whether this is no more than what a step of the control that waits brings: an input, and a change that nobody hears.
function staysLate(type, target) {
  return target === late.control && (type === "input" || (type === "change" && !isHeard(type, target)));
}

function tellLate() {
  if (late === null) { return; }
  const { control, timer } = late;
  late = null;
  clearTimeout(timer);
  if (!wire.isOver && isReport("input", control)) { tell("input", control); }
}

function itemOf(type, target) {
  const item = ["event", type, numbers.get(target)];
  if (type === "input") { return [...item, target.value]; }
  return type === "change" && target.localName === "select" ? [...item, target.selectedIndex] : item;
}

// What an event leaves in its control.
function changeOf(type, target) {
  if (type === "input" || (type === "change" && target.localName === "select")) { return "sets"; }
  return type === "click" && typeOf(target) === "checkbox" ? "turns" : "nothing";
}

// Whether what a click does is to follow a link, as it does too from what does nothing of its own within one.
function isLink({ type, target }) {
  if (type !== "click" || !(target instanceof Element)) { return false; }
  const acting = target.closest("a, area, button, input, label, summary");
  if (acting === null) { return false; }
  return ["a", "area"].includes(acting.localName) || (!doesOther(acting) && acting.closest("a") !== null);
}

// Whether a click at this element, which may stand in a link, does something of its own.
function doesOther(element) {
  switch (element.localName) {
    case "label": return element.control !== null;
    case "button": return element.form !== null && element.type !== "button";
    case "input": return !isTextControl(element) && typeOf(element) !== "button";
    default: return true;
  }
}

// Whether the server can be told of an event of this type at this element.
function isReport(type, target) {
  if (!(target instanceof Element) || !numbers.has(target) || !target.isConnected) { return false; }
  const name = target.localName;
  const isControl = CONTROLS.includes(name);
  if (isControl && target.hasAttribute("disabled")) { return false; }
  switch (type) {
    case "submit": return name === "form";
    case "input": return isTextControl(target);
    case "change": return name === "select" || isTextControl(target) || typeOf(target) === "checkbox";
    case "focus": case "blur": return isControl || name === "a";
    default: return true;
  }
}

// The type of an `input`, as its attribute says it; null for other elements.
function typeOf(element) {
  if (element.localName !== "input") { return null; }
  return (native.getAttribute.call(element, "type") ?? "text").toLowerCase();
}

function isTextControl(element) {
  return element.localName === "textarea" || TEXT_TYPES.includes(typeOf(element));
}

// Cuts the value of a text control to what a report may have: a script, a page or a paste may have made it longer.
function cut(control) {
  const most = native.getAttribute.call(control, "maxlength") ?? "";
  const isBound = /^[0-9]{1,9}$/.test(most) && typeOf(control) !== "number";
  const room = isBound ? Math.min(Number(most), LONGEST_REPORT) : LONGEST_REPORT;
  const value = control.value.slice(0, room).toWellFormed();
  if (value !== control.value) { control.value = value; }
}

// ---- What the server tells ----

// A reply is given to its callback in a task of its own.
function served(number, time, reply) {
  setTimeout(() => {
    tellLate();
    if (wire.isOver) { return; }
    tellKept();
    const callback = wire.reply(number);
    moment = time;
    within(() => callback.call(undefined, reply));
  });
}

// The page takes no more input, and says why. What was typed can be copied, or taken along into a new session.
function ended(reason) {
  freeze();
  const controls = [...touched.keys()].filter((control) => control.isConnected);
  const typed = typedIn(controls, numbers);
  const isOffer = typed.length > 0 && isOffered(reason) && canTake();
  show(typed.length > 0 ? `${textOfEnd(reason)} ${TEXTS.kept}` : textOfEnd(reason), {
    reason,
    kept: textsOf(typed),
    offered: isOffer ? TEXTS.againWith : TEXTS.again,
    offer: () => {
      if (isOffer) { take(typed); }
      location.replace(location.pathname);
    },
  });
}

// Types anew what the visitor took along from the session before.
function putTyped() {
  const left = putIn(document, numbers, (control) => !wire.isOver && isReport("input", control));
  if (left.length > 0 && !wire.isOver) { show(TEXTS.left, { kept: textsOf(left), offer: hide, offered: TEXTS.close }); }
}

function silent(isSilent) {
  if (isSilent) { show(TEXTS.waits); } else { hide(); }
}
