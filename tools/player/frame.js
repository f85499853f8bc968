// In the frame of the player: builds the page, runs its scripts, and does again what was reported, as the recorder and the server
// do it: nodes by number, listeners kept here, the flow of docs/DOCUMENT.md, and calls that go nowhere.
"use strict";
(() => {
  const { Array, Boolean, DOMException, Element, Node } = window;
  const TEXT_LINES = 500;
  const EVENTS = {
    click: [true, true], submit: [true, true], input: [true, false], change: [true, false],
    focus: [false, false], blur: [false, false], load: [false, false],
  };
  const GAP = "(?:[\\t\\n\\f\\r ]|<!--(?:(?!-->)[^])*-->)*";
  const BODY_END = new RegExp(`<[/]body[\\t\\n\\f\\r ]*>${GAP}<[/]html[\\t\\n\\f\\r ]*>${GAP}$`, "i");
  const native = {
    createElement: Document.prototype.createElement, createTextNode: Document.prototype.createTextNode,
    getAttribute: Element.prototype.getAttribute, setAttribute: Element.prototype.setAttribute,
    textContent: Object.getOwnPropertyDescriptor(Node.prototype, "textContent"),
    addEventListener: EventTarget.prototype.addEventListener,
  };
  const nodes = [];
  const numbers = new Map();
  const listeners = new Map();
  const made = [];
  const callbacks = [];
  const errors = [];
  let moment = 0;
  let seed = 0;

  function give(node) {
    numbers.set(node, nodes.length);
    nodes.push(node);
    return node;
  }

  function giveAll(node) {
    give(node);
    node.childNodes.forEach(giveAll);
  }

  function build(text) {
    const parsed = new DOMParser().parseFromString(text.slice(0, text.search(BODY_END)), "text/html");
    const root = parsed.documentElement;
    root.normalize();
    for (const node of [...root.childNodes, ...parsed.head.childNodes]) {
      if (node.nodeType !== Node.ELEMENT_NODE) { node.remove(); }
    }
    give(document);
    giveAll(root);
    document.doctype?.remove();
    const scripts = [...root.querySelectorAll("script")].map(renew);
    document.documentElement.replaceWith(root);
    return scripts;
  }

  // A script that a parser of its own has read never runs: one that does takes its place, number and text.
  function renew(old) {
    const script = native.createElement.call(document, "script");
    native.setAttribute.call(script, "type", "waiting");
    script.append(...old.childNodes);
    nodes[numbers.get(old)] = script;
    numbers.set(script, numbers.get(old));
    old.replaceWith(script);
    return script;
  }

  function run(script) {
    const copy = native.createElement.call(document, "script");
    copy.append(native.textContent.get.call(script));
    document.documentElement.append(copy);
    copy.remove();
  }

  function within(call) {
    try { call(); } catch (error) { errors.push(String(error.message ?? `code ${error.code}`)); }
  }

  function replaceCalls() {
    const { body } = document;
    const ripley = {
      call(name, list, callback) {
        made.push(JSON.stringify([name, sorted(list)]));
        callbacks.push(callback ?? null);
      },
      now: () => moment,
      random(count) {
        seed = (Math.imul(1664525, seed) + 1013904223) >>> 0;
        return Number((BigInt(seed) * BigInt(count)) >> 32n);
      },
    };
    Object.defineProperty(window, "ripley", { value: Object.freeze(ripley) });
    Object.defineProperty(Document.prototype, "body", { get: () => body });
    Object.assign(Document.prototype, {
      createElement(name) { return give(native.createElement.call(judged(name), name)); },
      createTextNode(text) { return give(native.createTextNode.call(document, text)); },
    });
    Object.assign(Element.prototype, { getAttribute(name) { return native.getAttribute.call(this, name) ?? ""; } });
    Object.assign(EventTarget.prototype, { addEventListener, removeEventListener });
    Object.defineProperty(Node.prototype, "textContent", { ...native.textContent, set: setText });
    for (const name of ["appendChild", "insertBefore", "replaceChild", "removeChild"]) { withCodes(name); }
  }

  function judged(name) {
    if (!/^[A-Za-z][A-Za-z0-9-]*$/.test(name)) { throw { code: 5 }; }
    return document;
  }

  function withCodes(name) {
    const change = Node.prototype[name];
    Node.prototype[name] = function (...given) {
      try { return change.apply(this, given); } catch (error) { throw error instanceof DOMException ? { code: error.code } : error; }
    };
  }

  // The fields of objects in the order of their names, as the text of a call has them.
  function sorted(value) {
    if (Array.isArray(value)) { return value.map(sorted); }
    if (value === null || typeof value !== "object") { return value; }
    return Object.fromEntries(Object.keys(value).sort().map((key) => [key, sorted(value[key])]));
  }

  function setText(value) {
    if (this.nodeType !== Node.ELEMENT_NODE) { return native.textContent.set.call(this, value); }
    this.replaceChildren();
    const text = String(value ?? "");
    if (text !== "") { this.append(document.createTextNode(text)); }
  }

  function addEventListener(type, call, isCapturing) {
    const list = listeners.get(this) ?? [];
    const isThere = list.some((one) => one.type === type && one.call === call && one.isCapturing === Boolean(isCapturing));
    if (call !== null && !isThere) { listeners.set(this, [...list, { type, call, isCapturing: Boolean(isCapturing), isThere: true }]); }
  }

  function removeEventListener(type, call, isCapturing) {
    const list = listeners.get(this) ?? [];
    const isIt = (one) => one.type === type && one.call === call && one.isCapturing === Boolean(isCapturing);
    list.filter(isIt).forEach((one) => { one.isThere = false; });
    listeners.set(this, list.filter((one) => one.isThere));
  }

  function dispatch(type, target) {
    const [bubbles, cancelable] = EVENTS[type];
    let isStopped = false;
    let isPrevented = false;
    const event = {
      type, target, currentTarget: null, eventPhase: 0, bubbles, cancelable,
      stopPropagation() { isStopped = true; }, preventDefault() { isPrevented = cancelable; },
    };
    const visit = (node, phase) => {
      if (isStopped) { return; }
      event.currentTarget = node;
      event.eventPhase = phase;
      for (const one of listeners.get(node) ?? []) {
        if (one.isThere && one.type === type && one.isCapturing === (phase === 1)) { within(() => one.call.call(node, event)); }
      }
    };
    const path = [];
    for (let node = target.parentNode; node !== null; node = node.parentNode) { path.push(node); }
    [...path].reverse().forEach((node) => visit(node, 1));
    visit(target, 2);
    if (bubbles) { path.forEach((node) => visit(node, 3)); }
    event.currentTarget = null;
    event.eventPhase = 0;
    return isPrevented;
  }

  function happen(type, node, value) {
    const isBox = type === "click" && node.localName === "input" && node.type === "checkbox";
    const before = node.checked;
    if (type === "input") { node.value = value; }
    if (type === "change" && typeof value === "number") { node.selectedIndex = value; }
    if (isBox) { node.checked = !before; }
    if (dispatch(type, node) && isBox) { node.checked = before; }
  }

  function play({ item: [kind, ...rest], served }) {
    if (kind === "event") { happen(rest[0], nodes[rest[1]], rest[2]); }
    if (kind === "reply" && served) {
      moment = served[0];
      within(() => callbacks[rest[0] - 1]?.call(undefined, served[1]));
    }
  }

  // The document as lines: number, element or text, and the state of controls.
  function outline(here) {
    const lines = [];
    const walk = (node, depth) => {
      if (lines.length > TEXT_LINES) { return; }
      const number = numbers.get(node) ?? "?";
      if (node.nodeType === Node.ELEMENT_NODE) {
        const id = node.id ? ` id=${node.id}` : "";
        const isControl = ["input", "textarea", "select"].includes(node.localName);
        const state = !isControl ? "" : node.type === "checkbox" ? ` checked=${node.checked}` : ` value=${JSON.stringify(node.value)}`;
        const text = `${number} <${node.localName}${id}>${state}${node.disabled ? " disabled" : ""}`;
        lines.push({ depth, text, isHere: number === here });
      } else if (node.data.trim() !== "" && node.parentNode.localName !== "script") {
        lines.push({ depth, text: `${number} ${JSON.stringify(node.data.slice(0, 80))}`, isHere: false });
      }
      node.childNodes.forEach((child) => walk(child, depth + 1));
    };
    walk(document.documentElement, 0);
    return lines;
  }

  function show({ page, items, here }) {
    const scripts = build(page);
    replaceCalls();
    native.addEventListener.call(window, "error", ({ message }) => errors.push(message));
    scripts.forEach(run);
    dispatch("load", document.body);
    items.forEach(play);
    const node = here === null ? null : nodes[here];
    if (node?.isConnected) {
      node.style.outline = "3px solid #e0a800";
      node.scrollIntoView({ block: "center" });
    }
    return outline(here);
  }

  native.addEventListener.call(window, "message", ({ data }) => {
    seed = data.seed;
    moment = data.time;
    let lines = [];
    try { lines = show(data); } catch (error) { errors.push(`the player itself: ${error.stack}`); }
    parent.postMessage({ made, errors, nodes: lines }, "*");
  }, { once: true });
})();
