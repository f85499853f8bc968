// What a visitor is told in the page itself: that the server does not answer, or that the session has ended.
//
// The notice is no node of the page: all of it is made before the page's script has calls of its own, it has no number,
// and it stands behind the body in a tree of its own, which the page's styles don't reach. It is styled by properties
// alone, so that a policy without inline styles lets it be.
import { TEXTS } from "./texts.js";

function made(name, style, ...content) {
  const element = document.createElement(name);
  Object.assign(element.style, style);
  element.append(...content);
  return element;
}

function button(text, press) {
  const words = document.createTextNode(text);
  const element = made("button", { font: "inherit", margin: "0.4em 0.6em 0 0", padding: "0.3em 0.8em" }, words);
  element.type = "button";
  element.addEventListener("click", press);
  return { element, words };
}

const words = document.createTextNode("");
const code = document.createTextNode("");
const typed = made("textarea", {
  font: "inherit", boxSizing: "border-box", width: "100%", height: "6em", marginTop: "0.4em",
});
typed.readOnly = true;
typed.setAttribute("aria-label", TEXTS.kept);
const copy = button(TEXTS.copy, copyTyped);
const again = button(TEXTS.again, () => load());
const panel = made("div", {}, words, made("small", { opacity: "0.7" }, code), typed, copy.element, again.element);
const place = made("div", {
  all: "initial", position: "fixed", bottom: "0", left: "0", right: "0", maxHeight: "100%", overflow: "auto",
  zIndex: "2147483647", padding: "0.6em 1em", background: "#7a1f1f", color: "#ffffff", font: "16px sans-serif",
});
place.setAttribute("role", "alert");
place.attachShadow({ mode: "open" }).append(panel);

let isShown = false;
let load = () => {};

// Shows a text, and with it, where they are given: the reason as a code, what was typed, for the visitor to copy, and what
// loads the page again.
export function show(text, { reason = "", kept = "", offer = null, offered = TEXTS.again } = {}) {
  words.data = text;
  code.data = reason === "" ? "" : ` (${reason})`;
  typed.value = kept;
  for (const element of [typed, copy.element]) { showIf(element, kept !== ""); }
  showIf(again.element, offer !== null);
  again.words.data = offered;
  load = offer ?? load;
  isShown = true;
  putBack();
}

function showIf(element, isDue) { element.style.display = isDue ? "" : "none"; }

export function hide() {
  isShown = false;
  takeAway();
}

// The page's script is not to see the notice: it is taken away while the script runs.
export function takeAway() { place.remove(); }

export function putBack() {
  if (isShown && !place.isConnected) { document.documentElement?.append(place); }
}

export const isNotice = (node) => node === place;

// The page takes no more input.
export function freeze() {
  for (const part of document.documentElement?.children ?? []) {
    if (part === place) { continue; }
    part.inert = true;
    Object.assign(part.style, { opacity: "0.5", filter: "grayscale(1)" });
  }
}

function copyTyped() {
  typed.select();
  const isCopied = () => { copy.words.data = TEXTS.copied; };
  navigator.clipboard?.writeText(typed.value).then(isCopied, () => {});
}
