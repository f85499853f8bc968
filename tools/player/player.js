// The steps of a visit beside the page: a step is shown by loading the page anew in its frame and playing all items up to it.
"use strict";
const data = JSON.parse(document.getElementById("data").textContent);
const { steps } = data;
const $ = (id) => document.getElementById(id);
let at = 0;
let frame = null;

function element(name, text, className = "") {
  const made = document.createElement(name);
  made.textContent = text;
  made.className = className;
  return made;
}

function list() {
  $("about").textContent = `Identifier ${data.identifier}, seed ${steps[0].seed}, ${steps.length} steps. The arrow keys go on and back.`;
  steps.forEach((step, number) => {
    const line = element("li", step.title, [step.kind, step.unplayed ? "unplayed" : ""].join(" "));
    line.append(element("small", ` turn ${step.turn}${step.batch ? `, batch ${step.batch}` : ""}`));
    line.addEventListener("click", () => go(number));
    $("steps").append(line);
  });
}

// Shows a step. The frame has no origin of its own, so what it knows comes and goes by messages.
function go(number) {
  at = Math.min(Math.max(number, 0), steps.length - 1);
  [...$("steps").children].forEach((line, place) => line.classList.toggle("at", place === at));
  $("steps").children[at].scrollIntoView({ block: "nearest" });
  $("where").textContent = `step ${at + 1} of ${steps.length}`;
  says(steps[at]);
  frame?.remove();
  frame = document.createElement("iframe");
  frame.setAttribute("sandbox", "allow-scripts");
  frame.srcdoc = `<!DOCTYPE html><meta charset="utf-8"><script>${data.frame.replaceAll("</", "<\\/")}</` + `script>`;
  frame.addEventListener("load", () => frame.contentWindow.postMessage(asked(), "*"));
  $("frame").append(frame);
}

// What the frame plays: the opening, and the items of all steps up to this one that were played.
function asked() {
  const played = steps.slice(0, at + 1).filter((step) => step.item && !step.unplayed);
  const items = played.map(({ item, served }) => ({ item, served }));
  const here = steps[at].item?.[0] === "event" ? steps[at].item[2] : null;
  return { page: data.page, seed: steps[0].seed, time: steps[0].time, items, here };
}

// Why the session ended, with the two calls one above the other and what differs marked.
function says({ says: sentence, calls }) {
  $("says").hidden = !sentence;
  $("says").replaceChildren(sentence ?? "");
  if (!calls) { return; }
  const [reported, made] = calls.map((call) => (call === "none" ? "none" : JSON.stringify(call)));
  $("says").append(marked("reported  ", reported, made), marked("the script", made, reported));
}

function marked(name, text, other) {
  let start = 0;
  while (start < text.length && text[start] === other[start]) { start += 1; }
  let end = 0;
  while (end < Math.min(text.length, other.length) - start && text.at(-1 - end) === other.at(-1 - end)) { end += 1; }
  while (/\w/.test(text[start - 1] ?? "")) { start -= 1; }
  while (end > 0 && /\w/.test(text.at(-end))) { end -= 1; }
  const line = element("pre", `${name}  ${text.slice(0, start)}`);
  line.append(element("mark", text.slice(start, text.length - end)), text.slice(text.length - end));
  return line;
}

function table({ made }) {
  const reported = steps.slice(0, at + 1).filter((step) => step.kind === "call");
  const rows = [["", "the script made", "reported", "reply"]];
  for (let number = 1; number <= Math.max(made.length, ...reported.map(({ item }) => item[1])); number++) {
    const step = reported.find(({ item }) => item[1] === number);
    const told = step ? JSON.stringify([step.item[2], step.item[3]]) : "";
    const reply = step?.served ? JSON.stringify(step.served[1]) : "";
    rows.push([number, made[number - 1] ?? "none", told, step?.unplayed ? "not served" : reply, Boolean(step?.unplayed)]);
  }
  $("calls").replaceChildren(...rows.map((cells, place) => {
    const row = element("tr", "", cells[4] ? "false" : "");
    row.append(...cells.slice(0, 4).map((cell) => element(place ? "td" : "th", cell)));
    return row;
  }));
}

function outline({ nodes }) {
  $("document").replaceChildren();
  for (const { depth, text, isHere } of nodes) { $("document").append("  ".repeat(depth), element(isHere ? "b" : "span", text), "\n"); }
}

window.addEventListener("message", (event) => {
  if (event.source !== frame?.contentWindow) { return; }
  table(event.data);
  outline(event.data);
  $("errors").replaceChildren(...(event.data.errors.length ? event.data.errors : ["none"]).map((each) => element("li", each)));
});
window.addEventListener("keydown", ({ key }) => {
  if (key === "ArrowRight" || key === "ArrowDown") { go(at + 1); }
  if (key === "ArrowLeft" || key === "ArrowUp") { go(at - 1); }
});
$("first").addEventListener("click", () => go(0));
$("before").addEventListener("click", () => go(at - 1));
$("after").addEventListener("click", () => go(at + 1));
$("last").addEventListener("click", () => go(steps.length - 1));
list();
go(Number(location.hash.slice(1)) || 0);
