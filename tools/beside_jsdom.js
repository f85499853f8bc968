// Compares the flows of events in `rows/events.md` with the calls that jsdom makes for them.
//
//   NODE_PATH=/usr/share/nodejs node tools/beside_jsdom.js
//
// A capturing listener of the target itself is left out: since 2019 the DOM calls it at the target, while the DOM of
// level 2, which is ours, does not.
const fs = require("fs");
const path = require("path");
const { JSDOM } = require("jsdom");

const NODES = 5;
// The number of the first element in its page.
const FIRST = 4;
const text = fs.readFileSync(path.join(__dirname, "../rows/events.md"), "utf8");

function onOf([node, number, capture]) {
  return { node, function: number, capture };
}

function deedOf([by, kind, ...rest]) {
  if (kind === "move") return { by, kind, child: rest[0], parent: rest[1] };
  return kind === "stop" ? { by, kind } : { by, kind, on: onOf(rest) };
}

function rowsOf() {
  const form = /^\| `(.*)` \| `(.*)` \| `(.*)` \| `(.*)` \|$/gm;
  return [...text.matchAll(form)].map(([, listeners, deeds, events, calls]) => ({
    listeners: JSON.parse(listeners).map(onOf),
    deeds: JSON.parse(deeds).map(deedOf),
    target: events.match(/\d+/) - FIRST,
    bubbles: events.startsWith("click"),
    clicks: events.split("; ").length,
    calls: JSON.parse(calls),
  }));
}

function callsOf(row) {
  const { window } = new JSDOM("");
  const nodes = [];
  for (let n = 0; n < NODES; n++) {
    nodes.push(window.document.createElement("div"));
    if (n > 0) nodes[n - 1].appendChild(nodes[n]);
  }
  const calls = [];
  const functions = new Map();
  const functionOf = (number) => {
    if (!functions.has(number)) {
      functions.set(number, (event) => {
        calls.push([number, nodes.indexOf(event.currentTarget), event.eventPhase]);
        for (const deed of row.deeds.filter((it) => it.by === number)) act(deed, event);
      });
    }
    return functions.get(number);
  };
  const act = (deed, event) => {
    if (deed.kind === "stop") event.stopPropagation();
    if (deed.kind === "move") nodes[deed.parent].appendChild(nodes[deed.child]);
    if (deed.kind === "add") add(deed.on);
    if (deed.kind === "remove") nodes[deed.on.node].removeEventListener("click", functionOf(deed.on.function), deed.on.capture);
  };
  const add = (on) => {
    if (on.node === row.target && on.capture) return;
    nodes[on.node].addEventListener("click", functionOf(on.function), on.capture);
  };
  row.listeners.forEach(add);
  for (let click = 0; click < row.clicks; click++) {
    nodes[row.target].dispatchEvent(new window.Event("click", { bubbles: row.bubbles }));
  }
  return calls;
}

let differences = 0;
const rows = rowsOf();
rows.forEach((row, at) => {
  const [ours, theirs] = [JSON.stringify(row.calls), JSON.stringify(callsOf(row))];
  if (ours !== theirs) {
    differences += 1;
    console.log(`flow ${at + 1}: the table has ${ours}, jsdom makes ${theirs}`);
  }
});
console.log(`${rows.length - differences} of ${rows.length} flows as jsdom makes them`);
process.exitCode = differences === 0 && rows.length > 0 ? 0 : 1;
