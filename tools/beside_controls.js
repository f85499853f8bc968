// Runs the rows of `rows/document.md` in jsdom, and says of each that tells something else there.
//
//   NODE_PATH=/usr/share/nodejs node tools/beside_controls.js
//
// Left out are rows that end a session, rows with limits, and the sections that OURS names: of calls, which jsdom does not
// know, and of two rules that it has otherwise, since it finds the element that got an identifier first, and takes more
// names of elements.
const fs = require("fs");
const path = require("path");
const { JSDOM } = require("jsdom");

const OURS = ["arguments of calls", "identifiers that stand twice, and names of elements"];
const text = fs.readFileSync(path.join(__dirname, "../rows/document.md"), "utf8");

// What a cell stands for.
function textOf(cell) {
  if (cell === "(empty)") return "";
  return cell.slice(1, -1).replace(/\\(u[0-9a-f]{4}|.)/g, (_, it) => {
    if (it.length === 5) return String.fromCharCode(parseInt(it.slice(1), 16));
    return { n: "\n", r: "\r" }[it] || it;
  });
}

function rowsOf() {
  const rows = [];
  let heading = "";
  for (const line of text.split("\n")) {
    if (line.startsWith("## Document: ")) heading = line.slice("## Document: ".length);
    const cells = line.split(/(?<!\\)\|/).slice(1, -1).map((cell) => cell.trim());
    if (cells.length === 4 && /^[`(]/.test(cells[1])) rows.push({ heading, cells: cells.map(textOf) });
  }
  return rows.filter((row) => !OURS.includes(row.heading) && !row.cells[2] && !row.cells[3].startsWith("ended "));
}

// What a script tells in jsdom, as the rows have it.
function toldOf([body, script]) {
  const { document } = new JSDOM(`<html><head></head><body>${body}<script></script></body></html>`).window;
  const told = [];
  new Function("document", "f", `"use strict";${script}`)(document, (value) => told.push(JSON.stringify(value)));
  return told.join(" ");
}

let differences = 0;
const rows = rowsOf();
for (const { heading, cells } of rows) {
  const theirs = toldOf(cells);
  if (theirs !== cells[3]) {
    differences += 1;
    console.log(`${heading}: ${cells[1]}\n  the row has ${cells[3]}\n  jsdom tells ${theirs}`);
  }
}
console.log(`${rows.length - differences} of ${rows.length} rows as jsdom tells them`);
process.exitCode = differences === 0 && rows.length > 0 ? 0 : 1;
