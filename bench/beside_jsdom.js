// What jsdom takes for sessions of the order page, in microseconds and kB, as JSON: for bench/sessions.
//
//   NODE_PATH=/usr/share/nodejs node --expose-gc bench/beside_jsdom.js bench/order/page.html
//
// Each number is that of processor time over many repetitions, behind some that warm the machine up.
const fs = require("fs");
const { JSDOM } = require("jsdom");

const page = fs.readFileSync(process.argv[2], "utf8");

// A document whose script calls back in a task of its own, as a reply does.
function open() {
  const waiting = [];
  const dom = new JSDOM(page, {
    runScripts: "dangerously",
    beforeParse(window) {
      window.ripley = { call: (name, args, back) => waiting.push(back), now: () => 0, random: (n) => 0 };
    },
  });
  return { dom, waiting, document: dom.window.document, Event: dom.window.Event };
}

function timed(times, act) {
  const before = process.cpuUsage();
  for (let i = 0; i < times; i++) act(i);
  const used = process.cpuUsage(before);
  return (used.user + used.system) / times;
}

function least(times, act) {
  timed(times, act);
  return Math.min(timed(times, act), timed(times, act));
}

function main() {
  const kept = [];
  const told = {};
  told["opening"] = least(100, () => open().dom.window.close());
  const session = open();
  const { document, Event, waiting } = session;
  const at = (id) => document.getElementById(id);
  told["input"] = least(1000, (i) => {
    at("count").value = String(i % 10);
    at("count").dispatchEvent(new Event("input", { bubbles: true }));
  });
  told["change"] = least(1000, (i) => {
    at("size").selectedIndex = i % 2;
    at("size").dispatchEvent(new Event("change", { bubbles: true }));
  });
  told["click, call and reply"] = least(1000, (i) => {
    at("go").click();
    waiting.shift()(i);
  });
  global.gc();
  const before = process.memoryUsage().rss;
  for (let i = 0; i < 200; i++) kept.push(open());
  global.gc();
  told["memory"] = (process.memoryUsage().rss - before) / 1024 / kept.length;
  console.log(JSON.stringify(told));
}

main();
