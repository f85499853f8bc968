// The log of a try, replayed: as it was, and as it would have been without the recorder's silence. Both are to serve the
// same calls with the same replies.
import { execFileSync } from "node:child_process";
import { writeFileSync } from "node:fs";
import { join } from "node:path";

// Turns in which a batch is done.
const TURNS = 80;

// What the server would have been told without silence: what was told of events, the events that nobody heard at their
// places, and behind each event and reply the calls that were reported behind it.
export function loudItems({ told, bodies }) {
  const batches = new Map(bodies.filter(Boolean).map((body) => JSON.parse(body)).map(({ batch, items }) => [batch, items]));
  const calls = [[]];
  for (const item of [...batches.values()].flat()) {
    if (item[0] === "call") { calls.at(-1).push(item); } else { calls.push([]); }
  }
  const loud = [...calls[0]];
  let at = 0;
  for (const { kind, item } of told) {
    if (kind !== "again") { loud.push(item); }
    if (kind !== "kept") { loud.push(...calls[++at]); }
  }
  return loud;
}

// The sessions of a log in their order: the words that its opening drew, its moment, and the items of each batch.
export function sessionsOf(log) {
  const sessions = new Map();
  for (const line of log.lines()) {
    const [kind, , session, ...rest] = line.split(" ");
    if (kind === "open") {
      const [id, seed, time] = rest;
      const digits = id.replaceAll("-", "");
      const words = [digits.slice(0, 16), digits.slice(16), Number(seed).toString(16).padStart(16, "0")];
      sessions.set(session, { id, words, time, batches: [] });
    }
    if (kind === "batch") { sessions.get(session).batches.push(rest.slice(1).join(" ")); }
  }
  return [...sessions.values()];
}

// A trace in which one session comes after the other.
function trace(sessions) {
  const lines = sessions.flatMap(({ words }) => words.map((word) => `word ${word}`));
  const say = (what) => lines.push(`say 0 ${what}`, ...Array(TURNS).fill("quiet"));
  lines.push("open 0");
  sessions.forEach(({ time, batches }, at) => {
    lines.push(`time ${time}`);
    say("get");
    batches.forEach((items, before) => say(`e ${at + 1} {"batch":${before + 1},"items":${items}}`));
    say(`q ${at + 1}`);
  });
  return `${lines.join("\n")}\n`;
}

// The calls that a replay serves, without turns, and the lines of batches that were not done well.
function replayed(ripley, home, name, sessions) {
  const path = join(home, `${name}.trace`);
  writeFileSync(path, trace(sessions));
  const words = ["replay", join(home, "page.html"), join(home, "app.json"), path];
  const lines = execFileSync(ripley, words, { encoding: "utf8", maxBuffer: 2 ** 30 }).split("\n");
  const done = lines.filter((line) => /^done \d+ \d+ [1-9]/.test(line));
  const batches = sessions.reduce((sum, each) => sum + each.batches.length, 0);
  const wrong = done.filter((line) => !line.endsWith(" ok"));
  if (done.length !== batches) { wrong.push(`${name}: ${done.length} of ${batches} batches are done`); }
  const calls = lines.filter((line) => line.startsWith("serve ")).map((line) => {
    const [, session, rest] = /^serve \d+ (\d+) \d+ (.*)$/.exec(line);
    return `${session} ${rest.replace(/ \d+ (\S+)$/, " $1")}`;
  });
  return { calls, wrong };
}

// Replays a log as it was and with the loud items of its visits, by session: what is wrong.
export function replays(ripley, home, log, loud) {
  const sessions = sessionsOf(log);
  const all = sessions.map((session) => ({
    ...session, batches: loud.get(session.id)?.map((item) => JSON.stringify([item])) ?? session.batches,
  }));
  const [silent, told] = [replayed(ripley, home, "silent", sessions), replayed(ripley, home, "loud", all)];
  const served = log.lines().filter((line) => line.startsWith("serve ")).length;
  const wrong = [...silent.wrong, ...told.wrong];
  if (silent.calls.length !== served) { wrong.push(`${silent.calls.length} calls in the replay, ${served} in the log`); }
  const at = silent.calls.findIndex((call, place) => call !== told.calls[place]);
  if (at >= 0 || silent.calls.length !== told.calls.length) {
    wrong.push(`with silence ${silent.calls[at]}, without ${told.calls[at]}`);
  }
  const count = (each) => each.reduce((sum, { batches }) => sum + batches.reduce((n, items) => n + JSON.parse(items).length, 0), 0);
  return { wrong, calls: served, items: count(sessions), loud: count(all) };
}
