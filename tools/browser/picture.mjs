#!/usr/bin/env node
// The picture of what a visitor sees whose shop was rewritten in the browser: a pot for 0.49, and the end of the session.
//
//   tools/browser/picture.mjs RIPLEY FILE
//
// RIPLEY is the program, FILE a picture in PNG. The servers run on loopback, as those of run.mjs do.
import { mkdtempSync, statSync } from "node:fs";
import { tmpdir } from "node:os";
import { join } from "node:path";
import { Browser, until } from "./chromium.mjs";
import { rewrite } from "./lies.mjs";
import { Stack, site } from "./stack.mjs";
import { Visit, shop } from "./visits.mjs";

const MOST_BYTES = 200000;
const SIZE = { width: 720, height: 560, deviceScaleFactor: 1, mobile: false };

async function take(page, log, file) {
  await page.ask("Emulation.setDeviceMetricsOverride", SIZE);
  await rewrite(page, "pot: 4900", "pot: 49");
  const visit = new Visit(page, log, shop);
  await visit.open(site);
  await page.type("name", "Mallory");
  await page.type("pot", "1");
  await page.click("buy");
  await until(() => page.notice(), "the end of the session");
  await page.picture(file);
  console.log(`${await page.text("total")}: '${await page.notice()}'`);
}

const [, , ripley, file] = process.argv;
const stack = new Stack(ripley, mkdtempSync(join(tmpdir(), "ripley-")));
const browser = new Browser();
try {
  const home = stack.prepare({ ...shop, isPlain: true });
  const log = await stack.serve(home);
  await stack.nginx(home);
  await take(await browser.page(), log, file);
} finally {
  await browser.close();
  await stack.close();
}
const bytes = statSync(file).size;
console.log(`${file}: ${bytes} bytes`);
process.exit(bytes < MOST_BYTES ? 0 : 1);
