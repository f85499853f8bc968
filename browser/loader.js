// Opens a session and puts its page in the place of the document that loaded this script.
//
// Identifier, seed and time of a session stand in the fields of the answer to its opening, which no script of a page
// that was navigated to can read. So the opening is fetched here. It is not repeated where its answer is lost: each
// opening that arrives is a session of its own.
import { start } from "./recorder.js";
import { hide, show } from "./notice.js";
import { TEXTS, textOfOpening } from "./texts.js";
import { SILENT, shut } from "./wire.js";

async function open() {
  const late = setTimeout(() => show(TEXTS.opens), SILENT);
  const answer = await fetch(`${location.origin}/`, { cache: "no-store", headers: { "Ripley-Open": "1" } });
  const session = answer.headers.get("Ripley-Session");
  try {
    const text = await answer.text();
    clearTimeout(late);
    hide();
    if (answer.status !== 200) {
      refuse(answer.status, text);
      return;
    }
    const [seed, time] = ["Ripley-Seed", "Ripley-Time"].map((name) => Number(answer.headers.get(name)));
    start(text, { session, seed, time });
  } catch (error) {
    if (session !== null) { shut(session); }
    throw error;
  }
}

// The reason of a refusal: what the server told, or the code of the answer of what stands before it.
function refuse(status, text) {
  let reason = `${status}`;
  try {
    const told = JSON.parse(text);
    reason = told.error ?? told.ended ?? reason;
  } catch { /* It is not the server's. */ }
  show(textOfOpening(status === 500 ? 500 : reason), { reason, offer: () => location.reload() });
}

open().catch((error) => {
  show(TEXTS.away, { offer: () => location.reload() });
  reportError(error);
});
