// The recorder's silence, in a try: what it keeps back is noted too, so that the log can be held to what the server would
// have been told without it.
import { Silence as True } from "./truesilence.js";

const { told } = window.ripleyTry;

export class Silence extends True {
  keep(item, control, change) {
    told.push({ kind: "kept", item });
    super.keep(item, control, change);
  }

  take() {
    const items = super.take();
    for (const item of items) { item.isKept = true; }
    return items;
  }
}
