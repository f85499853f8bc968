// Events that no listener hears are not reported. What one leaves in a control is kept back, the last one of each control,
// and reported before the next item.
//
// Nothing runs between an event that nobody hears and the next item, so no node, type or bound changes meanwhile, and the
// last state of a control is all that the server's document takes from them: reported late, it is that of a visitor who
// pasted in place of typing.

// The page's script may have names of its own for these.
const { Map } = globalThis;

export class Silence {
  #kept = new Map();

  // An event that nobody hears, at this control, of which it changes nothing, turns it over (a checkbox that is clicked
  // twice is as it was), or sets it.
  keep(item, control, change) {
    if (change === "sets") { this.#kept.set(control, item); }
    if (change === "turns" && !this.#kept.delete(control)) { this.#kept.set(control, item); }
  }

  // What is kept back, which is then told.
  take() {
    const items = [...this.#kept.values()];
    this.#kept.clear();
    return items;
  }
}
