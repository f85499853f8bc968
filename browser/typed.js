// What the visitor typed into a page: it can be copied where the session ended, and taken along into a new one, where it
// is typed anew.

// The page's script may have names of its own for these.
const { Event, JSON } = globalThis;

const PLACE = "ripley-typed";
const store = found();

// What a tab keeps, or null where the visitor lets no page keep anything.
function found() {
  try {
    return globalThis.sessionStorage ?? null;
  } catch {
    return null;
  }
}

export const canTake = () => store !== null;

// What stands in these controls, but for passwords: the control's id and number, by which it is found again, its label and
// its value.
export function typedIn(controls, numbers) {
  return controls.filter((control) => control.type !== "password" && control.value !== "").map((control) => ({
    id: control.id, number: numbers.get(control), name: control.localName, label: labelOf(control), value: control.value,
  }));
}

function labelOf(control) {
  const label = control.labels?.[0]?.textContent ?? control.placeholder ?? "";
  return label.trim().replace(/\s*:$/, "").slice(0, 80);
}

// All of it as one text, to be copied.
export function textsOf(typed) {
  return typed.map(({ label, value }) => (label === "" ? value : `${label}: ${value}`)).join("\n");
}

export function take(typed) { store.setItem(PLACE, JSON.stringify(typed)); }

// Types what was taken along into the controls of a new page that can have it, as events of the visitor: what is left.
export function putIn(document, numbers, isFit) {
  const typed = JSON.parse(store?.getItem(PLACE) ?? "[]");
  store?.removeItem(PLACE);
  return typed.filter(({ id, number, name, value }) => {
    const isOne = (control) => (id === "" ? numbers.get(control) === number : control.id === id);
    const control = [...document.querySelectorAll(name)].find(isOne);
    if (control === undefined || !isFit(control)) { return true; }
    control.value = value;
    for (const type of ["input", "change"]) { control.dispatchEvent(new Event(type, { bubbles: true })); }
    return false;
  });
}
