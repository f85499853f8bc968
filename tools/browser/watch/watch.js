// What a try sees of the recorder, in `window.ripleyTry`: the session, the requests that are under way and their bodies,
// the numbers of the page's elements by id, what was told of events, and errors. It runs before the loader.
const seen = { session: null, underWay: 0, bodies: [], numbers: {}, told: [], errors: [] };
window.ripleyTry = seen;

const { fetch } = window;

window.fetch = async (url, options = {}) => {
  const isReport = /\/[eq]\//.test(url);
  if (isReport) { seen.bodies.push(options.body ?? ""); }
  seen.underWay += 1;
  try {
    const answer = await fetch(url, options);
    if (!isReport && answer.headers.has("Ripley-Session")) {
      seen.numbers = numbersOf(await answer.clone().text());
      seen.session = answer.headers.get("Ripley-Session");
    }
    return answer;
  } finally {
    seen.underWay -= 1;
  }
};

window.addEventListener("error", (event) => seen.errors.push(event.message));
window.addEventListener("securitypolicyviolation", (event) => seen.errors.push(`${event.violatedDirective} ${event.blockedURI}`));

// The numbers of a page's nodes, in document order, by id.
function numbersOf(text) {
  const parsed = new DOMParser().parseFromString(text.slice(0, text.search(/<\/body\s*>/i)), "text/html");
  const root = parsed.documentElement;
  root.normalize();
  for (const node of [...root.childNodes, ...parsed.head.childNodes]) {
    if (node.nodeType !== Node.ELEMENT_NODE) { node.remove(); }
  }
  const numbers = {};
  let count = 1;
  const give = (node) => {
    if (node.id) { numbers[node.id] = count; }
    count += 1;
    node.childNodes.forEach(give);
  };
  give(root);
  return numbers;
}
