// Tells the nodes of the page that it is the last script of: each as the rows of `pages.md` have it, in a call of its own.
var NAMES = ["class", "id", "lang", "charset", "rel", "href", "x_y:z.w-", "a:b", "a", "b", "title", "for", "name", "type", "value", "selected", "disabled", "data-x", "x_y", "z.w", "checked"];
function attributes(node) {
  var text = "";
  for (var i = 0; i < NAMES.length; i++) {
    if (node.hasAttribute(NAMES[i])) text += " " + NAMES[i] + "(" + node.getAttribute(NAMES[i]) + ")";
  }
  return text;
}
function shown(node) {
  if (node.nodeType === 3) return "\"" + node.nodeValue + "\"";
  if (node.nodeType === 8) return "<" + "!--" + node.nodeValue + "-->";
  return "<" + lower(node.nodeName) + attributes(node) + ">";
}
function lower(name) {
  var capitals = "ABCDEFGHIJKLMNOPQRSTUVWXYZ", small = "abcdefghijklmnopqrstuvwxyz", text = "";
  for (var i = 0; i < name.length; i++) {
    var at = capitals.indexOf(name.charAt(i));
    text += at < 0 ? name.charAt(i) : small.charAt(at);
  }
  return text;
}
var count = 0;
function tell(parent, number) {
  for (var node = parent.firstChild; node !== null; node = node.nextSibling) {
    // The last child of the body is this script.
    if (parent === document.body && node === parent.lastChild) return;
    count++;
    ripley.call("n", [number + shown(node)], null);
    tell(node, count);
  }
}
tell(document, 0);
