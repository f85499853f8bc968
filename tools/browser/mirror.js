"use strict";
// Behind each page of a try: at a click of its button the page tells the server its document and its controls, a call for
// each node, which the server finds on its own document, or the session ends.
function mirror_of(node, depth) {
  var text = node.nodeName;
  if (node.nodeType !== 1) {
    text = text + "=" + node.nodeValue;
  } else {
    var names = ["id", "class", "disabled", "maxlength", "type"];
    for (var i = 0; i < names.length; i++) {
      if (node.hasAttribute(names[i])) { text = text + " " + names[i] + "=" + node.getAttribute(names[i]); }
    }
  }
  var state = null;
  if (node.nodeName === "INPUT") {
    state = [node.value, node.getAttribute("type") === "checkbox" && node.checked, node.disabled];
  }
  if (node.nodeName === "TEXTAREA") { state = [node.value, node.disabled]; }
  if (node.nodeName === "SELECT") { state = [node.value, node.selectedIndex, node.disabled]; }
  ripley.call("mirror", [depth, text, state], null);
  if (node.nodeName === "SCRIPT") { return; }
  for (var child = node.firstChild; child !== null; child = child.nextSibling) { mirror_of(child, depth + 1); }
}

document.getElementById("mirror").addEventListener("click", function () { mirror_of(document.body, 0); }, false);
