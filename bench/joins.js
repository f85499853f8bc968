"use strict";
// Texts built by 20,000 joins, each of a unit behind a text of up to 300.
var text = "";
for (var i = 0; i < 20000; i = i + 1) {
  text = i % 300 === 0 ? "a" : text + "b";
}
