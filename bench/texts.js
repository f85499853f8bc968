"use strict";
var a = [], found = 0;
for (var i = 0; i < 2000; i++) { a.push("word" + i); }
var t = a.join(" ");
for (var j = 0; j < 2000; j++) { if (t.indexOf("word" + j) >= 0) { found++; } }
