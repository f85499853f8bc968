"use strict";
function counter() { var n = 0; return function () { n++; return n; }; }
var total = 0;
for (var i = 0; i < 20000; i++) { var c = counter(); c(); c(); total += c(); }
