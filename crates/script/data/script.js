"use strict";
function counter() { var n = 0; return function next() { n++; return n; }; }
var next = counter(), seen = [next(), next()];
var point = { x: 1, y: { z: "a\"b" } };
point.me = point;
try { null.x; } catch (e) { var name = e.name; }
var late = function () { return late; };
throw { code: seen[1], at: point };
