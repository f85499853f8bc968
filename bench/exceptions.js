"use strict";
function f(n) { if (n % 2 === 0) { throw { code: n }; } return n; }
var caught = 0;
for (var i = 0; i < 100000; i++) { try { f(i); } catch (e) { caught += e.code & 1; } finally { caught++; } }
