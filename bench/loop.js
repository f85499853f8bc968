"use strict";
var n = 0;
for (var i = 0; i < 1600000; i++) { n += i % 7; }
