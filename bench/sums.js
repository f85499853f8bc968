"use strict";
var total = 0;
for (var i = 0; i < 400000; i++) { total = total + i * 3 - (i & 15) + (i >> 2); }
