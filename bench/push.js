"use strict";
var a = [], total = 0;
for (var i = 0; i < 200000; i++) { a.push(i); }
for (var j = 0; j < a.length; j++) { total += a[j]; }
