"use strict";
var o = {p0: 0};
var total = 0;
for (var i = 0; i < 200000; i++) { o.p0 = i; total += o.p0; }
