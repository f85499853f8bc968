"use strict";
var o = {p0: 0, p1: 1, p2: 2, p3: 3, p4: 4, p5: 5, p6: 6, p7: 7};
var total = 0;
for (var i = 0; i < 200000; i++) { o.p0 = i; total += o.p7; }
