"use strict";
function Point(x, y) { this.x = x; this.y = y; }
Point.prototype.add = function (o) { return new Point(this.x + o.x, this.y + o.y); };
var p = new Point(0, 0), q = new Point(1, 2);
for (var i = 0; i < 50000; i++) { p = p.add(q); }
var r = p.x + p.y;
