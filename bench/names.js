"use strict";
// A map of 7,000 computed names, filled and read, and one of 10 read as often.
var many = {};
var few = {};
var sum = 0;
for (var i = 0; i < 7000; i = i + 1) {
  many["n" + i] = i;
  few["n" + i % 10] = i;
}
for (var j = 0; j < 7000; j = j + 1) {
  sum = sum + many["n" + j] + few["n" + j % 10];
}
