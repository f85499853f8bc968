"use strict";
// An array of 200,000 elements, read in an order that jumps about.
var items = [];
var sum = 0;
for (var i = 0; i < 200000; i = i + 1) {
  items.push(i);
}
for (var j = 0, place = 0; j < 200000; j = j + 1) {
  place = (place * 7919 + 12345) % 200000;
  sum = sum + items[place];
}
