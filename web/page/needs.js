// Before anything else runs: whether WebAssembly has memory with 64-bit addresses here (the smallest module that declares one is
// taken). Where it hasn't, the page says so and does nothing more. An old browser has to read this file: it is in ECMAScript 5.
'use strict';

var hasMemory64 = false;
try {
  hasMemory64 = WebAssembly.validate(new Uint8Array([0, 97, 115, 109, 1, 0, 0, 0, 5, 3, 1, 4, 1]));
} catch (error) { /* there is no WebAssembly at all */ }
document.getElementById('needs').hidden = hasMemory64;
