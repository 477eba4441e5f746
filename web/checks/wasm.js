// trapped(module, name): the bytes of a WebAssembly module in which the call that is exported under a name is a trap.
// narrowed(module): of one in whose table nothing lies, with a table of 32 bits.
'use strict';

const TABLES = 4, EXPORTS = 7, CODE = 10, FUNCTION = 0, UNREACHABLE = 0, IS_64 = 4;

// Reads a module from a place on: numbers in LEB128, bytes and texts.
class Reader {
  constructor(bytes, at) { Object.assign(this, { bytes, at }); }

  byte() { return this.bytes[this.at++]; }

  number() {
    let value = 0;
    for (let shift = 0; ; shift += 7) {
      const byte = this.byte();
      value |= (byte & 127) << shift;
      if (byte < 128) return value;
    }
  }

  text() {
    const length = this.number();
    this.at += length;
    return this.bytes.subarray(this.at - length, this.at).toString();
  }
}

// Where the body of a section begins.
function section(bytes, wanted) {
  const reader = new Reader(bytes, 8);
  for (;;) {
    const kind = reader.byte(), size = reader.number();
    if (kind === wanted) return new Reader(bytes, reader.at);
    reader.at += size;
  }
}

function indexOf(bytes, wanted) {
  const reader = section(bytes, EXPORTS);
  for (let left = reader.number(); left > 0; left--) {
    const name = reader.text(), kind = reader.byte(), index = reader.number();
    if (kind === FUNCTION && name === wanted) return index;
  }
  throw new Error(`the module has no ${wanted}`);
}

// The module imports nothing, so a function's number is that of its body.
function trapped(module, name) {
  const bytes = Buffer.from(module), reader = section(bytes, CODE);
  reader.number();
  for (let left = indexOf(bytes, name); left > 0; left--) {
    const size = reader.number();
    reader.at += size;
  }
  const size = reader.number(), end = reader.at + size - 1;
  for (let locals = reader.number(); locals > 0; locals--) {
    reader.number();
    reader.byte();
  }
  return bytes.fill(UNREACHABLE, reader.at, end);
}

// A table is its type and its flags, in front of its limits.
function narrowed(module) {
  const bytes = Buffer.from(module), reader = section(bytes, TABLES);
  reader.number();
  reader.byte();
  bytes[reader.at] &= ~IS_64;
  return bytes;
}

module.exports = { trapped, narrowed };
