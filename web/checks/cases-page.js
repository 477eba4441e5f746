// In the browser: plays the sessions of /data/cases line by line through the module, on a machine in a handle. A session is two
// numbers (thousands of words, decoded instructions) and rows of bytes behind their lengths: script, files, answers, typed.
'use strict';

class Row {
  constructor(bytes) {
    this.bytes = bytes;
    this.data = new DataView(bytes.buffer, bytes.byteOffset, bytes.length);
    this.at = 0;
  }

  hasMore() { return this.at < this.bytes.length; }

  number() {
    this.at += 4;
    return this.data.getUint32(this.at - 4, true);
  }

  row() {
    const length = this.number();
    this.at += length;
    return this.bytes.subarray(this.at - length, this.at);
  }
}

const bytesAt = async (name) => new Uint8Array(await (await fetch(name)).arrayBuffer());
const isSame = (one, other) => one.length === other.length && one.every((byte, at) => byte === other[at]);

// One word for a machine's memory, a script and its files, by which a session is the same on whichever cache it is played.
async function wordFor(...parts) {
  const sums = await Promise.all(parts.map((part) => crypto.subtle.digest('SHA-256', part)));
  return sums.map((sum) => String(new Uint8Array(sum))).join(' ');
}

// Plays one: how many lines it has, and whether they are answered as they are to be.
function played(exports, session) {
  const kwords = session.number(), kept = session.number();
  const [script, files, answers, typed] = [session.row(), session.row(), session.row(), session.row()];
  const p11 = new P11(exports, kwords, kept);
  for (const row = new Row(files); row.hasMore();) p11.putFile(textOf(row.row()), row.row());
  const lines = textOf(script).split('\n'), said = [], shown = [];
  if (lines.at(-1) === '') lines.pop();
  for (const line of lines) {
    said.push(...p11.line(line));
    shown.push(...p11.typed());
  }
  p11.drop();
  return { kwords, script, files, lines: lines.length, isRight: isSame(said, answers) && isSame(shown, typed) };
}

// Plays all: how many there are, how many different ones, how many lines they have, and which are answered otherwise.
// A module for each hundred sessions, so that machines also follow each other in one memory.
async function playAll() {
  const module = await WebAssembly.compile(await bytesAt('/p11.wasm')), all = new Row(await bytesAt('/data/cases'));
  let count = 0, lines = 0, exports = null;
  const wrong = [], different = new Set();
  for (; all.hasMore(); count++) {
    if (count % 100 === 0) ({ exports } = await WebAssembly.instantiate(module, {}));
    const session = played(exports, all);
    lines += session.lines;
    different.add(`${session.kwords} ${await wordFor(session.script, session.files)}`);
    if (!session.isRight) wrong.push(textOf(session.script).slice(0, 200));
  }
  return { count, different: different.size, lines, wrong };
}
