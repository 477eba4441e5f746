// The calls of p11.wasm for JavaScript: the console of examples/c/pdp1140.h, with the same statuses and numbers.
//   const dialogue = new Dialogue(exports, { kwords: 28 }); dialogue.keys(bytesOf('regs\r')); dialogue.step(1000); dialogue.screen();
// It works in a page, in a worker and in node. Nothing in here knows what a PDP-11 is.
'use strict';

const STATUS = ['done', 'no memory', 'bad size', 'bad files', 'too small', 'too long', 'no machine', 'no file', 'too many'];
const DONE = 0, TOO_SMALL = 4, NO_FILE = 7;
const WANT = { step: 0, keys: 1, idle: 2, memory: 3, fetch: 4, put: 5, names: 6, end: 7 };
const FILE = { written: 0, there: 1, missing: 2 };
const TYPED = 0, GIVEN = 1, HANDLE_BYTES = 16, REGISTERS_BYTES = 40, BUFFER_BYTES = 65536;
const TAKING = { screen: 'shown', record: 'recorded', past: 'kept' };

// What all calls have in common: bytes that lie in the module's memory while they are used, and a buffer for what is handed out.
class Calls {
  constructor(exports) {
    this.x = exports;
    this.handle = this.room(HANDLE_BYTES);
    this.length = this.room(8);
    this.told = this.room(REGISTERS_BYTES);
    this.buffer = { at: this.room(BUFFER_BYTES), size: BUFFER_BYTES };
    this.view().fill(0, Number(this.handle), Number(this.handle) + HANDLE_BYTES);
  }

  // The memory as it is now: after each call it may be another, since it grows.
  view() { return new Uint8Array(this.x.memory.buffer); }

  data(at, size) { return new DataView(this.x.memory.buffer, Number(at), size); }

  room(size) {
    const at = this.x.page_alloc(BigInt(size));
    if (at === 0n) throw new Error('p11: no memory');
    return at;
  }

  must(status, call) {
    if (status !== DONE) throw new Error(`p11: ${call}: ${STATUS[status] ?? status}`);
  }

  // Bytes in a room of their own.
  kept(bytes) {
    const at = this.room(bytes.length || 1);
    this.view().set(bytes, Number(at));
    return at;
  }

  lend(bytes, use) {
    const at = this.kept(bytes);
    try { return use(at, BigInt(bytes.length)); } finally { this.x.page_free(at); }
  }

  lengthTold() { return Number(this.data(this.length, 8).getBigUint64(0, true)); }

  inBuffer(length) { return this.view().slice(Number(this.buffer.at), Number(this.buffer.at) + length); }

  // What a call hands out, however long it is; null where it ends with this status.
  handed(call, use, none) {
    for (;;) {
      const status = use(this.buffer.at, BigInt(this.buffer.size), this.length);
      if (status === none) return null;
      if (status !== TOO_SMALL) this.must(status, call);
      const length = this.lengthTold();
      if (status === DONE) return this.inBuffer(length);
      this.x.page_free(this.buffer.at);
      this.buffer = { at: this.room(length), size: length };
    }
  }

  // Registers, as the call of this name tells them.
  registers(call) {
    this.must(this.x[call](this.handle, this.told), call);
    const data = this.data(this.told, REGISTERS_BYTES), word = (at) => data.getUint16(at, true);
    return {
      turns: Number(data.getBigUint64(0, true)),
      general: [0, 1, 2, 3, 4, 5].map((n) => word(8 + 2 * n)),
      ksp: word(20), usp: word(22), pc: word(24), ps: word(26), sr0: word(28), sr2: word(30),
      mark: ['ready', 'waiting', 'halted'][word(32)],
    };
  }

  free() { for (const at of [this.handle, this.length, this.told, this.buffer.at]) this.x.page_free(at); }
}

class Dialogue extends Calls {
  // How much memory (in 1,024 words) and how many decoded instructions the machine has, and the rest as p11_console_new takes it.
  constructor(exports, { kwords = 28, lines = 1024, manner = TYPED, strict = false, saveless = false, talk = false } = {}) {
    super(exports);
    const words = [kwords, lines, manner, Number(strict), Number(saveless), Number(talk)];
    this.must(exports.p11_console_new(...words, this.handle), 'p11_console_new');
  }

  status(call, ...words) { return this.x[`p11_console_${call}`](this.handle, ...words); }

  done(call, ...words) { this.must(this.status(call, ...words), `p11_console_${call}`); }

  give(call, bytes) { this.lend(bytes, (at, length) => this.done(call, at, length)); }

  number(call) {
    this.done(call, this.told);
    return this.data(this.told, 4).getUint32(0, true);
  }

  // All bytes of an output, which are taken.
  output(name) {
    const parts = [];
    for (;;) {
      this.done(name, this.buffer.at, BigInt(this.buffer.size), this.length);
      const length = this.lengthTold();
      if (length === 0) return parts.length === 1 ? parts[0] : Uint8Array.from(parts.flatMap((part) => [...part]));
      parts.push(this.inBuffer(length));
      this.done(TAKING[name], BigInt(length));
    }
  }

  whole(call, none) { return this.handed(`p11_console_${call}`, (at, size, told) => this.status(call, at, size, told), none); }

  // -- events
  open(name) { this.give('open', bytesOf(name)); }
  remember(line) { this.give('remember', line); }
  keys(bytes) { this.give('keys', bytes); }
  closed() { this.done('closed'); }
  paused() { this.done('paused'); }
  ticked() { this.done('ticked'); }
  redrawn() { this.done('redrawn'); }
  resized(columns) { this.done('resized', BigInt(columns)); }

  // Does one thing, in a run at most so many turns: what is wanted then.
  step(turns) {
    this.done('step', turns, this.told);
    return this.data(this.told, 4).getUint32(0, true);
  }

  // -- outputs
  screen() { return this.output('screen'); }
  record() { return this.output('record'); }
  past() { return this.output('past'); }

  errors() {
    const said = this.whole('errors');
    this.done('told');
    return said;
  }

  // -- requests, and their answers
  name() {
    const name = this.whole('name', NO_FILE);
    return name && textOf(name);
  }

  image() { return this.whole('image', NO_FILE); }
  front() { return textOf(this.whole('front')); }

  // Of the file that is wanted or to be written: whether it may be in another's place, and whether it is a pack's.
  request() {
    const second = this.told + 4n;
    this.done('request', this.told, second);
    return { mayReplace: this.data(this.told, 4).getUint32(0, true) === 1, isPack: this.data(second, 4).getUint32(0, true) === 1 };
  }

  fetched(bytes) { this.give('fetched', bytes); }
  missed(trouble) { this.done('missed', trouble); }
  put(trouble) { this.done('put', trouble); }
  names(names) { this.give('names', bytesOf(names.join('\0'))); }

  // -- the machine
  code() { return this.number('status'); }
  regs() { return this.registers('p11_console_regs'); }
  devices() { return textOf(this.whole('devices')); }

  drop() {
    this.x.p11_console_drop(this.handle);
    this.free();
  }
}

// Text and bytes, each character as one byte.
function bytesOf(text) { return Uint8Array.from(text, (c) => c.charCodeAt(0) & 255); }
function textOf(bytes) {
  let text = '';
  for (let at = 0; at < bytes.length; at += 8192) text += String.fromCharCode(...bytes.subarray(at, at + 8192));
  return text;
}
