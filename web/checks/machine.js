// A machine of p11.wasm in a handle, beside the console's (engine/calls.js): lines, and files of a store of its own.
//   const p11 = await P11.load(bytes, 28); p11.line('examine 1000 4'); p11.typed();
'use strict';

class P11 extends Calls {
  // The bytes of the module, and how much memory (in 1,024 words) and how many decoded instructions the machine has.
  static async load(bytes, kwords = 28, lines = 1024) {
    const { instance } = await WebAssembly.instantiate(bytes, {});
    return new P11(instance.exports, kwords, lines);
  }

  constructor(exports, kwords, lines) {
    super(exports);
    // No file is a row of 0 bytes; the pointer may not be null all the same.
    this.must(this.x.p11_new(kwords, lines, this.buffer.at, 0n, this.handle), 'p11_new');
  }

  // Does a line, or the lines of a script: the bytes of its answers.
  line(line) {
    const bytes = typeof line === 'string' ? bytesOf(line) : line;
    this.must(this.lend(bytes, (at, length) => this.x.p11_line(this.handle, at, length)), 'p11_line');
    return this.handed('p11_answer', (at, size, told) => this.x.p11_answer(this.handle, at, size, told));
  }

  // What was typed in the runs of the last line.
  typed() { return this.handed('p11_typed_text', (at, size, told) => this.x.p11_typed_text(this.handle, at, size, told)); }

  regs() { return this.registers('p11_regs'); }

  putFile(name, bytes) {
    this.must(this.lend(bytesOf(name), (at, length) =>
      this.lend(bytes, (from, size) => this.x.p11_put_file(this.handle, at, length, from, size))), 'p11_put_file');
  }

  drop() {
    this.x.p11_drop(this.handle);
    this.free();
  }
}
