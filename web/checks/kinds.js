// What the page takes a file for: packs, tapes, scripts, and files that are neither. Of lines and tapes its engine asks a console.
'use strict';
const assert = require('assert'), fs = require('fs'), path = require('path');

const text = (it) => Buffer.from(it, 'latin1');
const behind = (before, bytes) => Buffer.concat([Buffer.from(before), bytes]);
const sectors = (count) => Buffer.alloc(512 * count, '\xa0\x00\x17\x08', 'latin1');

// Name, bytes, and what it is: a kind, a kind with what is asked, or what is said.
const casesOf = (examples, tape, node) => [
  ['v6.rk05', sectors(4872), 'pack'], ['v6', sectors(4872), 'pack'], ['short.dsk', sectors(3), 'pack'], ['zeros.rk05', Buffer.alloc(2494464), 'pack'],
  ['evening.pack', examples('evening.pack'), 'pack'], ['boot.pack', examples('boot.pack'), /boot\.pack has 50 bytes, which aren't whole sectors of 512\. Is it a pack\?$/],
  ['something', sectors(3), /something has 1,536 bytes, and neither the size nor the name of a pack\. Is it a pack\?$/],
  ['large.rk05', sectors(4873), /large\.rk05 has 2,494,976 bytes, and a pack of an RK05 has 2,494,464\. Are the first/],
  ['large', sectors(4873), /large has 2,494,976 bytes, and a pack of an RK05 has 2,494,464$/], ['x.zip', Buffer.alloc(2494464, 'PK\x03\x04', 'latin1'), 'pack'],
  ['image.p11', text('regs\n\0'), /image\.p11 has a NUL in its first 4,096 bytes, so it is an image and no script/],
  ['greeting.tape', tape, 'tape'], ['greeting', tape, 'tape'], ['greeting', behind([0, 0, 0], tape), 'tape'],
  ['greeting', behind([7], tape), /greeting is no paper tape for its first byte: a tape begins with zeros and 1 0$/],
  ['greeting', behind([0, 7, 9, 0], tape), /for its first 3 bytes/], ['wrong.ptap', behind([7], tape), 'tape'],
  ['boot.p11', examples('boot.p11'), 'script'], ['record', text('# p11\nexamine 1000\n'), 'script'], ['empty.p11', text('# nothing\n'), 'script'],
  ['page.html', text('<!doctype html>\n<title>x</title>'), /page\.html is a text, and no script: "<!doctype html>" is no line of the console$/],
  ['page.dsk', text('<html>'.padEnd(512)), /is a text, and no script/], ['wide.txt', text('gr\xc3\xbc\xc3\x9fe'), /is a text, and no script/],
  ['node', node, /node is a program for another machine, and no pack/], ['x.tar', behind(Buffer.alloc(257, 'x'), text('ustar\x0000')), /tar archive: unpack it first$/],
  ['x.zip', text('PK\x03\x04\x14\0'), /ZIP archive: unpack it first$/], ['x.wasm', text('\0asm\x01\0\0\0'), /WebAssembly module/],
  ['mine.p11z', text('PK\x03\x04\x14\0'), 'packed'], ['nothing', Buffer.alloc(0), /nothing has no bytes$/],
];

async function kinds({ page, examples, say }) {
  const read = (name) => fs.readFileSync(path.join(examples, name)), node = fs.readFileSync(process.execPath).subarray(0, 51200);
  const all = casesOf(read, read('greeting.tape'), node);
  for (const [name, bytes, wanted] of all) {
    const found = await page.eval(`kindOf(${JSON.stringify(name)}, Uint8Array.from(atob('${bytes.toString('base64')}'), (c) => c.charCodeAt(0)),
      (line, tape) => app.link.ask('answer', { line, bytes: tape }))`);
    const told = found.refused ?? found.doubt ?? found.kind;
    if (wanted instanceof RegExp) assert.match(told, wanted);
    else assert.equal(told, wanted, `${name}, of ${bytes.length} bytes`);
  }
  say(`${all.length} files are taken for what they are`);
}

module.exports = { kinds };
