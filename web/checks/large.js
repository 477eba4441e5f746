// Large and hostile files: what isn't read, archives that lie, packs that begin as something else, and images in a script's place.
'use strict';
const assert = require('assert'), fs = require('fs'), path = require('path');

const PACK = 2494464, note = (page, text) => page.until(`document.querySelector('#note').textContent.includes(${JSON.stringify(text)})`);

async function large({ page, say }) {
  for (const size of [1900000000, 2200000000, 2 ** 28 + 1]) {
    await page.eval(`app.sessions.take({ name: 'huge.dsk', size: ${size}, arrayBuffer() { throw new Error('it was read'); } })`);
    await note(page, `huge.dsk has ${size.toLocaleString('en')} bytes: a file of more than 268,435,456 isn't read.`);
  }
  // An archive of one file, with its bytes changed: what is said of it, and in how many milliseconds.
  const refused = (change, size = 1000) => page.eval(`(async () => {
    const bytes = await zipOf([{ name: 'session.p11', bytes: new Uint8Array(${size}) }]), data = new DataView(bytes.buffer), back = bytes.length - 22 - 46 - 11;
    const changed = ((bytes, data, back) => { ${change} })(bytes, data, back), began = performance.now();
    const why = await filesIn(changed ?? bytes).then(() => '', (error) => error.message);
    return [why, performance.now() - began];
  })()`);
  assert.equal((await refused(''))[0], '');
  const [late, ms] = await refused('return Uint8Array.from([...bytes, ...new Uint8Array(65536)]);');
  assert.equal(late, 'its end is missing');
  assert(ms < 1000, `the end was searched for ${ms} ms`);
  assert.equal((await refused('data.setUint32(back + 24, 1000, true);', 1e8))[0], 'session.p11 is damaged');
  assert.equal((await refused('data.setUint32(back + 24, 2 ** 28 + 1, true);'))[0], 'its files have more than 268,435,456 bytes');
  assert.equal((await refused('data.setUint32(back + 42, 2 ** 31, true);'))[0], 'its list of files is damaged');
  const taken = await page.eval(`through(new TransformStream({ transform(part, to) { for (let n = 0; n < 100; n++) to.enqueue(new Uint8Array(65536)); } }),
    new Uint8Array(10), 100000).then((it) => it === null)`);
  assert(taken, 'more than the size that was told is taken');
  say('a file that is too large is not read, and an archive that lies is refused at once');
}

// A pack by its size, whatever it begins with; what is dropped on a drive; and an image that has a script's name.
async function images({ page, url, native: { folder }, say }) {
  const drop = async (name, bytes, selector) => {
    fs.writeFileSync(path.join(folder, name), bytes);
    await page.drop(path.join(folder, name), selector);
  };
  const drive = (number) => `li[data-drive="${number}"]`, isOn = (number, name) => page.until(`document.querySelector('${drive(number)} .pack').textContent.startsWith('${name},')`);
  await page.eval('app.sessions.fresh(28)');
  const begins = (mark) => Buffer.concat([Buffer.from(mark, 'latin1'), Buffer.alloc(PACK - mark.length)]);
  await drop('zip.bin', begins('PK\x03\x04'));
  await isOn(0, 'zip.bin');
  await drop('text', Buffer.alloc(PACK, 'regs\n'));
  await isOn(1, 'text');
  await drop('a.tape', Buffer.from([1, 0, 6, 0, 0, 2, 247]), drive(5));
  await isOn(5, 'a.tape');
  await note(page, 'a.tape is mounted on drive 5: it has 7 bytes, and the other 2,494,457 read as zeros.');
  await drop('none', Buffer.alloc(0), drive(6));
  await isOn(6, 'none');
  await drop('foot.rk05', Buffer.alloc(PACK + 512, 7));
  await page.until("document.querySelector('#offer').innerText.startsWith('foot.rk05 has 2,494,976 bytes, and a pack of an RK05 has 2,494,464. Are the first of them the pack?')");
  await page.click('#offer button');
  await isOn(2, 'foot.rk05');
  assert.equal(await page.eval("app.link.ask('files').then((all) => all.find(([name]) => name === 'foot.rk05')[1])"), PACK, 'the pack is not cut');
  const said = 'has a NUL in its first 4,096 bytes, so it is an image and no script: drop it on a drive, and press Boot there.';
  await drop('image.p11', Buffer.from('regs\n\0'));
  await note(page, `image.p11 ${said}`);
  await page.goTo(`${url}?script=examples/boot.pack`);
  await note(page, `boot.pack ${said}`);
  assert.equal(await page.eval("app.link.ask('record')"), '', 'an image was run as a script');
  say('what has the size of a pack is one, what is dropped on a drive is mounted, and an image is run as no script');
}

module.exports = { large, images };
