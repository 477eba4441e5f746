// Bad input: files that are no image, a tape with a wrong sum, a browser without 64-bit memory or that keeps nothing, and a
// module that traps.
'use strict';
const assert = require('assert'), fs = require('fs'), path = require('path');
const { downloaded } = require('./evening.js');
const { sleep, MOST_MS } = require('./page.js');
const { withoutRemark } = require('./compare.js');
const { trapped } = require('./wasm.js');

async function badFiles({ page, native: { folder }, say }) {
  const note = (text) => page.until(`document.querySelector('#note').textContent.includes(${JSON.stringify(text)})`);
  const drop = async (name, bytes, text) => {
    fs.writeFileSync(path.join(folder, name), bytes);
    await page.drop(path.join(folder, name));
    await note(text);
  };
  const before = await page.eval("app.link.ask('record')");
  await drop('picture.png', Buffer.from([0x89, 0x50, 0x4e, 0x47, 1, 2]), 'picture.png is a PNG picture, and no pack, tape or script');
  await drop('disk.gz', Buffer.from([0x1f, 0x8b, 8, 0]), 'disk.gz is a gzip archive: unpack it first');
  await drop('large', Buffer.alloc(2494465, 7), 'large has 2,494,465 bytes, and a pack of an RK05 has 2,494,464');
  await drop('none.dsk', Buffer.alloc(0), 'none.dsk has no bytes');
  await drop('diag.ptap', Buffer.from([0, 1, 0, 8, 0, 0, 2, 5, 6, 7]), 'the tape is wrong at byte 9: the bytes of the block don\'t sum to 0');
  await drop('page.html', Buffer.from('<!doctype html>\n'), 'page.html is a text, and no script: "<!doctype html>" is no line of the console.');
  if (page.product.startsWith('Chromium')) {
    fs.mkdirSync(path.join(folder, 'packs'));
    await page.drop(path.join(folder, 'packs'));
    await note("packs can't be read: of a folder, drop the files that are in it.");
  }
  const answers = async (button, text) => {
    await page.until("app.offered && document.querySelector('#offer').innerText.startsWith('odd has 5 bytes, which aren\\'t whole sectors of 512. Is it a pack?')");
    await page.click(`#offer button:nth-of-type(${button})`);
    await note(text);
  };
  fs.writeFileSync(path.join(folder, 'odd'), Buffer.from([7, 0, 255, 0, 1]));
  await page.drop(path.join(folder, 'odd'));
  await answers(2, 'odd is left out.');
  assert.equal(await page.eval("app.link.ask('record')"), before, 'what was refused is in the record');
  await page.drop(path.join(folder, 'odd'));
  await answers(1, 'odd is mounted on drive ');
  say('files that are no pack, tape or script are refused with what they are, and a wrong tape with its byte; in doubt it is asked');
}

// The call by which the line clock ticks is a trap here.
async function trap({ page, made, native: { folder }, say }) {
  const module = trapped(fs.readFileSync(path.join(made, 'site/p11.wasm')), 'p11_console_ticked').toString('base64');
  await page.eval(`(async () => {
    globalThis.sound = app.module;
    app.module = Uint8Array.from(atob('${module}'), (c) => c.charCodeAt(0));
    app.connect();
    await app.sessions.fresh(28);
  })()`);
  await page.click('#screen');
  await page.type('deposit 1000 777\rstart 1000\rtalk\r');
  await page.until('app.desk.isRunning');
  await page.eval('app.setClock(60)');
  await page.until("app.view.text().includes('The machine is lost')");
  await page.until("!document.querySelector('#offer').hidden");
  const record = withoutRemark((await downloaded(page, folder, '#offer button', 'lost.p11')).toString('latin1'));
  assert.match(record, /^deposit 1000 777\nstart 1000\n(step \d+\n)+$/, 'the record of the lost machine is another');
  await page.click('#screen');
  await page.type('examine 1000\r');
  await page.until("app.view.text().includes('EXAM 001000 000000')");
  const told = await page.eval("app.view.text().match(/The machine is lost/g).length");
  assert.equal(told, 1, `that the machine is lost is told ${told} times`);
  say('a module that traps loses its machine alone, which is told once: its record is offered, and a new machine is there');
}

// The page may run, show and fetch what is its own alone; and where no script runs it says what it wants.
async function policy({ page, url, say }) {
  const before = page.errors.length, told = page.product.startsWith('Firefox') ? 3 : 0;
  const broken = await page.eval(`new Promise((done) => {
    const found = [];
    addEventListener('securitypolicyviolation', ({ effectiveDirective }) => { if (found.push(effectiveDirective) === 3) done(found.sort()); });
    const script = document.createElement('script'), image = new Image();
    script.textContent = 'globalThis.ran = true';
    document.body.append(script);
    image.src = 'http://127.0.0.1:1/x.png';
    fetch('http://127.0.0.1:1/').catch(() => {});
  })`);
  assert.deepEqual(broken, ['connect-src', 'img-src', 'script-src-elem']);
  assert.equal(await page.eval('globalThis.ran'), undefined, 'a script that is put into the page runs');
  for (const end = Date.now() + MOST_MS; page.errors.length < before + told;) {   // Firefox tells them as errors of the page
    assert(Date.now() < end, 'Firefox does not tell what it refused');
    await sleep(20);
  }
  page.errors.length = before;
  const without = await page.eval(`fetch('${url}').then((it) => it.text())
    .then((it) => new DOMParser().parseFromString(it, 'text/html').querySelector('noscript p').textContent)`);
  assert.match(without, /needs JavaScript/);
  say('what is not the page\'s own is neither run, shown nor fetched');
}

// A browser that has no 64-bit memory says so in a sentence; one that keeps nothing goes on without it.
async function lacking({ page, url, say }) {
  const has64 = await page.before('WebAssembly.validate = () => false;');
  await page.navigate(url);
  await page.until("document.querySelector('#needs')?.innerText.startsWith('This browser has no WebAssembly with 64-bit memory')");
  assert.equal(await page.eval("document.documentElement.dataset.ready"), undefined, 'the page opens all the same');
  await has64();
  const keeps = await page.before("indexedDB.open = () => { throw new Error('storage is off'); };");
  await page.goTo(url);
  await page.until("document.querySelector('#refused').innerText.includes('keeps nothing more of this session (storage is off)')");
  await keeps();
  await page.click('#screen');
  await page.type('examine 1000\r');
  await page.until("app.view.text().includes('EXAM 001000 000000')");
  say('without 64-bit memory, and without storage, the page says so');
}

module.exports = { badFiles, trap, policy, lacking };
