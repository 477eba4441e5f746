// The rest of the page as a person sees it: what the drives and the terminal show, which bytes each key is, and what the choices of
// the machine do.
'use strict';
const assert = require('assert');
const { settle } = require('./evening.js');
const { Front } = require('./front.js');

// What is seen of a drive: the text of its pack, the controls that are there with their names, and whether it is protected.
const drive = (number) => `(() => {
  const box = document.querySelector('li[data-drive="${number}"]'), seen = [...box.querySelectorAll('button')].filter((it) => it.checkVisibility());
  return { pack: box.querySelector('.pack').textContent, names: seen.map((it) => it.ariaLabel), texts: seen.map((it) => it.textContent),
    isProtected: box.querySelector('.protect').ariaChecked, sectors: box.querySelector('.sectors').checkVisibility() ? box.querySelector('.sectors').textContent : '' };
})()`;
const MOUNTED = ['Boot from drive 1', 'Write-protect drive 1', 'Changed sectors of drive 1', 'Download the pack on drive 1', 'Unmount drive 1'];
// Writes a word to a sector of drive 1 from 2000.
const written = (sector) => [`deposit 777410 2000`, 'deposit 777406 177777', `deposit 777412 ${(0o20000 + sector).toString(8)}`, 'deposit 777404 3', 'step 200'];

async function drives({ page, say }) {
  const front = await Front.of(page);
  assert.deepEqual(await page.eval(drive(1)), { pack: 'empty', names: ['Mount a pack on drive 1'], texts: ['Mount…'], isProtected: 'false', sectors: '' });
  await front.does('mount 1 /dev/null rw');
  for (const line of ['deposit 1000 777', 'start 1000', ...written(3), ...written(4), ...written(9)]) await front.does(line);
  const seen = async (wanted) => {
    await page.until(`(${drive(1)}).texts.includes(${JSON.stringify(wanted)})`);
    return page.eval(drive(1));
  };
  const before = await seen('3 changed');
  assert.equal(before.pack, '/dev/null, cylinder 0');
  assert.deepEqual([before.names, before.isProtected], [MOUNTED, 'false']);
  await page.click('li[data-drive="1"] .changed');
  await page.until(`(${drive(1)}).sectors !== ''`);
  assert.equal((await page.eval(drive(1))).sectors, 'Sectors written since it was mounted: 3 to 4, 9');
  await page.click('li[data-drive="1"] .protect');
  await page.until(`(${drive(1)}).isProtected === 'true'`);
  assert.match(await front.does('device'), /^DRIVE 1 ro cylinder 0 changed 0 /m);
  assert((await page.eval("document.querySelector('#files').textContent")).includes('drive1.rk05, 2,494,464 bytes'), 'the file that was saved');
  await page.click('li[data-drive="1"] .protect');
  await page.until(`(${drive(1)}).isProtected === 'false'`);
  assert.match(await front.does('device'), /^DRIVE 1 rw cylinder 0 changed 0 /m);
  await page.click('li[data-drive="1"] .boot');
  await page.until("app.link.ask('record').then((it) => /^deposit 0*1000 0*12737 0*20000 0*177412 /m.test(it))");
  await page.eval('app.desk.halt()');
  await page.until('!app.desk.isRunning');
  await page.click('li[data-drive="1"] .off');
  await page.until(`(${drive(1)}).pack === 'empty'`);
  assert.equal((await page.eval(drive(0))).names[0], 'Mount a pack on drive 0');
  say('a drive shows what is on it, which sectors were written, and whether it is protected');
}

// What is painted: lines, the cursor, styles, and what scrolled off.
async function terminal({ page, say }) {
  await Front.of(page);
  const frame = () => page.eval('new Promise((done) => requestAnimationFrame(() => requestAnimationFrame(done)))');
  const painted = () => page.eval("[...document.querySelectorAll('#screen .now > div')].map((it) => it.innerHTML)");
  await page.eval("app.say('\\x1b[2J\\x1b[HAB\\x1b[1mC\\x1b[mD\\x1b[4mE\\x1b[m\\x1b[7mF\\x1b[m\\n\\x1b[3;5Hx')");
  await frame();
  assert.deepEqual(await painted(), ['AB<span class="bold">C</span>D<span class="underline">E</span><span class="reverse">F</span>', '\n',
    '    x<span class="cursor"> </span>']);
  const weight = (selector) => page.eval(`getComputedStyle(document.querySelector('#screen ${selector}')).fontWeight`);
  assert(await weight('.bold') > 400, 'bold letters');
  await page.eval("app.say('\\x1b[2J\\x1b[H' + Array.from({ length: 30 }, (_, n) => 'line ' + n + '\\n').join(''))");
  await frame();
  const back = await page.eval("document.querySelector('#screen .back').textContent");
  assert(back.endsWith('line 4\nline 5\nline 6\n'), 'what scrolled off');
  assert.equal((await painted())[0], 'line 7', 'what is left');
  assert.equal(await page.eval("document.querySelector('#screen .spoken').textContent"), Array.from({ length: 8 }, (_, n) => `line ${22 + n}`).join('\n'));
  say('lines, styles, the cursor and what scrolled off are painted');
}

// Which bytes come to the machine of each kind of key, on a VT100 and on a VT52.
async function keyed({ page, say }) {
  const front = await Front.of(page, 'deposit 1000 777', 'start 1000');
  await page.eval("app.desk.type('talk')");
  await page.until('app.desk.isTalk && app.link.asked.size === 0');
  await page.click('#screen');
  const press = async (...keys) => { for (const key of keys) await page.key(key); };
  await page.type('aZ~ ');
  await press('Backspace', 'Enter', 'Escape', 'ArrowUp', 'ArrowDown', 'ArrowRight', 'ArrowLeft', 'F1');
  await page.type('\x03\x1a');
  await page.eval("{ const kind = document.querySelector('#kind'); kind.value = '52'; kind.dispatchEvent(new Event('change')); }");
  await press('ArrowUp', 'ArrowLeft');
  await settle(page);
  await page.click('#console');
  await page.until('!app.desk.isRunning');
  const keys = [...(await page.eval("app.link.ask('record')")).matchAll(/^key (.*)$/gm)].map(([, text]) => text).join('');
  assert.equal(keys, 'aZ~\\040\\177\\015\\033\\033[A\\033[B\\033[C\\033[D\\033OP\\003\\032\\033A\\033D');
  await front.does('regs');
  say('each key is the bytes that a VT100 or a VT52 has for it');
}

// The size of a new machine, the line clock, and the pace.
async function choices({ page, say }) {
  const front = await Front.of(page);
  const choose = (id, value) => page.eval(`{ const it = document.querySelector('${id}'); it.value = '${value}'; it.dispatchEvent(new Event('change')); }`);
  await choose('#memory', 8);
  assert.equal(await page.eval("document.querySelector('#memory').selectedOptions[0].textContent"), '8 thousand words');
  await page.click('#fresh');
  await page.until("app.link.asked.size === 0 && !app.desk.isHeld");
  await settle(page);
  assert.equal(await front.does('examine 37776'), 'EXAM 037776 000000\n', 'a machine of 8 thousand words');
  assert.match(await front.does('examine 40000'), /^\? 6 NoAnswer/, 'and no more of them');
  for (const line of ['deposit 1000 777', 'start 1000']) await front.does(line);
  await choose('#hertz', 60);
  await choose('#pace', 400000);
  await page.eval("app.desk.type('talk')");
  await page.until("app.link.ask('record').then((it) => (it.match(/^tick$/gm) ?? []).length >= 20)");
  await page.until("/^0\\.[34]\\d million turns a second/.test(document.querySelector('#speed').textContent)");
  await choose('#hertz', 0);
  await page.eval('app.desk.halt()');
  await page.until('!app.desk.isRunning');
  await choose('#memory', 28);
  await choose('#pace', 0);
  say('the size of the memory, the clock and the pace are those that were chosen');
}

module.exports = { drives, terminal, keyed, choices };
