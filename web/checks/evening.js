// One session as a person has it, by real keys and mouse events: the monitor talked to, the line clock by the wall, a paste of
// 10,000 characters, a program toggled in at the panel, the page closed and opened again, a pack dropped, changed and
// downloaded. The record of it all is then played by ./p11, which has to come to the same typed bytes, registers, devices and
// memory; and without its ticks it may not.
'use strict';
const assert = require('assert'), fs = require('fs'), path = require('path');
const { sleep, MOST_MS } = require('./page.js');
const { play, listen, heard, stateOf, agree, withoutRemark } = require('./compare.js');

const PASTED = 'e 3000\r'.repeat(1428) + '\r'.repeat(4), TICKS = 31;

async function evening({ page, url, native, examples, say }) {
  const { folder } = native;
  let typed = '';
  const shows = (text) => page.until(`app.view.text().includes(${JSON.stringify(text)})`);
  const stops = async (count) => page.until(`(app.view.text().match(/STOP (key|halt)/g) ?? []).length >= ${count}`);

  await listen(page);
  await page.click('[data-boot=monitor]');
  await shows('MONITOR');
  await page.click('#screen');
  await page.type('e 20\r');
  await shows('000020 047515');
  await page.type('d 3000 123\re 3000\r');
  await shows('003000 000123');
  say('the monitor answers');

  await page.eval("document.querySelector('#hertz').focus()");
  await page.key('ArrowDown');
  await page.key('ArrowDown');
  assert.equal(await page.eval("document.querySelector('#hertz').value"), '60');
  await page.until(`app.link.ask('record').then((it) => (it.match(/^tick$/gm) ?? []).length >= ${TICKS})`);
  await page.click('#screen');
  await page.type('t\r');
  await page.until("/t\\r\\n\\d{6}\\r\\n\\.$/.test(heard)");
  await page.eval("document.querySelector('#hertz').focus()");
  await page.key('ArrowUp');
  await page.key('ArrowUp');
  await page.click('#screen');

  const before = (await heard(page)).length;
  await page.paste(PASTED);
  await page.until(`heard.length > ${before + PASTED.length} && app.panel.lamps.keys === 0 && app.panel.lamps.isIdle`);
  assert(keysIn(await page.eval("app.link.ask('record')")).endsWith(PASTED), 'not all keys that were pasted came to the machine');
  say('10,000 characters were pasted, and each came to the machine');
  await page.type('\x05');
  await stops(1);

  // MOV #5,R0; ADD #7,R0; HALT at 10000, then R0 and the user's stack pointer by their addresses.
  await toggle(page, 0o10000);
  await page.click('[data-key=load]');
  for (const word of [0o12700, 5, 0o62700, 7, 0]) { await toggle(page, word); await page.click('[data-key=dep]'); await settle(page); }
  await toggle(page, 0o10000);
  await page.click('[data-key=load]');
  await page.click('[data-key=exam]');
  await settle(page);
  assert.equal(await page.eval('app.panel.data'), 0o12700);
  await page.click('[data-key=exam]');
  await settle(page);
  assert.deepEqual(await page.eval('[app.panel.address, app.panel.data]'), [0o10002, 5]);
  await page.click('[data-key=load]');
  await page.click('[data-key=start]');
  await stops(2);
  assert.deepEqual(await page.eval("app.link.ask('regs').then((it) => [it.general[0], it.pc, it.mark])"), [0o14, 0o10012, 'halted']);
  await toggle(page, 0o777700);
  await page.click('[data-key=load]');
  await page.click('[data-key=exam]');
  await settle(page);
  assert.equal(await page.eval('app.panel.data'), 0o14);
  await toggle(page, 0o777716);
  await page.click('[data-key=load]');
  await page.click('[data-key=dep]');
  await settle(page);
  assert.equal(await page.eval("app.link.ask('regs').then((it) => it.usp)"), 0o177716);
  await page.click('#screen');
  say('a program was toggled in at the panel and run');

  // The page is closed in the middle of a run, and opened again: the session goes on.
  await page.type('start 0\rtalk\r');
  await page.until("heard.endsWith('MONITOR\\r\\n.')");
  await page.type('d 3000 456\r');
  await page.until("heard.endsWith('d 3000 456\\r\\n.')");
  await kept(page);
  typed += await heard(page);
  const turns = await page.eval("app.link.ask('regs').then((it) => it.turns)");
  await page.reopen(url);
  await shows('The session goes on');
  assert.equal(await page.eval("app.link.ask('regs').then((it) => it.turns)"), turns);
  await listen(page);
  await page.type('e 3000\r');
  await page.until("heard.includes('003000 000456')");
  await page.type('\x05');
  await page.until("!app.desk.isRunning");
  say('the page was closed and opened again, and the session went on');

  // A pack whose name has a blank, on drive 1 (bits 15:13 of the disk address): a word is written to sector 5.
  const pack = path.join(folder, 'my pack.dsk');
  fs.copyFileSync(path.join(examples, 'boot.pack'), pack);
  await page.drop(pack, 'li[data-drive="1"]');
  await shows('mount 1 my_pack.dsk rw');
  await page.until("document.querySelector('#note').textContent.includes('is mounted on drive 1: it has 50 bytes, and the other 2,494,414 read as zeros')");
  await page.click('#screen');
  await page.type('deposit 2000 12345 54321\rdeposit 1000 777\rstart 1000\rdeposit 777410 2000\rdeposit 777406 177776\r'
    + 'deposit 777412 20005\rdeposit 777404 3\rstep 2000\r');
  await shows('STOP turns 2000');
  await page.until("document.querySelector('li[data-drive=\"1\"] .changed').textContent === '1 changed'");
  await page.click('li[data-drive="1"] .changed');
  await page.until("document.querySelector('li[data-drive=\"1\"] .sectors').textContent.endsWith(': 5')");
  const saved = await downloaded(page, folder, 'li[data-drive="1"] .take', 'drive1.rk05');
  assert.equal(saved.length, 2494464);
  await page.click('li[data-drive="1"] .protect');
  await page.until("document.querySelector('li[data-drive=\"1\"] .protect').ariaChecked === 'true'");
  const record = (await downloaded(page, folder, '#record', 'session.p11')).toString('latin1');
  withoutRemark(record);   // sees that it has one
  typed += await heard(page);
  const state = await stateOf(page);

  fs.renameSync(pack, path.join(folder, 'my_pack.dsk'));
  if (!fs.existsSync(path.join(folder, 'examples'))) fs.symlinkSync(examples, path.join(folder, 'examples'));
  agree(record, typed, state, native);
  assert(saved.equals(fs.readFileSync(path.join(folder, 'drive1.rk05'))), 'the saved packs differ');
  const lines = record.split('\n'), ticks = lines.filter((line) => line === 'tick').length;
  assert(ticks >= TICKS, `only ${ticks} ticks`);
  say(`a record of ${lines.length - 1} lines, ${ticks} of them ticks: ./p11 comes to the same ${typed.length} typed bytes, `
    + 'the same state and the same pack');

  // The planted fault: the monitor, which counts ticks and was asked for them, has none. (One alone may not be missed: a tick that
  // comes before the interrupt of the one before is served asks for no second one.)
  assert.throws(() => agree(lines.filter((line) => line !== 'tick').join('\n'), typed, state, native), /differ/);
  say('without its ticks it does not');
  return { record, answers: play(record, native) };
}

// The keys that a record presses.
function keysIn(record) {
  const text = [...record.matchAll(/^key (.*)$/gm)].map(([, keys]) => keys).join('');
  return text.replace(/\\([0-7]{3})/g, (_, digits) => String.fromCharCode(parseInt(digits, 8)));
}

// Sets the switches by the mouse.
async function toggle(page, word) {
  const now = await page.eval('app.panel.switches');
  for (let bit = 0; bit < 18; bit++) if ((now ^ word) >> bit & 1) await page.click(`#switches .lever:nth-child(${18 - bit})`);
  assert.equal(await page.eval('app.panel.switches'), word);
  await settle(page);
}

// Until all that was asked of the engine is answered.
const settle = (page) => page.until('app.link.asked.size === 0');

// Until the browser keeps all that was done.
async function kept(page) {
  await settle(page);
  await page.until("app.link.ask('regs').then((it) => it.turns === app.store.session.turns)");
  await page.eval('app.store.last.then(() => true)');
}

async function downloaded(page, folder, selector, name) {
  const file = path.join(folder, name);
  fs.rmSync(file, { force: true });
  await page.click(selector);
  const size = () => (fs.existsSync(file) && !fs.existsSync(file + '.part') ? fs.statSync(file).size : 0);
  for (const end = Date.now() + MOST_MS; size() === 0 && Date.now() < end;) await sleep(20);
  for (let was = 0; was !== size(); await sleep(100)) was = size();
  const bytes = fs.readFileSync(file);
  fs.rmSync(file);
  return bytes;
}

module.exports = { evening, downloaded, settle, kept };
