// The front panel as a person sees it: each lamp by its colour, in the order in which they lie from left to right, each label, each
// lever; and what the six keys do. Numbers are set at the switches by octal digits, and the keys are pressed by the mouse.
'use strict';
const assert = require('assert');
const { settle, kept } = require('./evening.js');

// What is seen: rows of lamps as numbers of 0 to 1, levers as bits, the flags with what stands beside each, and all their names.
const FRONT = `(() => {
  const red = (colour) => { const [first] = colour.match(/[\\d.]+/g); return colour.startsWith('rgb') ? first / 255 : +first; };
  const dark = 0x4b / 255, lit = (lamp) => +((red(getComputedStyle(lamp, '::after').backgroundColor) - dark) / (1 - dark)).toFixed(2);
  const sorted = (items) => [...items].sort((a, b) => a.getBoundingClientRect().left - b.getBoundingClientRect().left);
  const row = (id) => ({ name: document.querySelector(id).ariaLabel, lamps: sorted(document.querySelectorAll(id + ' .lamp')).map(lit) });
  const levers = sorted(document.querySelectorAll('#switches .lever'));
  return {
    address: row('#address'), data: row('#data'),
    switches: { name: document.querySelector('#switches').ariaLabel, lamps: levers.map((it) => Number(it.ariaChecked === 'true')) },
    levers: levers.map((it) => it.ariaLabel + ':' + it.textContent),
    flags: Object.fromEntries([...document.querySelectorAll('.flag')].map((it) => [it.textContent, [lit(it.querySelector('.lamp')), it.ariaLabel]])),
    halt: document.querySelector('[data-key=halt]').textContent, isHalt: document.querySelector('[data-key=halt]').ariaChecked,
  };
})()`;

const octal = (number) => number.toString(8).padStart(6, '0');
const bitsOf = (number, count) => [...number.toString(2).padStart(count, '0')].map(Number);
const rowOf = (name, number, count) => ({ name: `${name} ${octal(number)}`, lamps: bitsOf(number, count) });

// A person at the front of a new machine.
class Front {
  constructor(page) { this.page = page; }

  // A new machine, with these lines done at its console.
  static async of(page, ...lines) {
    const front = new Front(page);
    await page.eval('app.sessions.fresh(28)');
    await page.until('app.showing === null');
    await page.eval('app.panel.isEnabled || app.panel.toggle()');
    for (const line of lines) await front.does(line);
    return front;
  }

  async does(line) {
    const { answer } = await this.page.eval(`app.desk.command(${JSON.stringify(line)})`);
    return answer;
  }

  async set(number) {
    await this.page.eval("document.querySelector('#switches .lever[tabindex=\"0\"]').focus()");
    await this.page.type(octal(number));
    await settle(this.page);
  }

  async press(...keys) {
    for (const key of keys) {
      await this.page.click(`[data-key=${key}]`);
      await settle(this.page);
    }
  }

  async load(address) {
    await this.set(address);
    await this.press('load');
  }

  seen() { return this.page.eval(FRONT); }

  // Sees that the rows show these numbers, lamp by lamp and by their names.
  async shows(what, address, data) {
    const seen = await this.seen();
    assert.deepEqual(seen.address, rowOf('Address lamps', address, 18), what);
    assert.deepEqual(seen.data, rowOf('Data lamps', data, 16), what);
  }

  // Waits until one of the flags is lit or dark, and gives them all.
  async flags(name, isLit) {
    await this.page.until(`(${FRONT}).flags.${name}[0] ${isLit ? '> 0' : '=== 0'}`);
    return (await this.seen()).flags;
  }
}

// Each lamp of both rows, and each lever, by one bit after another.
async function lamps({ page, say }) {
  const words = Array.from({ length: 16 }, (_, bit) => 1 << bit);
  const front = await Front.of(page, `deposit 1000 ${words.map(octal).join(' ')}`);
  for (let bit = 0; bit < 18; bit++) {
    await front.load(1 << bit);
    await front.shows(`LOAD ADRS of bit ${bit}`, 1 << bit, 0);
    assert.deepEqual((await front.seen()).switches, rowOf('Switches', 1 << bit, 18), `the levers of bit ${bit}`);
  }
  await front.load(0o1000);
  for (const [bit, word] of words.entries()) {
    await front.press('exam');
    await front.shows(`EXAM of bit ${bit}`, 0o1000 + 2 * bit, word);
  }
  await front.load(0o4000);
  await front.shows('LOAD ADRS behind EXAM', 0o4000, 0);
  const { levers } = await front.seen();
  assert.deepEqual(levers, Array.from({ length: 18 }, (_, n) => `Switch ${17 - n}:${17 - n}`));
  await page.click('#switches .lever:nth-child(18)');
  await settle(page);
  assert.equal((await front.seen()).switches.name, 'Switches 004001', 'a lever that is clicked');
  assert.equal(await front.does('examine 777570'), 'EXAM 777570 004001\n', 'what the machine reads of the switches');
  say('each lamp of the address and of the data, and each lever, is that of its bit, and the names say the same numbers');
}

// EXAM and DEP again and again, in memory and among the registers, and in turn.
async function steps({ page, say }) {
  const general = [0o11, 0o22, 0o33, 0o44, 0o55, 0o66, 0o100, 0o2000];
  const front = await Front.of(page, ...general.map((word, number) => `set ${number} ${octal(word)}`), 'set 10 300', 'deposit 1000 123 456');
  await front.load(0o777700);
  for (const [number, word] of general.entries()) {
    await front.press('exam');
    await front.shows(`EXAM of register ${number}`, 0o777700 + number, word);
  }
  await front.load(0o777716);
  await front.press('exam');
  await front.shows("EXAM of the user's stack pointer", 0o777716, 0o300);
  await front.load(0o777716);
  await front.press('dep');
  await front.shows("DEP of the user's stack pointer", 0o777716, 0o177716);
  assert.match(await front.does('regs'), /^SP 000100 177716 /m);
  await front.load(0o777777);
  await front.press('exam');
  await front.shows('EXAM of an address that nothing answers to', 0o777777, 0);
  await front.load(0o777700);
  await front.set(0o177);
  await front.press('dep', 'dep');
  await front.shows('DEP of R1', 0o777701, 0o177);
  assert.match(await front.does('regs'), /^REGS 000177 000177 000033 /);
  await front.load(0o1000);
  await front.press('exam', 'exam');
  await front.shows('EXAM of the second word', 0o1002, 0o456);
  await front.set(0o125252);
  await front.press('dep');
  await front.shows('DEP where EXAM was', 0o1002, 0o125252);
  await front.press('dep');
  await front.shows('DEP of the word behind it', 0o1004, 0o125252);
  await front.press('exam');
  await front.shows('EXAM where DEP was', 0o1004, 0o125252);
  assert.equal(await front.does('examine 1000 4'), 'EXAM 001000 000123\nEXAM 001002 125252\nEXAM 001004 125252\nEXAM 001006 000000\n');
  say('EXAM and DEP again go on by a word in memory and by one among the registers, and in turn they stay');
}

// The six flags: of a machine that is stopped, one that runs, and one that runs a user by its pages.
async function flags({ page, say }) {
  const named = (lit) => Object.fromEntries(['RUN', 'PROC', 'BUS', 'CONSOLE', 'USER', 'VIRTUAL'].map((name) => {
    const isLit = lit.includes(name);
    return [name, [Number(isLit), `${name} lamp, ${isLit ? 'on' : 'off'}`]];
  }));
  const front = await Front.of(page, 'deposit 1000 777', 'set 0 5', 'set 7 1000');
  await page.until("document.querySelector('#address').ariaLabel === 'Address lamps 001000'");
  await front.shows('a machine that is stopped', 0o1000, 5);
  assert.deepEqual(await front.flags('RUN', false), named(['CONSOLE']), 'stopped');
  await page.eval("app.desk.type('continue 99999999')");
  assert.deepEqual(await front.flags('RUN', true), named(['RUN', 'PROC', 'BUS']), 'in a run');
  await front.shows('a loop of one instruction', 0o1000, 5);
  await page.eval('app.desk.halt()');
  await page.until('!app.desk.isRunning');
  for (const [name, lit, lines] of [
    ['USER', ['USER'], ['deposit 777776 140000']],
    ['VIRTUAL', ['USER', 'VIRTUAL'], ['deposit 772300 77406', 'deposit 777600 77406', 'deposit 777572 1']],
  ]) {
    for (const line of lines) assert.equal(await front.does(line), 'OK\n');
    await page.eval("app.desk.type('continue 99999999')");
    await front.flags('RUN', true);
    assert.deepEqual(await front.flags(name, true), named(['RUN', 'PROC', 'BUS', ...lit]), `a run with ${lit}`);
    await page.eval('app.desk.halt()');
    await page.until('!app.desk.isRunning');
  }
  say('each of the six flags is lit when it should be, and its name says so');
}

// START, CONT and the switch HALT; and what the other keys do while the machine runs: nothing.
async function switched({ page, say }) {
  const front = await Front.of(page, 'deposit 1000 5200 5200 777');
  await front.press('halt');
  assert.deepEqual([(await front.seen()).halt, (await front.seen()).isHalt], ['HALT', 'true']);
  await front.load(0o1000);
  await front.press('start');
  assert.equal(await page.eval('app.desk.isRunning'), false, 'START runs in spite of HALT');
  await front.shows('START at HALT', 0o1000, 0);
  await front.press('cont');
  await front.shows('one instruction', 0o1002, 1);
  await front.press('halt');
  assert.deepEqual([(await front.seen()).halt, (await front.seen()).isHalt], ['ENABLE', 'false']);
  await front.press('cont');
  await front.flags('RUN', true);
  await page.until("document.querySelector('#address').ariaLabel === 'Address lamps 001004'");
  await front.set(0o4321);
  await front.press('load', 'exam', 'dep');
  await front.shows('keys in a run', 0o1004, 2);
  await front.press('halt');
  await page.until('!app.desk.isRunning');
  await page.until("document.querySelector('#data').ariaLabel === 'Data lamps 000002'");
  await front.shows('behind HALT', 0o1004, 2);
  await front.press('halt');
  await front.load(0o1000);
  await front.press('start');
  await page.until("document.querySelector('#data').ariaLabel === 'Data lamps 000004'");
  await page.eval('app.desk.halt()');
  await page.until('!app.desk.isRunning');
  say('START, CONT and HALT do what they say, and in a run the others do nothing');
}

// The levers by the keyboard: the arrows go from one to the next, around both ends.
async function levers({ page, say }) {
  const front = await Front.of(page);
  const at = () => page.eval('document.activeElement.textContent');
  await page.eval("document.querySelector('#switches .lever[tabindex=\"0\"]').focus()");
  const first = await at();
  await page.key('ArrowRight');
  assert.equal(+(await at()), (+first + 17) % 18, 'the arrow to the right');
  await page.key('ArrowLeft');
  await page.key('ArrowLeft');
  assert.equal(+(await at()), (+first + 1) % 18, 'the arrow to the left');
  await page.type('7777777');
  assert.deepEqual((await front.seen()).switches, rowOf('Switches', 0o777777, 18));
  await page.type('000000');
  await settle(page);
  say('the arrows go from lever to lever');
}

// Levers and HALT are the machine's: those of a new one, behind a line that sets the register, when the page is opened again, and where a
// machine is booted with HALT down.
async function followed({ page, say }) {
  const front = await Front.of(page), are = (number) => page.until(`app.panel.switches === ${number} && document.querySelector('#switches').ariaLabel === 'Switches ${octal(number)}'`);
  await front.set(0o420001);
  await page.eval('app.sessions.fresh(28)');
  await are(0);
  await page.click('#screen');
  await page.type('switches 12345\r');
  await are(0o12345);
  await kept(page);
  await page.reopen(await page.eval('location.href'));
  await page.until('app.back && !app.desk.isHeld');
  await are(0o12345);
  await front.press('halt');
  assert.equal((await front.seen()).isHalt, 'true');
  await page.click('[data-boot=echo]');
  await page.until('app.desk.isTalk');
  assert.equal((await front.seen()).isHalt, 'false', 'the machine runs with HALT down');
  await page.eval('app.desk.halt()');
  say('levers and HALT are those of the machine');
}

module.exports = { lamps, steps, flags, switched, levers, followed, Front };
