// What a person needs to use the page: nothing is cut off at 360 to 1,600 pixels, each control has a name, and all is reached by
// the keyboard. With SHOTS=FOLDER pictures of the page in both faces are left there.
'use strict';
const assert = require('assert'), path = require('path');

const SIZES = [[360, 740], [701, 900], [800, 1000], [1280, 1000], [1600, 1000]], TARGET = 24;
const SMALL = `[...document.querySelectorAll('button, select, summary')].filter((it) => it.checkVisibility())
  .map((it) => ({ name: it.ariaLabel ?? it.textContent, width: it.getBoundingClientRect().width, height: it.getBoundingClientRect().height }))
  .filter(({ width, height }) => width < ${TARGET} || height < ${TARGET})`;
const AT_END = 'app.view.element.scrollTop + app.view.element.clientHeight > app.view.element.scrollHeight - 20';
const COLUMNS = `new Promise((done) => { app.say('\\n' + 'x'.repeat(80) + '\\n');
  const { element } = app.view, isIn = () => element.scrollWidth <= element.clientWidth;
  const look = () => (app.view.shown.includes('x'.repeat(80)) ? done(isIn()) : setTimeout(look, 20));
  look(); })`;

async function looks({ page, say }) {
  const folder = process.env.SHOTS;
  for (const [width, height] of SIZES) {
    await page.resize(width, height);
    const wide = await page.eval('document.documentElement.scrollWidth');
    assert(wide <= width, `at ${width} pixels the page is ${wide} wide`);
    assert.deepEqual(await page.eval(SMALL), [], `at ${width} pixels these are less than ${TARGET} wide or high`);
    assert.equal(await page.eval(COLUMNS), width > 500, `80 columns at ${width} pixels`);   // below that the letters would be too small
    await page.until(AT_END);
    for (const face of folder ? ['light', 'dark'] : []) {
      await page.shot(path.join(folder, `${page.product.split(' ')[0]}-${width}-${face}.png`), { width, height, face });
    }
  }
  await page.resize();
  say(`nothing is cut off, and no target is below ${TARGET} pixels at ${SIZES.map(([width]) => width).join(', ')} pixels; 80 columns are seen from the second on`);
}

// Each control and lamp, as a screen reader has it, has a name.
async function names({ page, say }) {
  await page.eval('app.sessions.fresh(28)');
  const roles = ['button', 'switch', 'combobox', 'textbox', 'image', 'img'];
  const wanted = ['Switch 0', 'Switch 17', 'HALT', 'RUN lamp, off', 'CONSOLE lamp, on', 'Address lamps 000000', 'Mount a pack on drive 7'];
  const { nameless, lacking, count } = await page.named(roles, wanted);
  assert.deepEqual(nameless, [], 'controls without a name');
  assert.deepEqual(lacking, [], 'nothing has these names');
  say(`${count} controls and lamps have names`);
}

// Without the mouse: a program is toggled in by digits at the switches, the keys of the panel are reached by Tab.
async function keyboard({ page, say }) {
  await page.eval('app.sessions.fresh(28)');
  const focus = (selector) => page.eval(`document.activeElement?.matches(${JSON.stringify(selector)}) ?? false`);
  for (let n = 0; n < 12 && !(await focus('.lever')); n++) await page.key('F6');
  assert(await focus('.lever'), 'F6 never comes to the switches');
  const press = async (key) => {
    for (let n = 0; n < 8 && !(await focus(`[data-key=${key}]`)); n++) await page.type('\t');
    assert(await focus(`[data-key=${key}]`), `Tab never comes to ${key}`);
    await page.type(' ');
    await page.until('app.link.asked.size === 0');
    for (let n = 0; n < 8 && !(await focus('.lever')); n++) await page.key('Tab', { shift: true });
  };
  await page.type('001000');
  await press('load');
  for (const word of ['012700', '000007', '000000']) { await page.type(word); await press('dep'); }
  await page.type('001000');
  await press('load');
  await press('start');
  await page.until("app.view.text().includes('STOP halt 2 001006')");
  for (let n = 0; n < 12 && !(await focus('#keys')); n++) await page.key('F6');
  await page.type('regs\r');
  await page.until("app.view.text().includes('REGS 000007')");
  await page.key('ArrowUp');
  await page.type('\r');
  await page.until("app.view.text().split('REGS 000007').length === 3");
  await page.key('Tab', { shift: true });
  assert(!(await focus('#keys')), 'Shift-Tab does not leave the terminal');
  say('a program was toggled in and run by the keyboard alone');
}

// A keyboard on the glass: composed text comes to the console and to the machine, once; Ctrl, Tab, Esc and the arrows are buttons.
async function glass({ page, say }) {
  const shows = (text, times = 1) => page.until(`app.view.text().split(${JSON.stringify(text)}).length - 1 === ${times}`);
  await page.eval('app.sessions.fresh(28)');
  await page.resize(...SIZES[0]);
  await page.click('#screen');
  await page.compose('examine 4322');
  await page.key('Enter');
  await shows('EXAM 004322 000000');
  await page.click('[data-press=ArrowUp]');
  await page.key('Enter');
  await shows('EXAM 004322 000000', 2);
  await page.click('#control');
  assert.equal(await page.eval("document.querySelector('#control').ariaPressed"), 'true');
  await page.compose('c');
  await shows('p11> ^C');
  await page.click('[data-boot=echo]');
  await page.until('app.desk.isTalk && app.link.asked.size === 0');
  await page.click('#screen');
  const record = () => page.eval("app.link.ask('record')");
  await page.compose('phone');
  await shows('phone');
  await page.click('[data-press=Tab]');
  await page.click('[data-press=Escape]');
  await page.click('[data-press=ArrowLeft]');
  for (let was = ''; !/key .*\\033\[D\n/.test(was); was = await record()) await page.until('app.panel.lamps.keys === 0');
  const keys = [...(await record()).matchAll(/^key (.*)$/gm)].map(([, text]) => text).join('');
  assert(keys.endsWith('phone\\011\\033\\033[D'), `other keys came to the machine: ${keys}`);
  await page.click('#console');
  await page.until('!app.desk.isRunning');
  await page.resize();
  say('text that is composed comes to the console and to the machine, and Ctrl, Tab, Esc and arrows are buttons');
}

module.exports = { looks, names, keyboard, glass };
