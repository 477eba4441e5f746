// The console in the page by real keys: completion of words and of the names of files that ship with the page, editing, the history, which a
// further machine has too, a question, which may stand while the page is closed, and the end of a dialogue, whose session stays kept.
'use strict';
const assert = require('assert');
const { sleep } = require('./page.js');
const { kept } = require('./evening.js');
const { isBack, keptWhole } = require('./back.js');

// A pack on drive 2 with a sector that no file has.
const CHANGES = 'mount 2 /dev/null rw\rdeposit 1000 777\rstart 1000\rdeposit 777410 1000\rdeposit 777406 177400\rdeposit 777412 40000\r'
  + 'deposit 777404 3\rstep 200\r';
const KEEPS_MS = 2500;   // in which the changed pages are kept where they may be

async function editing({ page, say }) {
  const shows = (text, times = 1) => page.until(`app.view.text().split(${JSON.stringify(text)}).length - 1 >= ${times}`);
  await page.eval('app.sessions.fresh(28)');
  await page.click('#screen');
  await page.type('dep\t5000 32');
  await page.key('ArrowLeft');
  await page.type('\b45');
  await page.key('End');
  await page.type('1\rdo examples/ad\t\r');
  await shows('p11> deposit 5000 4521\nOK');
  await shows('p11> do examples/add.p11');
  await page.until("app.view.text().trimEnd().endsWith('p11>') && /STOP halt \\d+/.test(app.view.text())");
  await page.type('mount 0 /dev/null rw\rsave 0 mine\runmount 0\rmount 1 /dev/null rw\rsave 1 mine\rsave 1 examples/add.p11\rn');
  await shows('examples/add.p11 is there: write over it (y, or another key)? no');
  await kept(page);
  const first = await page.eval('app.store.session.id');
  await page.type('quit\r');
  await shows('(The session is over, and kept; here is a new machine.)');
  await page.until(`(app.store.session?.id ?? ${first}) !== ${first} && !app.desk.isHeld`);
  await page.click('#screen');
  for (let n = 0; n < 2; n++) await page.key('ArrowUp');
  await shows('p11> save 1 examples/add.p11', 2);
  await page.type('\x15examine 5000\r');
  await shows('EXAM 005000 000000');
  assert(await page.eval(`app.sessions.reopen(${first})`), 'the session that was ended is not kept');
  await page.click('#screen');
  await page.type('\x05\x15examine 5000\r');   // what was typed when its pages were kept stands there
  await shows('EXAM 005000 004521');
  say('words and files are completed, lines edited and recalled, a question asked, and a dialogue that was ended goes on when it is opened');
}

// A pack with sectors that no file has is taken off by its button in a run: the console asks, a key answers, and the run goes on.
async function asked({ page, say }) {
  const at = 'li[data-drive="2"]', find = (name) => `document.querySelector('${at} .${name}')`;
  await page.eval('app.sessions.fresh(28)');
  await page.click('#screen');
  await page.type(`${CHANGES}talk\r`);
  await page.until(`app.desk.isRunning && ${find('changed')}.textContent === '1 changed'`);
  for (const [key, isOff] of [['n', false], ['y', true]]) {
    await page.click(`${at} .off`);
    await page.until("document.querySelector('#note').textContent === 'Drive 2 has sectors that no file has: lose them (y, or another key)? '");
    await page.type(key);
    await page.until(`app.desk.isRunning && app.link.asked.size === 0 && ${find('off')}.hidden === ${isOff}`);
    assert.equal(await page.eval("document.querySelector('#note').textContent"), '');
  }
  await page.type('\x05');
  await page.until("!app.desk.isRunning && app.view.text().trimEnd().endsWith('p11>')");
  const record = await page.eval("app.link.ask('record')");
  assert.match(record, /\ndeposit 777404 3\nstep 200\n(step \d+\n)+unmount 2\n(step \d+\n)+$/, 'the record is another');
  say('a pack with sectors that no file has is taken off behind a question, and the run that it was taken off in goes on');
}

// A page that is closed while a question stands is back at the prompt: nothing was done, and the next key is taken.
async function unanswered({ page, url, say }) {
  const record = () => page.eval("app.link.ask('record')");
  await page.eval('app.sessions.fresh(28)');
  await page.eval("app.sessions.put('mine', new Uint8Array(1))");
  await page.click('#screen');
  await page.type(`${CHANGES}deposit 5000 4521\r`);
  await page.until("app.view.text().trimEnd().endsWith('p11> deposit 5000 4521\\nOK\\np11>')");
  const questions = { 'unmount 2': 'Drive 2 has sectors that no file has: lose them', 'save 2 mine': 'mine is there: write over it' };
  for (const [line, question] of Object.entries(questions)) {
    await keptWhole(page);
    const was = await record();
    await page.type(`${line}\r`);
    await page.until(`app.view.text().trimEnd().endsWith('${question} (y, or another key)?')`);
    await page.eval(`app.sessions.put('${line}', new Uint8Array(1))`);   // a page is another one
    await sleep(KEEPS_MS);
    await page.reopen(url);
    await isBack(page);
    await page.until("app.view.text().trimEnd().endsWith('p11>')");
    assert.equal(await record(), was, `behind "${line}" the record is another`);
    await page.click('#screen');
    await page.type('examine 5000\r');
    await page.until("app.view.text().trimEnd().endsWith('p11> examine 5000\\nEXAM 005000 004521\\np11>')");
  }
  say('a page that is closed at a question is back at the prompt, where the next key is taken');
}

module.exports = { editing, asked, unanswered };
