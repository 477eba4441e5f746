// What a person did stays kept: behind any number of boots and lessons, told where there is much of it, and offered where the same program
// is opened again; and a browser whose storage never answers.
'use strict';
const assert = require('assert');
const { downloaded, kept, settle } = require('./evening.js');
const { sleep } = require('./page.js');

const BOOTS = 22, MOST = 20, MOST_MS = 5000;
const shows = (page, text) => page.until(`app.view.text().includes(${JSON.stringify(text)})`);
const offers = (page, text) => page.until(`document.querySelector('#offer').innerText.startsWith(${JSON.stringify(text)})`);
const ids = (page) => page.eval('app.store.list().then((all) => all.map(({ id }) => id))');
const forgetOthers = (page) => page.eval('(async () => { for (const { id } of await app.store.list()) if (id !== app.store.session.id) await app.store.forget(id); })()');

// Three deposits, and then so many boots that nothing is typed to.
async function untouched({ page, url, say }) {
  await page.goTo(url);
  await page.eval('app.sessions.fresh(28)');
  await page.click('#screen');
  await page.type('deposit 5000 1\rdeposit 5002 2\rdeposit 5004 3\r');
  await shows(page, 'deposit 5004 3\nOK');
  await kept(page);
  const first = await page.eval('app.store.session.id'), was = await page.eval('app.view.text().length');
  for (let n = 1; n <= BOOTS; n++) {
    await page.click('[data-boot=boot]');
    await page.until(`app.view.text().slice(${was}).split('HELLO FROM THE PACK').length > ${n} && app.link.asked.size === 0 && !app.desk.isRunning`);
  }
  const all = await ids(page);
  assert(all.includes(first), 'what a person did is gone');
  const alone = await page.eval('app.store.list().then((all) => all.filter(({ origin, isTouched }) => origin && !isTouched).length)');
  assert(alone >= 6 && alone <= 7, `${alone} boots that were left alone are kept`);
  assert(await page.eval(`app.sessions.reopen(${first})`));
  await page.eval("app.desk.command('examine 5004')");
  await shows(page, 'EXAM 005004 000003');
  say(`three deposits are there behind ${BOOTS} boots that nothing was typed to`);
}

// The same boot again, by its button and by an address: the last session of it can be gone on with.
async function goesOn({ page, url, say }) {
  await forgetOthers(page);
  await page.goTo(`${url}?boot=add`);
  await settle(page);
  assert(await page.eval('!app.offered'), 'something is offered before there is anything');
  await page.click('#screen');
  await page.type('deposit 5000 4321\r');
  await shows(page, 'deposit 5000 4321\nOK');
  await kept(page);
  const first = await page.eval('app.store.session.id');
  for (let n = 0; n < 3; n++) {
    await page.goTo(`${url}?boot=add`);
    await offers(page, 'Your last session of this, of ');
  }
  await page.click('#offer button');
  await page.until(`app.store.session?.id === ${first} && !app.desk.isHeld`);
  await page.eval("app.desk.command('examine 5000')");
  await shows(page, 'EXAM 005000 004321');
  say('a program that is booted again offers the last session of it');
}

// Many sessions that a person did something in: none goes, and the oldest can be downloaded and forgotten.
async function many({ page, native: { folder }, say }) {
  for (let n = 0; n <= MOST + 1; n++) {
    await page.eval(`(async () => { await app.sessions.fresh(28); await app.desk.command('deposit 5000 ${n.toString(8)}'); await app.store.last; })()`);
  }
  await page.until('app.offered');
  const told = await page.eval("document.querySelector('#offer').innerText"), before = await ids(page);
  assert.match(told, /^2\d sessions are kept in this browser\. The one that was used longest ago is .*, of .*\. Download and forget it Keep it$/);
  const oldest = await page.eval('app.store.oldest().then(({ session }) => session.id)');
  const record = await downloaded(page, folder, '#offer button', `session-${oldest}.p11`);
  assert(record.length > 0);
  await page.until(`app.store.list().then((all) => all.length === ${before.length - 1} && !all.some(({ id }) => id === ${oldest}))`);
  await forgetOthers(page);
  say(`of ${before.length} sessions none goes unasked, and the oldest is forgotten behind its download`);
}

// Storage that never answers is told within five seconds, and the machine goes on; so it is where it stops answering.
async function silent({ page, url, say }) {
  const told = "document.querySelector('#refused').innerText.includes(\"keeps nothing more of this session (its storage doesn't answer)\")";
  const never = await page.before('globalThis.began = performance.now(); indexedDB.open = () => ({});');
  await page.navigate(url);
  await page.until(`globalThis.app?.desk && ${told}`);
  const ms = await page.eval('performance.now() - began');
  assert(ms < MOST_MS, `it was told after ${ms} ms`);
  await never();
  await page.until("document.documentElement.dataset.ready === 'yes'");
  await page.click('#screen');
  await page.type('examine 1000\r');
  await shows(page, 'EXAM 001000 000000');
  await page.goTo(url);
  await page.eval('app.sessions.fresh(28)');
  await settle(page);
  await page.eval(`(() => { const { transaction } = IDBDatabase.prototype;
    globalThis.answers = null;
    IDBDatabase.prototype.transaction = function (...words) {
      const it = transaction.apply(this, words);
      Object.defineProperty(it, 'oncomplete', { set(done) { if (globalThis.answers) it.addEventListener('complete', done); else globalThis.late = done; } });
      return it;
    }; })()`);
  await page.eval("app.desk.command('deposit 5000 1')");
  await page.until(told);
  await shows(page, 'deposit 5000 1\nOK');
  await page.eval('{ globalThis.answers = true; late(); 0; }');
  await page.until("document.querySelector('#refused').hidden");
  await sleep(100);
  say('storage that never answers is told, and the machine goes on');
}

module.exports = { untouched, goesOn, many, silent };
