// What the browser keeps: a session whose claim the browser is slow to grant; a second tab has a machine of its own, and takes the
// session over if it is asked to; the list of sessions; and storage that is full.
'use strict';
const assert = require('assert');
const { downloaded, kept } = require('./evening.js');
const { withoutRemark } = require('./compare.js');

const attempt = (page, line) => page.eval(`app.desk.command(${JSON.stringify(line)})`);
const shows = (page, text) => page.until(`app.view.text().includes(${JSON.stringify(text)})`);
const idOf = (page) => page.eval('app.store.session.id');

// The browser takes longer to grant a claim than the page waits for a tab that is closing.
const SLOW = `(() => {
  const { request } = navigator.locks;
  navigator.locks.request = async () => {
    navigator.locks.request = request;
    throw new DOMException('slow', 'TimeoutError');
  };
})()`;

async function slow({ page, url, say }) {
  await page.goTo(url);
  await page.eval('app.sessions.fresh(28)');
  await attempt(page, 'deposit 5000 321');
  await kept(page);
  const first = await idOf(page), was = await page.before(SLOW);
  await page.goTo(url);
  await was();
  await shows(page, 'The session goes on');
  assert.equal(await idOf(page), first, 'the page took a slow browser for another tab');
  say('a session is back where the browser is slow to grant it');
}

async function tabs({ page, url, say }) {
  const asks = await page.before("navigator.storage.persist = async () => { globalThis.asked = (globalThis.asked ?? 0) + 1; };");
  await page.goTo(url);
  await asks();
  await page.eval('app.sessions.fresh(28)');
  await attempt(page, 'deposit 5000 123');
  await attempt(page, 'deposit 5000 123');
  await kept(page);
  assert.equal(await page.eval('globalThis.asked'), 1, 'the browser is not asked once to keep what is stored');
  const first = await idOf(page), other = await page.tab();
  await other.goTo(url);
  await other.until("document.querySelector('#offer').innerText.startsWith('The last session is open in another tab')");
  await other.until(`(app.store.session?.id ?? ${first}) !== ${first}`);
  await attempt(other, 'deposit 6000 1');
  await attempt(page, 'deposit 5002 77');
  await kept(page);
  assert.equal(await idOf(page), first);
  await other.eval("document.querySelector('#offer button').click()");
  await shows(other, 'The session goes on');
  await attempt(other, 'examine 5000 2');
  await shows(other, 'EXAM 005002 000077');
  await shows(page, 'The session goes on in another tab; here is a new machine.');
  await page.until(`(app.store.session?.id ?? ${first}) !== ${first}`);
  await kept(other);
  await other.leave();
  await page.reopen(url);
  await shows(page, 'The session goes on');
  assert.equal(await idOf(page), first, 'the session that was used last is another');
  say('two tabs have a session each, and the second takes the first one\'s over');
}

// Each kept session is opened, renamed, exported, and forgotten behind one question.
async function list({ page, native: { folder }, say }) {
  const first = await idOf(page), row = `#kept li[data-session="${first}"]`, text = `(document.querySelector('${row}')?.innerText ?? '')`;
  await page.eval("document.querySelector('[data-boot=boot]').click()");
  await shows(page, 'HELLO FROM THE PACK');
  await page.eval("document.querySelector('#kept').open || document.querySelector('#kept summary').click()");
  await page.until(`/^Session ${first}: \\d+ \\w+.*, 0 turns, 1 KB /.test(${text}) || /^Session ${first}: \\w+ \\d+.*, 0 turns, 1 KB /.test(${text})`);
  await page.click(`${row} button:nth-of-type(2)`);
  await page.type('Mine\r');
  await page.until(`${text}.startsWith('Mine: ')`);
  const record = await downloaded(page, folder, `${row} button:nth-of-type(3)`, `session-${first}.p11`);
  assert.equal(withoutRemark(record.toString('latin1')), 'deposit 5000 123\ndeposit 5000 123\ndeposit 5002 77\nexamine 5000 2\n');
  await page.click(`${row} button:nth-of-type(1)`);
  await page.until(`${text}.includes(', here')`);
  await attempt(page, 'examine 5002');
  await shows(page, 'EXAM 005002 000077');
  await page.eval('app.sessions.fresh(28)');
  await page.until(`document.querySelectorAll('${row} button').length === 4`);
  await page.click(`${row} button:nth-of-type(4)`);
  await page.until("document.querySelector('#offer').innerText.startsWith('Mine: its record and its files go for good.')");
  await page.click('#offer button:nth-of-type(2)');
  assert.notEqual(await page.eval(text), '', 'a session goes without a yes');
  await page.click(`${row} button:nth-of-type(4)`);
  await page.click('#offer button:nth-of-type(1)');
  await page.until(`${text} === ''`);
  say('kept sessions are listed, renamed, exported, opened, and forgotten behind a question');
}

// Storage that is full is said, and stays said while the machine goes on, until a session begins that can be kept. Where there is no room
// for the pages of the memory alone, the record is kept all the same.
async function full({ page, say }) {
  await page.eval(`{ globalThis.put = IDBObjectStore.prototype.put; globalThis.refused = 0; IDBObjectStore.prototype.put = function (it) {
    if (it.n === undefined) return put.call(this, it);
    refused++;
    throw new DOMException('x', 'QuotaExceededError'); }; 0; }`);
  await attempt(page, 'deposit 5000 7');
  await page.until("refused > 0 && app.store.kept(app.store.session?.id).then((it) => it?.lines.at(-1) === 'deposit 5000 7' && it.pages === null)");
  assert(await page.eval("document.querySelector('#refused').hidden"), 'it is said that nothing is kept, and the record is');
  await page.eval('{ IDBObjectStore.prototype.put = put; 0; }');
  const told = "document.querySelector('#refused').innerText.includes('keeps nothing more of this session (its storage is full)')";
  await page.eval("{ globalThis.put = IDBObjectStore.prototype.put; IDBObjectStore.prototype.put = () => { throw new DOMException('x', 'QuotaExceededError'); }; 0; }");
  await attempt(page, 'deposit 5000 1');
  await page.until(told);
  await attempt(page, 'examine 5000');
  await shows(page, 'EXAM 005000 000001');
  assert(await page.eval(told), 'that the storage is full does not stay said');
  await page.eval('{ IDBObjectStore.prototype.put = put; 0; }');
  await page.eval('app.sessions.fresh(28)');
  await page.until("document.querySelector('#refused').hidden");
  say('storage that is full is said, and stays said');
}

// What an earlier form of the page kept, which had no pages of the memory, goes on too.
async function earlier({ page, url, say }) {
  await page.navigate(`${url}tests/cases.html`);
  await page.until("document.title === 'p11: sessions'");
  await page.eval(`new Promise((done) => { indexedDB.deleteDatabase('p11').onsuccess = () => {
    const request = indexedDB.open('p11', 1);
    request.onupgradeneeded = () => {
      request.result.createObjectStore('sessions', { keyPath: 'id', autoIncrement: true });
      request.result.createObjectStore('lines', { keyPath: ['id', 'from'] });
      request.result.createObjectStore('files', { keyPath: ['id', 'name'] });
    };
    request.onsuccess = () => {
      const all = request.result.transaction(['sessions', 'lines'], 'readwrite');
      all.objectStore('sessions').put({ id: 1, used: 1, kwords: 28, steps: 0, turns: 0, count: 1, bytes: 17 });
      all.objectStore('lines').put({ id: 1, from: 0, lines: ['deposit 5000 123'] });
      all.oncomplete = () => { request.result.close(); done(true); };
    };
  }; })`);
  await page.goTo(url);
  await shows(page, 'The session goes on');
  await attempt(page, 'examine 5000');
  await shows(page, 'EXAM 005000 000123');
  assert.equal(await idOf(page), 1);
  say('a session that an earlier form of the page kept goes on');
}

module.exports = { slow, tabs, list, full, earlier };
