// Other ways into the page: a record that is dropped plays there, an address with ?boot=, and the page as one file from a disk.
'use strict';
const assert = require('assert'), fs = require('fs'), path = require('path'), url_ = require('url');
const { typedIn } = require('./compare.js');
const { downloaded, settle, kept } = require('./evening.js');

// A record that is dropped comes to the answers that ./p11 gives; what the machine types is shown as it is.
async function plays({ page, native: { folder }, record, answers, say }) {
  await page.eval("(async () => { await app.sessions.fresh(28); globalThis.heard = ''; })()");
  const pack = fs.readFileSync(path.join(folder, 'my_pack.dsk')).toString('base64');
  await page.eval(`app.sessions.put('my_pack.dsk', Uint8Array.from(atob('${pack}'), (c) => c.charCodeAt(0)))`);
  const file = path.join(folder, 'again.p11');
  fs.writeFileSync(file, record, 'latin1');
  await page.drop(file);
  await page.until(`heard.length >= ${typedIn(answers).length} && !app.desk.isRunning && app.view.text().trimEnd().endsWith('p11>')`);
  assert.equal(await page.eval('heard'), typedIn(answers), 'the record types something else in the page');
  const again = (await downloaded(page, folder, '#record', 'session.p11')).toString('latin1');
  assert.equal(again, record, 'the record of a played record is another');
  say('a record that is dropped on the page plays there, to the same typed bytes and the same record');
}

async function link({ page, url, say }) {
  await page.goTo(`${url}?boot=boot`);
  await page.until("app.view.text().includes('HELLO FROM THE PACK')");
  await kept(page);
  await page.goTo(`${url}?boot=nothing`);
  await page.until("document.querySelector('#note').textContent.includes('Nothing of the name \"nothing\" ships with the page')");
  await page.click('#kept summary');
  const row = "document.querySelector('#kept li:nth-child(2)')";
  await page.until(`${row}?.innerText.startsWith('Hello from a pack (')`);
  await page.click('#kept li:nth-child(2) button');
  await page.until("app.view.text().includes('The session goes on')");
  assert.equal(await page.eval("app.link.ask('regs').then((it) => it.mark)"), 'halted', 'the session before is another');
  say('an address with ?boot= boots, and the session before can be taken up');
}

// A pack and a script that the address names beside the page, and a pack that boots from another drive by its button.
async function beside({ page, url, examples, say }) {
  const hellos = (count) => page.until(`app.view.text().split('HELLO FROM THE PACK').length - 1 === ${count}`);
  await page.goTo(`${url}?pack=examples/boot.pack`);
  await hellos(1);
  await page.until('!app.desk.isRunning');
  const pack = fs.readFileSync(path.join(examples, 'boot.pack')).toString('base64');
  await page.eval(`app.sessions.use('other.pack', Uint8Array.from(atob('${pack}'), (c) => c.charCodeAt(0)), 'pack', 5)`);
  await page.until("!document.querySelector('li[data-drive=\"5\"] .boot').hidden");
  await settle(page);
  await page.click('li[data-drive="0"] .off');
  await page.until("document.querySelector('li[data-drive=\"0\"] .boot').hidden");
  await page.click('li[data-drive="5"] .boot');
  await hellos(2);
  await page.goTo(`${url}?script=examples/add.p11`);
  await page.until("/p11> do add.p11\\n[^]*p11> $/.test(app.view.text().trimEnd() + ' ')");
  for (const [address, told] of [['pack=nothing.dsk', "nothing.dsk isn't there."], ['script=https://example.org/x.p11', "isn't at the place that this page is from."]]) {
    await page.goTo(`${url}?${address}`);
    await page.until(`document.querySelector('#note').textContent.endsWith(${JSON.stringify(told)})`);
  }
  say('an address with ?pack= boots, one with ?script= plays, and each drive has a button that boots');
}

// The governor: in a second of the wall about so many turns as are asked for, and more without it.
async function pace({ page, say }) {
  const rate = () => page.eval(`(async () => { const turns = async () => (await app.link.ask('regs')).turns, began = performance.now(), from = await turns();
    await new Promise((done) => setTimeout(done, 2000)); return Math.round((await turns() - from) / (performance.now() - began) * 1000); })()`);
  await page.eval("(async () => { await app.sessions.fresh(28); app.setPace(400000); })()");
  await page.click('#screen');
  await page.type('deposit 1000 777\rstart 1000\rtalk\r');
  await page.until('app.desk.isRunning');
  const slow = await rate();
  await page.eval('app.setPace(0)');
  const fast = await rate();
  await page.type('\x05');
  await page.until('!app.desk.isRunning');
  assert(slow > 50000 && slow < 450000, `${slow} turns a second at a pace of 400,000`);
  assert(fast > 2 * slow, `${fast} turns a second as it goes`);
  say('the governor holds its pace');
}

// A machine of 124 thousand words, chosen by keys, and a paper tape that is dropped and run.
async function sizes({ page, examples, say }) {
  await page.eval("document.querySelector('#memory').focus()");
  await page.key('End');
  await page.click('#fresh');
  await settle(page);
  await page.click('#screen');
  await page.type('examine 757776\rexamine 760000\r');
  await page.until("/EXAM 757776 000000\\n[^]*\\? 6 NoAnswer/.test(app.view.text())");
  await page.drop(path.join(examples, 'greeting.tape'));
  await page.until("/greeting.tape: \\d+ bytes are in memory; to run it: start 001000/.test(document.querySelector('#note').textContent)");
  await page.click('#screen');
  await page.type('set 6 1000\rstart 1000\rcontinue 10000\r');
  await page.until("/p11> continue 10000\\n[^]*STOP (halt|idle) \\d+ \\d+\\np11>/.test(app.view.text())");
  await page.eval('app.sessions.fresh(28)');
  say('a machine of 124 thousand words loads and runs a tape that is dropped');
}

// What is selected on the screen is copied by Ctrl-C; with nothing selected Ctrl-C is a key.
async function copies({ page, say }) {
  await page.eval('app.sessions.fresh(28)');
  await page.click('#screen');
  await page.type('regs\r');
  await page.until("/TURN 0 ready\\s*p11>\\s*$/.test(document.querySelector('.now').textContent)");
  const line = await page.eval("[...document.querySelectorAll('.now div')].findLastIndex((it) => it.textContent.startsWith('REGS')) + 1");
  await page.select(`.now div:nth-child(${line})`);
  await page.key('c', { ctrl: true });
  await page.until("navigator.clipboard.readText().then((it) => it.trim() === 'REGS 000000 000000 000000 000000 000000 000000')");
  await page.click('#screen');
  await page.type('x\x03');
  await page.until("/p11> x\\^C\\np11>/.test(app.view.text())");
  say('what is selected on the screen is copied');
}

async function single({ page, made, say }) {
  const address = url_.pathToFileURL(path.resolve(made, 'p11.html')).href;
  await page.goTo(address);
  await page.click('[data-boot=boot]');
  await page.until("app.view.text().includes('HELLO FROM THE PACK')");
  await page.click('#screen');
  await page.type('examine 0 2\r');
  await page.until("/EXAM 000000 \\d+\\nEXAM 000002/.test(app.view.text())");
  say(`the page as one file of ${fs.statSync(path.join(made, 'p11.html')).size} bytes opens from a disk and boots`);
}

module.exports = { plays, link, beside, pace, sizes, copies, single };
