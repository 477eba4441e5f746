// The transcript and its print, a session in a link, the page in a frame, the keypad, bytes with parity, pasted text, and a report.
'use strict';
const assert = require('assert');
const { downloaded, settle, kept } = require('./evening.js');
const { Front } = require('./front.js');

const note = (page, text) => page.until(`document.querySelector('#note').textContent.includes(${JSON.stringify(text)})`);
const shows = (page, text) => page.until(`app.view.text().includes(${JSON.stringify(text)})`);

// All that was shown, also what scrolled off, as a text, and on paper.
async function transcript({ page, native: { folder }, say }) {
  await page.eval('app.sessions.fresh(28)');
  await page.eval("app.say(Array.from({ length: 300 }, (_, n) => `line ${n}\\n`).join(''))");
  await page.until("app.view.shown.includes('line 299')");
  const text = (await downloaded(page, folder, '#transcript', 'transcript.txt')).toString();
  assert(text.includes(Array.from({ length: 300 }, (_, n) => `line ${n}\n`).join('')), 'the transcript lacks lines');
  const print = await page.eval(`[...document.styleSheets].flatMap((it) => [...it.cssRules]).filter((it) => it.media?.mediaText === 'print').map((it) => it.cssText).join('')`);
  const shown = await page.eval(`(() => { const style = document.createElement('style'), rules = new CSSStyleSheet();
    rules.replaceSync(${JSON.stringify(print)}.replace('@media print', '@media screen'));
    document.adoptedStyleSheets = [rules];
    const { scrollHeight, clientHeight } = app.view.element, isAlone = [...document.querySelectorAll('header, footer, #panel, #machine, .tools')].every((it) => !it.checkVisibility());
    document.adoptedStyleSheets = [];
    return [isAlone, scrollHeight <= clientHeight + 1]; })()`);
  assert.deepEqual(shown, [true, true], 'on paper there is more than the transcript, or less');
  say('the transcript is saved and printed whole');
}

// A small session goes into a link, and is run of it behind a question.
async function linked({ page, url, say }) {
  await page.goTo(url);
  await page.eval('app.sessions.fresh(28)');
  await page.click('#screen');
  await page.type('mount 0 examples/boot.pack rw\rdeposit 5000 4321\r');
  await shows(page, 'deposit 5000 4321\nOK');
  await kept(page);
  await page.click('#link');
  await note(page, 'The link is copied; it has ');
  const link = await page.eval('navigator.clipboard.readText()');
  assert(link.startsWith(`${url}#p11z=`) && link.length < url.length + 8192, link);
  await page.replace();
  await page.goTo(link);
  await page.until("document.querySelector('#offer').innerText.startsWith('This link has a session of 2 lines with 0 files for a machine of 28 thousand words.')");
  assert.equal(await page.eval("app.link.ask('record').then((it) => it.includes('boot.pack') && app.store.session.title !== 'A session in a link')"), true);
  await page.click('#offer button');
  await page.until("app.store.session?.title === 'A session in a link' && !app.desk.isHeld && app.view.text().trimEnd().endsWith('p11>')");
  await page.eval("app.desk.command('examine 5000')");
  await shows(page, 'EXAM 005000 004321');
  assert.equal(await page.eval('location.hash'), '');
  await page.eval("location.hash = 'p11z=UEsDBA'");
  await note(page, 'The link has no session: its end is missing.');
  await page.eval(`app.sessions.put('noise', crypto.getRandomValues(new Uint8Array(20000)))`);
  await page.click('#link');
  await note(page, 'characters as a link, and 8,192 are the most: download it.');
  say('a small session is a link, which asks before it runs');
}

// In a frame the page takes no focus from the page around it.
async function framed({ page, url, say }) {
  await page.navigate(`${url}tests/frame.html`);
  await page.until("document.querySelector('iframe')?.contentDocument?.documentElement?.dataset.ready === 'yes'");
  assert.equal(await page.eval("document.activeElement.id"), 'own', 'the frame has taken the focus');
  await page.goTo(url);
  say('a page in a frame takes no focus');
}

// The keypad's codes where a program asks for them, and bytes with parity.
async function sent({ page, say }) {
  const front = await Front.of(page, 'deposit 1000 777', 'start 1000');
  const codes = (text, event) => page.eval(`(app.screen.write(${JSON.stringify([...Buffer.from(text, 'latin1')])}), keysOf(${JSON.stringify(event)}, app.screen))`);
  const textOf = (bytes) => String.fromCharCode(...bytes), five = { key: '5', code: 'Numpad5' }, enter = { key: 'Enter', code: 'NumpadEnter' };
  assert.equal(textOf(await codes('', five)), '5');
  assert.equal(textOf(await codes('\x1b=', five)), '\x1bOu');
  assert.equal(textOf(await codes('', enter)), '\x1bOM');
  assert.equal(textOf(await codes('\x1b[?2l', five)), '\x1b?u');
  assert.equal(textOf(await codes('\x1b<\x1b>', enter)), '\r');
  // It types login: with even parity.
  await front.does('deposit 2000 12701 3000 112100 1406 105737 177564 100375 110037 177566 770');
  await front.does('deposit 2024 105737 177564 100375 0');
  for (const [at, word] of ['067754', '064747', '035356'].entries()) await front.does(`deposit ${(0o3000 + 2 * at).toString(8)} ${word}`);
  const types = async (wanted) => {
    await front.does('start 2000');
    await front.does('continue 10000');
    await shows(page, wanted);
  };
  await types('\nlogin:');
  const choose = (bits) => page.eval(`{ const it = document.querySelector('#bits'); it.value = '${bits}'; it.dispatchEvent(new Event('change')); 0; }`);
  await choose(8);
  await types('\n<EC>o<E7>i<EE>:');
  await choose(7);
  say('the keypad has the codes of a VT100 and of a VT52, and of seven bits parity is not shown');
}

// Pasted text: a tab at the prompt is white space, and what this keyboard lacks is asked about.
async function pastes({ page, say }) {
  await page.eval('app.sessions.fresh(28)');
  await page.click('#screen');
  await page.paste('examine\t2000\t3\r');
  await shows(page, 'p11> examine 2000 3\nEXAM 002000 000000');
  await page.paste('deposit 5000 7\u00fc\r');
  await page.until("document.querySelector('#offer').innerText.startsWith('This keyboard has no \u00fc: nothing of what was pasted is typed yet.')");
  assert(!(await page.eval('app.view.text()')).includes('deposit 5000 7'), 'it was typed before it was asked');
  await page.click('#offer button:nth-of-type(2)');
  await page.click('#screen');
  await page.paste('deposit 5000 7\u00fc\r');
  await page.until('app.offered');
  await page.click('#offer button');
  await shows(page, 'p11> deposit 5000 7\nOK');
  await page.compose('\u00fc');
  await note(page, 'This keyboard has no \u00fc.');
  say('a pasted tab is white space, and what the keyboard lacks is told before anything is typed');
}

// A fault of the page's own is told, and goes into a report.
async function faults({ page, native: { folder }, say }) {
  await page.eval("{ setTimeout(() => { throw new Error('planted'); }); 0; }");
  await page.until("document.querySelector('#faults').innerText.startsWith('Faults of the page itself: 1.')");
  await settle(page);
  const report = (await downloaded(page, folder, '#faults button', 'report.txt')).toString();
  assert.match(report, /^p11 \S+ in a page; .*\n.*(Firefox|Chrome)[^]*planted[^]*The end of the record:\n/, 'the report lacks something');
  const before = page.errors.length;
  assert(page.errors.some((it) => it.includes('planted')), 'the fault is none of the page');
  page.errors.splice(0, before, ...page.errors.filter((it) => !it.includes('planted')));
  say('a fault of the page is told, and a report has it');
}

module.exports = { transcript, linked, framed, sent, pastes, faults };
