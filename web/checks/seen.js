// What is in sight: after a boot, a key and an answer the cursor is, at sizes from a phone's to a projector's and at 200 %, in letters of
// 10 pixels at least; the panel is folded where the window is low; and nobody who scrolls elsewhere is brought back before a key.
'use strict';
const assert = require('assert'), path = require('path'), fs = require('fs');

const SIZES = [[360, 640], [390, 760], [1280, 720], [1366, 625], [1920, 950]], HALVES = [[640, 360], [683, 312], [960, 475]];   // at 200 %
const LEAST = 10, LOW = 780;
const CURSOR = `(() => { const at = document.querySelector('#screen .cursor')?.getBoundingClientRect(), box = app.view.element.getBoundingClientRect();
  return Boolean(at) && at.top >= Math.max(0, box.top) && at.bottom <= Math.min(innerHeight, box.bottom) && at.left >= Math.max(0, box.left)
    && at.right <= Math.min(innerWidth, box.right); })()`;
const LETTERS = "parseFloat(getComputedStyle(document.querySelector('#screen .now')).fontSize)";
const frames = (page) => page.eval('new Promise((done) => requestAnimationFrame(() => requestAnimationFrame(done)))');

async function sight({ page, say }) {
  const folder = process.env.SHOTS, sees = (when, size) => page.until(CURSOR).catch(() => { throw new Error(`${when} at ${size} the cursor is out of sight`); });
  const shows = (text) => page.until(`app.view.text().slice(before).includes(${JSON.stringify(text)})`);
  for (const size of [...SIZES, ...HALVES]) {
    await page.resize(...size);
    await page.eval("{ app.focus(); scrollTo(0, 0); globalThis.before = app.view.text().length; 0; }");
    await page.until(`document.querySelector('#front').open === ${size[1] > LOW}`);
    await page.click('[data-boot=forth]');
    await shows('HELP for more. ok');
    await page.until('app.desk.isTalk && app.link.asked.size === 0');
    await sees('after a boot', size);
    await page.type('WORDS\r');
    await shows('SWAP DROP DUP  ok');
    await sees('after an answer', size);
    await page.eval('scrollTo(0, 0)');
    await page.type('1');
    await sees('after a key', size);
    await page.key('Backspace');
    assert(await page.eval(LETTERS) >= LEAST, `at ${size} the letters have ${await page.eval(LETTERS)} pixels`);
    if (folder) fs.writeFileSync(path.join(folder, `${page.product.split(' ')[0]}-${size.join('x')}-words.png`), await page.capture());
    await page.type('\x05');
    await page.until("!app.desk.isRunning && app.view.text().trimEnd().endsWith('p11>')");
    await sees('after Ctrl-E', size);
  }
  assert.match(await page.eval('app.view.text().slice(before)'), /\n\(examples\/forth\.p11: 3 lines, each OK\)\np11> talk\n/, 'the OKs of a boot are not folded');
  await page.resize(...SIZES[1]);
  await page.eval("{ app.focus(); app.view.follow(); scrollTo(0, 1e6); 0; }");
  await frames(page);
  const at = await page.eval('scrollY');
  await page.eval("app.say('x\\n'.repeat(30))");
  await frames(page);
  assert.equal(await page.eval('scrollY'), at, 'one who scrolls elsewhere is brought back');
  await page.resize();
  say(`the cursor is in sight after a boot, a key and an answer at ${SIZES.length} sizes and at 200 %, in letters of ${LEAST} pixels at least`);
}

// The size of the letters, and the terminal on the full screen; what is chosen is there when the page is opened again.
async function letters({ page, url, say }) {
  const choose = (value) => page.eval(`{ const it = document.querySelector('#letters'); it.value = '${value}'; it.dispatchEvent(new Event('change')); 0; }`);
  await choose(24);
  assert.equal(await page.eval(LETTERS), 24);
  await page.click('#front summary');
  await page.goTo(url);
  assert.deepEqual([await page.eval(LETTERS), await page.eval("document.querySelector('#front').open")], [24, false], 'what was chosen is not kept');
  await choose('');
  await page.click('#front summary');
  const [before, isPressed] = [await page.eval(LETTERS), "document.querySelector('#whole').ariaPressed"];
  await page.click('#whole');
  await page.until(`document.fullscreenElement?.id === 'terminal' && ${isPressed} === 'true'`);
  await frames(page);
  assert(await page.eval(LETTERS) >= before, 'the letters of a full screen are smaller');
  await page.click('#whole');
  await page.until(`document.fullscreenElement === null && ${isPressed} === 'false'`);
  say('the size of the letters and the fold of the panel are kept, and the terminal has the full screen');
}

module.exports = { sight, letters };
