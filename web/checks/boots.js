// Each button of the list examples/boots.txt: what it boots, what the note says is to be typed first, and what that answers
// (tests/boots.shown).
'use strict';
const assert = require('assert'), fs = require('fs'), path = require('path');

// Whether what is typed comes to the program, or to the console.
const TAKES = { terminal: 'app.desk.isTalk', console: "app.view.text().trimEnd().endsWith('p11>')" };

function linesOf(file) {
  const lines = fs.readFileSync(file, 'utf8').split('\n').filter((line) => line !== '' && !line.startsWith('#'));
  return lines.map((line) => line.split('|').map((column) => column.trim()));
}

async function boots({ page, examples, say }) {
  const shown = linesOf(path.join(examples, '../tests/boots.shown')), list = linesOf(path.join(examples, 'boots.txt'));
  const buttons = await page.eval("[...document.querySelectorAll('[data-boot]')].map((it) => [it.dataset.boot, it.textContent])");
  assert.deepEqual(buttons, list.map(([name, , , title], at) => [name, at === 0 ? `Start here: ${title}` : title]), 'the buttons are others than the list has');
  for (const [at, [name, where, , , first, about]] of list.entries()) {
    const [, begins, answer] = shown[at], count = (text) => `app.view.text().split(${JSON.stringify(text)}).length`;
    const was = await page.eval(count(begins));
    await page.click(`[data-boot="${name}"]`);
    await page.until(`document.querySelector('#note').textContent === ${JSON.stringify(`${about} Type first: ${first}`)}`);
    await page.until(`${count(begins)} > ${was} && app.link.asked.size === 0 && ${TAKES[where]}`);
    const before = await page.eval(count(answer));
    await page.click('#screen');
    await page.type(`${first}\r`);
    await page.until(`${count(answer)} > ${before}`);
  }
  say(`each of ${list.length} buttons boots, and what is to be typed first is answered`);
}

module.exports = { boots };
