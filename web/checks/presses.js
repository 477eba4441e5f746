// A new machine in the middle of a busy run: 20 presses of New machine and of buttons that boot, and two at a time. Each time the
// machine that was asked for last is there, and answers.
'use strict';
const assert = require('assert');
const { settle } = require('./evening.js');

const PRESSES = 20;

async function presses({ page, say }) {
  const count = (text) => page.eval(`app.view.text().split(${JSON.stringify(text)}).length - 1`);
  const more = (text, was) => page.until(`app.view.text().split(${JSON.stringify(text)}).length - 1 > ${was}`);
  await page.eval('app.sessions.fresh(28)');
  for (let n = 0; n < PRESSES; n++) {
    await page.click('#screen');
    await page.type('deposit 1000 777\rstart 1000\rtalk\r');
    await page.until('app.desk.isRunning && app.panel.lamps.isRunning && app.panel.lamps.rate > 0');
    const machine = await page.eval('app.sessions.machine'), isBoot = n % 2 === 1, hellos = await count('HELLO FROM THE PACK');
    if (n % 4 >= 2) await page.eval(`document.querySelector('${isBoot ? '#fresh' : '[data-boot=boot]'}').click()`);
    await page.click(isBoot ? '[data-boot=boot]' : '#fresh');
    await page.until(`app.sessions.machine > ${machine}`);
    if (isBoot) await more('HELLO FROM THE PACK', hellos);
    await settle(page);
    await page.until('!app.desk.isRunning && !app.panel.lamps.isRunning');
    const answers = await count('EXAM 005000 000000');
    await page.click('#screen');
    await page.type('examine 5000\r');
    await more('EXAM 005000 000000', answers);
  }
  assert.deepEqual(page.errors, [], 'errors of the page');
  say(`${PRESSES} presses of New machine and of a button that boots, in busy runs: the machine that was asked for is there each time`);
}

module.exports = { presses };
