// Sessions that are cut at random places and go on from their kept pages (cuts-page.js), in the browser; a fault that is planted is seen.
'use strict';
const assert = require('assert');

const EVENTS = 800, TAILS = 100;

async function cuts({ page, url, say }) {
  await page.navigate(`${url}tests/cuts.html`);
  await page.until("document.readyState === 'complete' && typeof tails === 'function'");
  const cut = (seed, name, more) => page.eval(`cut(${JSON.stringify({ seed, events: EVENTS, pack: `/examples/${name}.pack`, script: `/examples/${name}.p11`, ...more })})`);
  let all = 0;
  for (const [seed, name] of ['kernel', 'forth'].entries()) {
    const { count, isSame, turns, typed } = await cut(seed, name, { isBusy: name === 'kernel' });
    assert(isSame, `after cut ${count} of ${name} something differs`);
    assert(count > 40 && turns > 1e6, `${count} cuts of ${name}, ${turns} turns`);
    all += count;
    say(`${name}: ${turns.toLocaleString('en')} turns and ${typed.toLocaleString('en')} typed bytes, cut ${count} times: each byte of the module's memory is the same`);
  }
  for (const plant of ['page', 'lines']) {
    assert(!(await cut(1, 'kernel', { isBusy: true, plant })).isSame, `the planted fault "${plant}" is not seen`);
  }
  assert(await page.eval(`tails({ seed: 1, count: ${TAILS} })`), 'what was recorded since the last save comes to another state');
  assert(!await page.eval(`tails({ seed: 1, count: ${TAILS}, plant: true })`), 'turns that are made twice are not seen');
  say(`${all} cuts and ${TAILS} of a save with what was recorded since: nothing differs, and planted faults are seen`);
}

module.exports = { cuts };
