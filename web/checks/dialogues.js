// The dialogues of tests/rattle/p11_talks by the very module in the browser (dialogues-page.js): what is shown, said and
// recorded, the history's lines, the requests and the status are those that are written there, which are those of ./terminal; and a
// machine of its own comes by each record to the same registers and devices. With a prompt of another text a difference is seen.
'use strict';
const assert = require('assert');

async function dialogues({ page, url, say }) {
  await page.navigate(`${url}tests/dialogues.html`);
  await page.until("document.readyState === 'complete' && typeof holdAll === 'function'");
  const { count, wrong, keys } = await page.eval('holdAll()');
  assert.deepEqual(wrong, [], 'dialogues come to something else');
  assert(count > 50 && keys > 1000, `only ${count} dialogues of ${keys} keys`);
  const planted = await page.eval("holdAll((bytes) => bytes.replaceAll('p11> ', 'p10> '))");
  assert(planted.wrong.length > 0, 'another prompt is not seen');
  say(`${count} dialogues of ${keys.toLocaleString('en')} keys: byte for byte as they are written down for ./terminal, each record once more`);
}

module.exports = { dialogues };
