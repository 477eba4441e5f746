// The sessions of the project's tests, line by line through the module in the browser: the texts of the answers and the typed
// bytes are those that are written down (by examples/c/cases), which are those of ./p11.
'use strict';
const assert = require('assert');

async function cases({ page, url, say }) {
  await page.navigate(`${url}tests/cases.html`);
  await page.until("document.readyState === 'complete' && typeof playAll === 'function'");
  const { count, different, lines, wrong } = await page.eval('playAll()');
  assert.deepEqual(wrong, [], 'sessions are answered otherwise');
  assert(different > 0, 'no session was played');
  say(`${count} sessions, ${different} different ones, and ${lines} lines: the same answers and typed bytes as ./p11`);
  return { sessions: different, lines };
}

module.exports = { cases };
